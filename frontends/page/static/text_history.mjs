// The history of typed text for undo and redo, split at words and at pauses.

import { History } from './history.mjs';
import { difference } from './source_text.mjs';

const PAUSE_MILLISECONDS = 1000;
const MOST_CHANGES = 1000;
const MOST_CHARACTERS = 400_000;

/**
 * Changes of a text, the newest last. A change says where, what was removed and what was inserted, and the selection before and
 * after it.
 */
export class TextHistory extends History {
  #time = -Infinity;

  /** Of what was kept beside a text; empty where it isn't one of that text. */
  static of(kept, text) {
    const history = new TextHistory();
    history.take(kept, isChange);
    const last = history.done.at(-1);
    if (last !== undefined && !holds(text, last.at, last.inserted)) history.#forget();
    return history;
  }

  /** A text became another one. */
  record(before, after, how) {
    this.add(difference(before, after), how);
  }

  /** A part of a text became another one. `isTyped` says that it may be one change with the typing before. */
  add({ at, removed, inserted }, { selectionBefore, selectionAfter, time, isTyped }) {
    if (removed === '' && inserted === '') return;
    const change = { at, removed, inserted, selectionBefore, selectionAfter };
    this.undone = [];
    const joined = isTyped && time - this.#time < PAUSE_MILLISECONDS ? joinedChange(this.done.at(-1), change) : null;
    if (joined === null) this.done.push(change);
    else this.done[this.done.length - 1] = joined;
    this.#time = isTyped ? time : -Infinity;
    this.#trim();
  }

  #trim() {
    let size = this.done.reduce((sum, { removed, inserted }) => sum + removed.length + inserted.length, 0);
    while (this.done.length > 1 && (size > MOST_CHARACTERS || this.done.length > MOST_CHANGES)) {
      const { removed, inserted } = this.done.shift();
      size -= removed.length + inserted.length;
    }
  }

  /** The text and the selection before the last change, and that change; or null where there is none. */
  undo(text) {
    const change = this.#move(this.done, this.undone);
    if (change === null) return null;
    if (!holds(text, change.at, change.inserted)) return this.#forget();
    return result(text, { at: change.at, length: change.inserted.length, part: change.removed }, change.selectionBefore);
  }

  /** The text and the selection after the change that was undone last, and that change; or null. */
  redo(text) {
    const change = this.#move(this.undone, this.done);
    if (change === null) return null;
    if (!holds(text, change.at, change.removed)) return this.#forget();
    return result(text, { at: change.at, length: change.removed.length, part: change.inserted }, change.selectionAfter);
  }

  #move(from, to) {
    this.#time = -Infinity;
    const change = from.pop() ?? null;
    if (change !== null) to.push(change);
    return change;
  }

  /** The changes are not of this text: none of them is to be undone. */
  #forget() {
    this.done = [];
    this.undone = [];
    return null;
  }
}

const holds = (text, at, part) => text.slice(at, at + part.length) === part;

/** `change` says where, how much goes, and what stands there then. */
const result = (text, change, selection) => ({ text: text.slice(0, change.at) + change.part + text.slice(change.at + change.length), change, selection });

/** One change for two, where the second goes on with the typing or the deleting of the first within a word; else null. */
function joinedChange(last, next) {
  if (last === undefined) return null;
  const { selectionAfter } = next;
  const goesOn = next.removed === '' && next.at === last.at + last.inserted.length && last.inserted !== '';
  if (goesOn && next.inserted.length === 1 && !beginsWord(last.inserted.at(-1), next.inserted)) {
    return { ...last, inserted: last.inserted + next.inserted, selectionAfter };
  }
  const deletes = next.inserted === '' && last.inserted === '' && next.removed.length === 1;
  if (!deletes || next.removed === '\n') return null;
  if (next.at + 1 === last.at) return { ...last, at: next.at, removed: next.removed + last.removed, selectionAfter };
  return next.at === last.at ? { ...last, removed: last.removed + next.removed, selectionAfter } : null;
}

const beginsWord = (before, character) => character === '\n' || (/\s/.test(before) && !/\s/.test(character));

function isChange(one) {
  const isSelection = (selection) => Array.isArray(selection) && selection.length === 2 && selection.every(Number.isSafeInteger);
  return (
    Number.isSafeInteger(one?.at) && typeof one.removed === 'string' && typeof one.inserted === 'string' &&
    isSelection(one.selectionBefore) && isSelection(one.selectionAfter)
  );
}
