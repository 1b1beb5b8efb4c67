// What was changed of the key events, to be undone and made again: one change, or one play as a whole.

import { History } from './history.mjs';

const MOST_CHANGES = 5000;

/** Changes of a script, the newest last: which events became what, and of which play they are, if of one. */
export class KeyHistory extends History {
  /** Of what was kept; empty where that can't be read. */
  static of(kept) {
    const history = new KeyHistory();
    history.take(kept, isChange);
    return history;
  }

  /** How many changes the last play has, where the last change is of one; else 0. */
  get lastPlay() {
    return groupAtEnd(this.done);
  }

  /** How many changes the play has that was undone last, where all of them can be made again; else 0. */
  get nextPlay() {
    return groupAtEnd(this.undone);
  }

  /** A script became another: `play` names the play that the change is of, `move` a movement whose changes are one. */
  record(before, after, { play = null, move = null } = {}) {
    const events = differences(before, after);
    if (events.length === 0) return;
    this.undone = [];
    const last = this.done.at(-1);
    if (move !== null && last?.move === move) this.done[this.done.length - 1] = { ...last, events: joined(last.events, events) };
    else this.done.push({ events, play, move });
    if (this.done.length > MOST_CHANGES) this.done.shift();
  }

  /** The script before the last change, or, with `wholePlay`, before the play that it is of. */
  undo(keys, wholePlay = false) {
    return this.#move(keys, this.done, this.undone, 'before', wholePlay);
  }

  /** The script after the change, or the play, that was undone last. */
  redo(keys, wholePlay = false) {
    return this.#move(keys, this.undone, this.done, 'after', wholePlay);
  }

  #move(keys, from, to, side, wholePlay) {
    const count = wholePlay ? Math.max(1, groupAtEnd(from)) : 1;
    let moved = keys;
    for (let left = Math.min(count, from.length); left > 0; left -= 1) {
      const change = from.pop();
      to.push(change);
      moved = change.events.reduce((script, event) => withState(script, event, event[side]), moved);
    }
    return moved;
  }
}

function groupAtEnd(changes) {
  const play = changes.at(-1)?.play ?? null;
  if (play === null) return 0;
  return changes.length - 1 - changes.findLastIndex((change) => change.play !== play);
}

/** The events that differ: whether each was down, and is; null where there was none, or is none. */
function differences(before, after) {
  const place = ({ step, key }) => `${step} ${key}`;
  const was = new Map(before.events.map((event) => [place(event), event]));
  const is = new Map(after.events.map((event) => [place(event), event]));
  return [...new Set([...was.keys(), ...is.keys()])]
    .map((at) => ({ ...(was.get(at) ?? is.get(at)), before: was.get(at)?.down ?? null, after: is.get(at)?.down ?? null }))
    .filter((event) => event.before !== event.after)
    .map(({ step, key, before: had, after: has }) => ({ step, key, before: had, after: has }));
}

/** The changes of two movements of events as those of one. */
function joined(first, second) {
  const all = new Map(first.map((event) => [`${event.step} ${event.key}`, event]));
  for (const event of second) {
    const at = `${event.step} ${event.key}`;
    all.set(at, { ...event, before: all.has(at) ? all.get(at).before : event.before });
  }
  return [...all.values()].filter((event) => event.before !== event.after);
}

function withState(script, { step, key }, down) {
  return down === null ? script.without(step, key) : script.with(step, key, down);
}

function isChange(one) {
  const isState = (state) => state === null || typeof state === 'boolean';
  return (
    Array.isArray(one?.events) &&
    one.events.every(
      (event) => Number.isSafeInteger(event?.step) && Number.isSafeInteger(event.key) && event.key < 16 && isState(event.before) && isState(event.after),
    )
  );
}
