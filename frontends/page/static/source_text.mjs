// The text of a source, by places and by lines. Places count characters from 0, lines from 1.

import { widthOf } from './columns.mjs';

export class SourceText {
  #text = '';
  #lines = [''];
  /** The place at which each line begins. */
  #starts = [0];
  /** How many columns the widest line takes; null where that isn't known. */
  #widest = 0;

  get text() {
    return this.#text;
  }

  set text(text) {
    this.#text = text;
    this.#lines = text.split('\n');
    this.#widest = null;
    this.#begin();
  }

  /** The lines. A change of the text makes another array: one that was handed out stays as it was. */
  get lines() {
    return this.#lines;
  }

  /** How many columns the widest line takes. */
  get widest() {
    this.#widest ??= widestOf(this.#lines);
    return this.#widest;
  }

  startOf(line) {
    return this.#starts[line - 1];
  }

  endOf(line) {
    return this.#starts[line - 1] + this.#lines[line - 1].length;
  }

  lineAt(place) {
    let [low, high] = [0, this.#starts.length];
    while (low + 1 < high) {
      const middle = (low + high) >> 1;
      if (this.#starts[middle] <= place) low = middle;
      else high = middle;
    }
    return low + 1;
  }

  /** Puts a text in place of a part. Lines that stay aren't looked at. */
  replace(start, end, inserted) {
    const [first, last] = [this.lineAt(start), this.lineAt(end)];
    const before = this.#lines[first - 1].slice(0, start - this.startOf(first));
    const after = this.#lines[last - 1].slice(end - this.startOf(last));
    const changed = (before + inserted + after).split('\n');
    this.#fitWidest(this.#lines.slice(first - 1, last), changed);
    this.#text = this.#text.slice(0, start) + inserted + this.#text.slice(end);
    this.#lines = this.#lines.slice(0, first - 1).concat(changed, this.#lines.slice(last));
    this.#begin();
  }

  /** Lines become others: all lines are looked at only where the widest may have gone. */
  #fitWidest(gone, come) {
    if (this.#widest === null) return;
    const most = widestOf(come);
    if (most >= this.#widest) this.#widest = most;
    else if (widestOf(gone) === this.#widest) this.#widest = null;
  }

  #begin() {
    const starts = new Array(this.#lines.length);
    let place = 0;
    for (let line = 0; line < starts.length; line += 1) {
      starts[line] = place;
      place += this.#lines[line].length + 1;
    }
    this.#starts = starts;
  }
}

const widestOf = (lines) => lines.reduce((most, line) => Math.max(most, widthOf(line)), 0);

/** A change of the text: its place, the removed text, and the inserted text. */
export function difference(before, after) {
  let front = 0;
  const shorter = Math.min(before.length, after.length);
  while (front < shorter && before[front] === after[front]) front += 1;
  let back = 0;
  while (back < shorter - front && before[before.length - 1 - back] === after[after.length - 1 - back]) back += 1;
  return { at: front, removed: before.slice(front, before.length - back), inserted: after.slice(front, after.length - back) };
}
