// The text area of the source, which holds the lines around the cursor: a browser lays all the lines of a text area out at each key. A
// short text is held whole, and so is a selection while a part of it is near the cursor. The lines in sight are held too where the
// browser itself is to find a place in them: under a finger, and for a menu of its own.

import { difference } from './source_text.mjs';

const WHOLE_LINES = 40;
/** So many lines on either side of the cursor, and of those in sight; and how near to its ends the area is made to hold other lines. */
const SPARE_LINES = 16;
const NEAR_LINES = 4;
/** More lines than these aren't held after an edit. */
const MOST_LINES = 100;

export class TextWindow {
  #area;
  #source;
  #onHeld;
  /** The first and the last line that the area holds, where its text begins, and how long it is. */
  #first = 1;
  #last = 1;
  #base = 0;
  #length = 0;
  /** The selection, while it is far from the lines that the area holds; else null, and the area has it. */
  #far = null;
  /** What is to be put into the area, and where; else null. */
  #pending = null;
  #inSight = [1, 1];
  /** Whether the lines in sight are held too; always so where there may be a finger. */
  #isTouched = matchMedia('(any-pointer: coarse)').matches;
  #isWide = this.#isTouched;
  #isComposing = false;

  /** `onHeld(first, last)` is told which lines the area holds. */
  constructor(area, source, onHeld) {
    this.#area = area;
    this.#source = source;
    this.#onHeld = onHeld;
    area.addEventListener('compositionstart', () => {
      this.#isComposing = true;
    });
    area.addEventListener('compositionend', () => {
      this.#isComposing = false;
    });
  }

  get isComposing() {
    return this.#isComposing;
  }

  /** The places between which the text is selected, and in which direction. */
  get selection() {
    if (this.#far !== null) return this.#far;
    const { selectionStart, selectionEnd, selectionDirection } = this.#area;
    return { start: this.#base + selectionStart, end: this.#base + selectionEnd, direction: selectionDirection };
  }

  /** The place of the cursor: the end of the selection that moves. */
  get cursor() {
    const { start, end, direction } = this.selection;
    return direction === 'backward' ? start : end;
  }

  /** Another text, with the cursor at its begin. */
  restart() {
    this.#far = { start: 0, end: 0, direction: 'none' };
    this.#hold(1, 1 + SPARE_LINES);
  }

  select(start, end, direction = 'none') {
    this.flush();
    this.#far = { start, end, direction };
    const isHeld = start >= this.#base && end <= this.#base + this.#length && !this.#isNearEnd(this.#source.lineAt(direction === 'backward' ? start : end));
    if (isHeld) this.#takeSelection();
    else this.#holdAround();
  }

  /** Another part of the source is in sight. */
  lookAt(first, last) {
    this.#inSight = [first, last];
    if (this.#isWide) this.#holdSight();
  }

  /** The browser is to find a place in what is in sight: it is held until a key is pressed. */
  widen() {
    this.#isWide = true;
    this.#holdSight();
  }

  #holdSight() {
    const [first, last] = this.#inSight;
    const { length } = this.#source.lines;
    const isHeld = this.#first <= Math.max(1, first - NEAR_LINES) && this.#last >= Math.min(length, last + NEAR_LINES);
    if (!isHeld && !this.#isComposing) this.#hold(first, last);
  }

  /** Before the cursor is moved or something is typed: the area holds the cursor, and lines on both sides of it. */
  comeBack() {
    if (this.#isComposing) return;
    const isWider = this.#isWide && !this.#isTouched;
    this.#isWide = this.#isTouched;
    if (isWider || this.#far !== null || this.#isNearEnd(this.#source.lineAt(this.cursor))) this.#holdAround();
  }

  /** Forgets a selection that is far away: the pointer makes another one. */
  leaveFar() {
    this.#far = null;
  }

  /**
   * Puts a text in place of a part, with the cursor behind it. The area itself takes it at the next `flush`: a browser lays the page
   * out when a text area is given a text, so all else that changes comes before.
   */
  replace(start, end, text) {
    const isHeld = this.#far === null && start >= this.#base && end <= this.#base + this.#length;
    this.#source.replace(start, end, text);
    this.#far = { start: start + text.length, end: start + text.length, direction: 'none' };
    if (!isHeld) {
      this.#holdAround();
      return;
    }
    this.#pending = { start: start - this.#base, end: end - this.#base, text };
    this.#follow(text.length - (end - start));
  }

  /** The area takes what was put in place of a part last. */
  flush() {
    if (this.#pending === null) return;
    const { start, end, text } = this.#pending;
    this.#pending = null;
    this.#area.setRangeText(text, start, end, 'end');
    this.#takeSelection();
  }

  /** Takes over what the browser has changed in the area: where, what was removed, and what was inserted. */
  takeInput() {
    const before = this.#source.text.slice(this.#base, this.#base + this.#length);
    const change = difference(before, this.#area.value);
    const at = this.#base + change.at;
    this.#source.replace(at, at + change.removed.length, change.inserted);
    this.#follow(change.inserted.length - change.removed.length);
    return { ...change, at };
  }

  /** The area holds so many characters more: its lines are counted anew, and fewer are held where they became many. */
  #follow(more) {
    this.#length += more;
    this.#last = this.#source.lineAt(this.#base + this.#length);
    if (this.#last - this.#first > MOST_LINES && !this.#isComposing) this.#holdAround();
    else this.#onHeld(this.#first, this.#last);
  }

  #isNearEnd(line) {
    return (line - this.#first < NEAR_LINES && this.#first > 1) || (this.#last - line < NEAR_LINES && this.#last < this.#source.lines.length);
  }

  /** Holds the line of the cursor, and where those in sight are held too, these if it is one of them or near. */
  #holdAround() {
    const line = this.#source.lineAt(this.cursor);
    const [first, last] = this.#inSight;
    const isWithSight = this.#isWide && line >= first - NEAR_LINES && line <= last + NEAR_LINES;
    this.#hold(isWithSight ? Math.min(first, line) : line, isWithSight ? Math.max(last, line) : line);
  }

  /** Holds some lines, those beside them, and the selection where a part of it is among these. */
  #hold(from, to) {
    this.#pending = null;
    const { selection } = this;
    const { length } = this.#source.lines;
    const [selectedFirst, selectedLast] = [this.#source.lineAt(selection.start), this.#source.lineAt(selection.end)];
    let [first, last] = length <= WHOLE_LINES ? [1, length] : [Math.max(1, from - SPARE_LINES), Math.min(length, to + SPARE_LINES)];
    const isNear = selectedFirst <= last && selectedLast >= first;
    if (isNear) [first, last] = [Math.min(first, selectedFirst), Math.max(last, selectedLast)];
    [this.#first, this.#last] = [first, last];
    this.#base = this.#source.startOf(first);
    const text = this.#source.text.slice(this.#base, this.#source.endOf(last));
    this.#length = text.length;
    this.#area.value = text;
    this.#far = selection;
    this.#takeSelection(isNear);
    this.#onHeld(first, last);
  }

  /** The area has the selection from now on, or, where that is far, none that is seen. */
  #takeSelection(isNear = true) {
    const { start, end, direction } = this.#far;
    const place = (at) => Math.max(0, Math.min(this.#length, at - this.#base));
    this.#area.setSelectionRange(place(start), place(end), direction);
    if (isNear) this.#far = null;
    this.#area.toggleAttribute('data-far', !isNear);
  }
}
