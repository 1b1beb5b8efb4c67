// The mouse in the source: it puts the cursor, and selects characters, words and lines, over any part of the text. The browser's own
// selecting would end where the text area does. A finger is left to the browser.

import { byId } from './dom.mjs';
import { placeOf, widthOf } from './columns.mjs';
import { ROW } from './editor_rows.mjs';

const SCROLL_MILLISECONDS = 40;
/** Columns are as wide as these characters; others are measured. */
const PLAIN = /^[\t\u0020-\u024f]*$/;

const rowsIn = (pixels) => Math.floor(pixels / ROW);

/** The place in a line that is nearest to a distance from its begin. */
export function nearestPlace(text, x, columnWidth, measure) {
  if (PLAIN.test(text)) return placeOf(text, x / columnWidth + 0.5);
  let [place, before] = [0, 0];
  while (place < text.length) {
    const next = place + (text.codePointAt(place) > 0xffff ? 2 : 1);
    const width = measure(text.slice(0, next));
    if ((before + width) / 2 > x) break;
    [place, before] = [next, width];
  }
  return place;
}

/** The word, or the space, around a place of a text. */
export function wordAround(text, place) {
  const kind = (character) => (character === undefined || character === '\n' ? 'end' : /\w/.test(character) ? 'word' : /\s/.test(character) ? 'space' : 'sign');
  let at = place;
  if (kind(text[at]) !== 'word' && kind(text[at - 1]) === 'word') at -= 1;
  const of = kind(text[at]);
  if (of === 'end') return [place, place];
  let [start, end] = [at, at + 1];
  while (start > 0 && kind(text[start - 1]) === of) start -= 1;
  while (kind(text[end]) === of) end += 1;
  return [start, end];
}

export class EditorPointer {
  #editor;
  #sight;
  #area;
  #isMouse = true;
  /** The selection of the press, its number of clicks, and the last pointer; null while no button is down. */
  #held = null;
  #pen = document.createElement('canvas').getContext('2d');

  /** `editor` has the text and takes the selection; `sight` tells what is under the pointer. */
  constructor(editor, sight, area) {
    this.#editor = editor;
    this.#sight = sight;
    this.#area = area;
    const paper = byId('paper');
    paper.addEventListener('pointerdown', (event) => {
      this.#isMouse = event.pointerType === 'mouse';
      if (!this.#isMouse || event.button !== 0) editor.holdSight();
    });
    paper.addEventListener('dragenter', () => editor.holdSight());
    paper.addEventListener('mousedown', (event) => this.#pressed(event));
    document.addEventListener('mousemove', (event) => this.#moved(event));
    document.addEventListener('mouseup', () => this.#released());
  }

  #pressed(event) {
    if (!this.#isMouse || event.button !== 0) {
      this.#editor.leaveFar();
      return;
    }
    event.preventDefault();
    this.#area.focus({ preventScroll: true });
    const place = this.#placeUnder(event);
    if (event.shiftKey && event.detail === 1) {
      const { start, end, direction } = this.#editor.selection;
      const anchor = direction === 'backward' ? end : start;
      this.#held = { start: anchor, end: anchor, count: 1, event };
      this.#extend(place);
    } else {
      const [start, end] = this.#unit(place, event.detail);
      this.#held = { start, end, count: event.detail, event };
      this.#editor.select(start, end);
    }
    this.#scrollWhileOutside();
  }

  #moved(event) {
    if (this.#held === null) return;
    if (event.buttons === 0) {
      this.#released();
      return;
    }
    this.#held.event = event;
    this.#extend(this.#placeUnder(event));
  }

  #released() {
    this.#held = null;
  }

  #extend(place) {
    const { start, end, count } = this.#held;
    const [from, to] = this.#unit(place, count);
    if (from < start) this.#editor.select(from, end, 'backward');
    else this.#editor.select(start, Math.max(end, to), 'forward');
  }

  /** The source moves on while the pointer is held above or below it. */
  #scrollWhileOutside() {
    if (this.#held === null) return;
    const { event } = this.#held;
    const { top, bottom } = this.#sight.box;
    // the further away, the faster
    const by = event.clientY < top ? -1 - rowsIn(top - event.clientY) : event.clientY > bottom ? 1 + rowsIn(event.clientY - bottom) : 0;
    if (by !== 0) {
      const line = Math.max(1, Math.min(this.#editor.lines.length, this.#sight.span[by < 0 ? 0 : 1] + by));
      this.#extend(this.#editor.placeOf(line, by < 0 ? 0 : this.#editor.lines[line - 1].length));
      this.#editor.revealCursor();
    }
    setTimeout(() => this.#scrollWhileOutside(), SCROLL_MILLISECONDS);
  }

  #placeUnder(event) {
    const { line, x } = this.#sight.under(event);
    const { lines } = this.#editor;
    if (line < 1) return 0;
    if (line > lines.length) return this.#editor.placeOf(lines.length, lines.at(-1).length);
    const left = x - this.#editor.textIndent;
    return this.#editor.placeOf(line, left <= 0 ? 0 : nearestPlace(lines[line - 1], left, this.#sight.column, (part) => this.#measured(part)));
  }

  #measured(part) {
    this.#pen.font = getComputedStyle(this.#area).font;
    // a tab is as wide as the spaces up to its stop
    return this.#pen.measureText(part.includes('\t') ? ' '.repeat(widthOf(part)) : part).width;
  }

  /** The place itself, the word around it, or its line. */
  #unit(place, count) {
    if (count < 2) return [place, place];
    const { line, start } = this.#editor.lineOf(place);
    const text = this.#editor.lines[line - 1];
    if (count === 2) return wordAround(text, place - start).map((at) => at + start);
    const isLast = line === this.#editor.lines.length;
    return [start, start + text.length + (isLast ? 0 : 1)];
  }
}
