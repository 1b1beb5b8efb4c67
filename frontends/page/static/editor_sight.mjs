// Which part of the source is in sight, as the browser told it last: to ask it would have it lay the page out at once.

import { byId } from './dom.mjs';
import { ROW } from './editor_rows.mjs';

/** How many columns stay in sight beside the cursor. */
const SPARE_COLUMNS = 4;

export class EditorSight {
  #scroller = byId('editor');
  #gutter = byId('gutter');
  #paper = byId('paper');
  #gutterWidth = 0;
  #lines = 1;

  top = 0;
  left = 0;
  height = 0;
  width = 0;
  /** How wide a column is, in pixels. */
  column = 8;

  /** `onLook()` is called where another part is in sight, `onSize(before)` where there is more or less room than before. */
  constructor(onLook, onSize) {
    this.#scroller.addEventListener('scroll', () => {
      this.look();
      onLook();
    }, { passive: true });
    new ResizeObserver(() => {
      const { top, height } = this;
      this.look();
      onSize({ top, height });
    }).observe(this.#scroller);
  }

  look() {
    const { scrollTop, scrollLeft, clientHeight, clientWidth } = this.#scroller;
    this.#gutterWidth = this.#gutter.offsetWidth;
    Object.assign(this, { top: scrollTop, left: scrollLeft, height: clientHeight, width: clientWidth - this.#gutterWidth });
  }

  /** The first and the last line in sight, of as many lines as there are. */
  get span() {
    const last = Math.min(this.#lines, Math.ceil((this.top + this.height) / ROW));
    return [Math.max(1, Math.min(this.#lines, Math.floor(this.top / ROW) + 1)), Math.max(1, last)];
  }

  /** How many lines a page has. */
  get page() {
    return Math.max(1, Math.floor(this.height / ROW) - 1);
  }

  /** Makes room for so many lines. */
  makeRoom(lines) {
    if (lines === this.#lines && this.#paper.style.height !== '') return;
    this.#lines = lines;
    this.#paper.style.height = `${(lines + 1) * ROW}px`;
  }

  /** Whether a line is in sight, or was, at another height. */
  holds(line, { top, height } = this) {
    const from = (line - 1) * ROW;
    return from >= top && from + ROW <= top + height;
  }

  /** Brings a line into the middle of what is in sight. */
  center(line) {
    this.#scrollTo((line - 1) * ROW - this.height / 2);
  }

  /** Brings a place into sight, and moves no further than it has to. Returns whether it moved. */
  reveal(line, column) {
    const before = [this.top, this.left];
    const top = (line - 1) * ROW;
    if (top < this.top) this.#scrollTo(top);
    else if (top + 2 * ROW > this.top + this.height) this.#scrollTo(top + 2 * ROW - this.height);
    const [from, to] = [(column - SPARE_COLUMNS) * this.column, (column + SPARE_COLUMNS) * this.column];
    if (from < this.left) this.#scrollAcross(from);
    else if (to > this.left + this.width) this.#scrollAcross(to - this.width);
    return before[0] !== this.top || before[1] !== this.left;
  }

  #scrollTo(top) {
    if (this.height === 0) return;
    this.top = Math.max(0, Math.min(top, Math.max(0, (this.#lines + 1) * ROW - this.height)));
    this.#scroller.scrollTop = this.top;
  }

  #scrollAcross(left) {
    this.left = Math.max(0, left);
    this.#scroller.scrollLeft = this.left;
  }

  toBegin() {
    if (this.left !== 0) this.#scrollAcross(0);
  }

  /** The line, and the distance from the text's left edge in pixels, under a pointer. */
  under({ clientX, clientY }) {
    const box = this.#scroller.getBoundingClientRect();
    return { line: Math.floor((clientY - box.top + this.#scroller.scrollTop) / ROW) + 1, x: clientX - box.left - this.#gutterWidth + this.#scroller.scrollLeft };
  }

  get box() {
    return this.#scroller.getBoundingClientRect();
  }

  /** Where a place of the text stands in the window: its left edge, and the top of its line. */
  pixelsOf(line, column, box) {
    return { x: box.left + this.#gutterWidth + column * this.column - this.left, y: box.top + (line - 1) * ROW - this.top };
  }
}
