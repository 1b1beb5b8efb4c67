// The memory at I as a sprite, eight pixels a row; and a sprite that is drawn here as the DB line of the source.

import { byId, element, setAttribute, setText } from './dom.mjs';
import { hex } from './answers.mjs';
import { MOST_ROWS, readSprite, rowText, writeSprite } from './sprite_lines.mjs';

const COLUMNS = 8;

export class SpriteView {
  #editor;
  #place = byId('sprite');
  #state = byId('sprite-state');
  #rows = byId('sprite-rows');
  #machine = null;
  /** The bytes that are drawn here, or null where those at I are shown. */
  #drawn = null;

  constructor(editor) {
    this.#editor = editor;
    this.#rows.addEventListener('input', () => this.#resized());
    this.#listenToPointer();
    byId('sprite-line').addEventListener('click', () => this.#readLine());
    byId('sprite-write').addEventListener('click', () => this.#writeLine());
    this.#draw();
  }

  /** `machine` is null where there is none. */
  show(machine) {
    this.#machine = machine;
    if (this.#drawn === null) this.#draw();
  }

  get #count() {
    return Math.max(1, Math.min(MOST_ROWS, Math.round(Number(this.#rows.value)) || 1));
  }

  get #bytes() {
    if (this.#drawn !== null) return this.#drawn;
    const start = this.#machine?.registers.i ?? 0;
    return Array.from({ length: this.#count }, (_, row) => this.#machine?.memory[start + row] ?? 0);
  }

  #resized() {
    if (this.#drawn !== null) this.#drawn = Array.from({ length: this.#count }, (_, row) => this.#drawn[row] ?? 0);
    this.#draw();
  }

  #draw() {
    const bytes = this.#bytes;
    while (this.#place.children.length > bytes.length * COLUMNS) this.#place.lastChild.remove();
    while (this.#place.children.length < bytes.length * COLUMNS) this.#place.append(this.#pixel(this.#place.children.length));
    [...this.#place.children].forEach((pixel, place) => {
      const isLit = String(((bytes[Math.floor(place / COLUMNS)] >> (7 - (place % COLUMNS))) & 1) === 1);
      setAttribute(pixel, 'aria-pressed', isLit);
    });
    const at = this.#machine === null ? '' : `#${hex(this.#machine.registers.i, 3)}`;
    setText(this.#state, this.#drawn === null ? at : 'drawn here');
    setText(byId('sprite-text'), `DB ${bytes.map(rowText).join(', ')}`);
  }

  #pixel(place) {
    const [row, column] = [Math.floor(place / COLUMNS), place % COLUMNS];
    const button = element('button', { type: 'button', tabIndex: place === 0 ? 0 : -1 });
    button.setAttribute('aria-label', `Row ${row + 1}, column ${column + 1}`);
    // a click without a pointer comes from the keyboard
    button.addEventListener('click', (event) => {
      if (event.detail === 0) this.#flip(row, column);
    });
    button.addEventListener('keydown', (event) => this.#move(event, row, column));
    return button;
  }

  /** Arrows go to the pixel beside. */
  #move(event, row, column) {
    const by = { ArrowLeft: [0, -1], ArrowRight: [0, 1], ArrowUp: [-1, 0], ArrowDown: [1, 0] }[event.key];
    if (by === undefined) return;
    event.preventDefault();
    event.stopPropagation();
    const [down, right] = [row + by[0], column + by[1]];
    if (right >= 0 && right < COLUMNS) this.#place.children[down * COLUMNS + right]?.focus();
  }

  #flip(row, column) {
    this.#paint(row, column, ((this.#bytes[row] >> (7 - column)) & 1) === 0);
  }

  #paint(row, column, isLit) {
    const bit = 1 << (7 - column);
    this.#drawn = [...this.#bytes];
    this.#drawn[row] = isLit ? this.#drawn[row] | bit : this.#drawn[row] & ~bit;
    this.#draw();
  }

  /** A press turns a pixel, and those that the pointer is dragged over become the same. */
  #listenToPointer() {
    let isLit = null;
    const placeUnder = ({ clientX, clientY }) => {
      const pixel = document.elementFromPoint(clientX, clientY);
      return pixel?.parentElement === this.#place ? [...this.#place.children].indexOf(pixel) : -1;
    };
    const paint = (event) => {
      const place = placeUnder(event);
      if (isLit === null || place < 0) return;
      const [row, column] = [Math.floor(place / COLUMNS), place % COLUMNS];
      if ((((this.#bytes[row] >> (7 - column)) & 1) === 1) !== isLit) this.#paint(row, column, isLit);
    };
    this.#place.addEventListener('pointerdown', (event) => {
      const place = placeUnder(event);
      if (event.button !== 0 || place < 0) return;
      this.#place.releasePointerCapture?.(event.pointerId);
      isLit = ((this.#bytes[Math.floor(place / COLUMNS)] >> (7 - (place % COLUMNS))) & 1) === 0;
      paint(event);
    });
    this.#place.addEventListener('pointermove', paint);
    for (const name of ['pointerup', 'pointercancel']) {
      document.addEventListener(name, () => {
        isLit = null;
      });
    }
  }

  /** The sprite that begins in the cursor's line, or, where it has none, that at I again. */
  #readLine() {
    const found = readSprite(this.#editor.lines, this.#editor.line);
    this.#drawn = found === null ? null : found.bytes;
    if (found !== null) this.#rows.value = String(this.#drawn.length);
    this.#draw();
    if (found === null) this.#state.textContent += ' (the line at the cursor isn\'t a DB of bytes)';
  }

  /** In the place of the DB lines from the cursor's on, or as a line before it. */
  #writeLine() {
    const { lines, line } = this.#editor;
    const found = readSprite(lines, line);
    const start = this.#editor.placeOf(line, 0);
    if (found === null) {
      this.#editor.replace(start, start, `        DB ${this.#bytes.map(rowText).join(', ')}\n`);
    } else {
      const last = line + found.lines.length - 1;
      this.#editor.replace(start, this.#editor.placeOf(last, lines[last - 1].length), writeSprite(found.lines, this.#bytes).join('\n'));
    }
    this.#drawn = null;
  }

  /** Drops the drawing, because it belongs to another document. */
  forget() {
    this.#drawn = null;
    this.#draw();
  }
}
