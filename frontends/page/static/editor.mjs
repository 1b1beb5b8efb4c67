// The source as it is seen: what is in sight, keys and the pointer. Rows beside the text area show all lines that are in sight
// (editor_rows.mjs); editor_text.mjs has the text.

import { byId, oncePerFrame } from './dom.mjs';
import { Breakpoints } from './breakpoints.mjs';
import { columnOf } from './columns.mjs';
import { EditorKeys } from './editor_keys.mjs';
import { EditorPointer } from './editor_pointer.mjs';
import { EditorRows, ROW } from './editor_rows.mjs';
import { EditorSight } from './editor_sight.mjs';
import { EditorText } from './editor_text.mjs';

/** Columns left of the text, as style.css has them. */
const INDENT_COLUMNS = 0.6;

export class Editor extends EditorText {
  #area = byId('source-text');
  #model;
  #rows = new EditorRows(this);
  #sight = new EditorSight(() => this.#draw(), (before) => this.#resizedSight(before));
  #keys = new EditorKeys(this, this.#sight);
  #draw = oncePerFrame(() => this.#drawRows());
  /** Where the page stood when the last key went down. */
  #box = null;

  breakpoints = new Breakpoints();

  constructor(model) {
    super(model);
    this.#model = model;
    model.addEventListener('change', ({ detail }) => {
      if (detail === 'document') this.#begin();
    });
    new EditorPointer(this, this.#sight, this.#area);
    this.#area.addEventListener('keydown', (event) => this.#pressed(event));
    byId('editor').addEventListener('pointerdown', (event) => this.#pointed(event));
    this.breakpoints.addEventListener('change', () => this.#drawRows());
    this.begin('');
    this.#drawRows();
    document.fonts?.ready.then(() => this.#measure());
  }

  #measure() {
    this.#sight.column = this.#rows.measureColumn() || this.#sight.column;
  }

  /** Another document. Its text isn't told as an edit. */
  #begin() {
    this.breakpoints.set(this.#model.breakLines);
    if (!this.begin(this.#model.text)) return;
    this.#fit();
    this.#sight.center(1);
    this.#drawRows();
    this.tellCursor();
  }

  /** The facts about the lines have changed. */
  factsChanged() {
    this.#drawRows();
    this.tellCursor();
  }

  hereChanged() {
    this.#rows.drawHere();
  }

  // What is in sight ----------------------------------------------------------------------------------------------------------

  /** Brings the line that pc is at into sight. */
  revealHere() {
    if (this.here !== null) this.reveal(this.here);
  }

  reveal(line) {
    if (this.#sight.holds(line)) return;
    this.#sight.center(line);
    this.#draw();
  }

  /** Brings the cursor into sight. */
  revealCursor() {
    const { line, column } = this.cursor;
    if (this.#sight.reveal(line, columnOf(this.lines[line - 1], column))) this.#draw();
  }

  /** The line that pc is at stays in sight where it was, and comes into sight where the source was behind a tab. */
  #resizedSight(before) {
    if (before.height === 0) this.#measure();
    const follows = this.here !== null && (before.height === 0 || this.#sight.holds(this.here, before));
    if (follows && this.#sight.height > 0) this.reveal(this.here);
    this.#draw();
  }

  goToLine(line) {
    this.focus();
    this.showLine(line);
    this.#sight.toBegin();
  }

  /** Shows a line, with the cursor in it, and leaves the focus where it is. */
  showLine(line) {
    const place = this.placeOf(line, 0);
    this.select(place, place);
    this.reveal(line);
  }

  /** Puts a card below a line; above it where it would end out of sight, and there is room above. */
  placeCard(card, line) {
    const { top, left, height, width } = this.#sight;
    card.style.maxWidth = `${width - 2 * ROW}px`;
    const tall = card.offsetHeight;
    const [below, above] = [line * ROW + 2, (line - 1) * ROW - tall - 2];
    const isCut = below + tall > top + height && above >= top;
    card.style.transform = `translate(${left}px, ${isCut ? above : below}px)`;
  }

  /** To the next fault after the cursor's line, or the one before; round the end. */
  goToFault(forward) {
    const lines = this.faultLines;
    if (lines.length === 0) return;
    const found = forward ? (lines.find((line) => line > this.line) ?? lines[0]) : (lines.findLast((line) => line < this.line) ?? lines[lines.length - 1]);
    this.goToLine(found);
  }

  placeArea(first, last) {
    const { style } = this.#area;
    style.top = `${(first - 1) * ROW}px`;
    style.height = `${(last - first + 2) * ROW}px`;
  }

  /** Everything drawn around the text follows it. */
  textChanged(was) {
    this.breakpoints.follow(was, this.lines);
    this.#fit();
    if (this.isFocused) this.revealCursor();
    this.#drawRows();
  }

  /** Makes room for the text as it is now. */
  #fit() {
    this.#sight.makeRoom(this.lines.length);
    this.#area.style.width = `${this.widest + 3}ch`;
  }

  #drawRows() {
    this.lookAt(...this.#sight.span);
    this.#rows.draw(this.#sight);
  }

  // Keys and the pointer ------------------------------------------------------------------------------------------------------

  #pressed(event) {
    if (event.defaultPrevented || event.isComposing || ['Control', 'Shift', 'Alt', 'Meta'].includes(event.key)) return;
    this.#box = this.#sight.box;
    this.comeBack();
    if (this.#keys.press(event)) event.preventDefault();
  }

  /** How far the text stands from its left edge, in pixels. */
  get textIndent() {
    return INDENT_COLUMNS * this.#sight.column;
  }

  /** The line and the column, from 0, under a pointer. */
  placeAt(event) {
    const { line, x } = this.#sight.under(event);
    return { line, column: (x - this.textIndent) / this.#sight.column };
  }

  /** Where a column of the cursor's line stands in the window, as it was when the last key went down; and how high a row is. */
  pixelsOf(column) {
    const { x, y } = this.#sight.pixelsOf(this.line, column, this.#box ?? this.#sight.box);
    return { x: x + this.textIndent, y, row: ROW };
  }

  /** A press on a number makes a breakpoint; one elsewhere beside the text goes to that line. */
  #pointed(event) {
    if (byId('paper').contains(event.target) || event.button !== 0 || event.offsetX > byId('editor').clientWidth) return;
    const { line } = this.#sight.under(event);
    event.preventDefault();
    if (event.target.closest?.('.number') && line <= this.lines.length) this.breakpoints.toggle(line);
    else this.goToLine(Math.max(1, Math.min(this.lines.length, line)));
  }
}
