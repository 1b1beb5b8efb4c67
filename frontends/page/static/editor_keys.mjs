// Keys that move the cursor over the whole text, and that indent. The rest the browser does in the text area.

import { TAB, indentAfter, outdentLength } from './columns.mjs';

export class EditorKeys {
  #editor;
  #sight;
  /** The column that the cursor had before it went up or down by pages, and where it is since. */
  #goal = { column: 0, at: -1 };

  constructor(editor, sight) {
    this.#editor = editor;
    this.#sight = sight;
  }

  /** Carries a key out. Returns whether it did: the browser is then not to do so. */
  press(event) {
    const control = event.ctrlKey || event.metaKey;
    if (event.altKey) return false;
    const { key, shiftKey } = event;
    if (control) return this.#pressWithControl(event);
    if (key === 'PageDown' || key === 'PageUp') return this.#movePage(key === 'PageDown' ? 1 : -1, shiftKey);
    if (key === 'Tab') return shiftKey ? this.#outdentLines() : this.#indent();
    if (key === 'Enter') return this.#breakLine();
    if (key === 'Backspace') return this.#outdent();
    return false;
  }

  #pressWithControl({ key, code, shiftKey, metaKey }) {
    if (key === 'Home' || (metaKey && key === 'ArrowUp')) return this.#move(0, shiftKey);
    if (key === 'End' || (metaKey && key === 'ArrowDown')) return this.#move(this.#editor.length, shiftKey);
    if (code === 'KeyA' && !shiftKey) {
      this.#editor.select(0, this.#editor.length);
      return true;
    }
    if (code === 'KeyZ' || code === 'KeyY') {
      this.#editor.undo(shiftKey || code === 'KeyY');
      return true;
    }
    if (key !== 'Enter') return false;
    this.#editor.dispatchEvent(new CustomEvent('run', { detail: !shiftKey }));
    return true;
  }

  /** Moves the cursor to a place, and with Shift the end of the selection alone. */
  #move(place, extends_) {
    const { start, end, direction } = this.#editor.selection;
    const anchor = direction === 'backward' ? end : start;
    if (!extends_) this.#editor.select(place, place);
    else this.#editor.select(Math.min(anchor, place), Math.max(anchor, place), place < anchor ? 'backward' : 'forward');
    this.#editor.revealCursor();
    return true;
  }

  /** The cursor moves by as many lines as are in sight, and keeps its column where the line is long enough. */
  #movePage(by, extends_) {
    const { line, column, place } = this.#editor.cursor;
    const goal = this.#goal.at === place ? this.#goal.column : column;
    const to = Math.max(1, Math.min(this.#editor.lines.length, line + by * this.#sight.page));
    const at = this.#editor.placeOf(to, Math.min(goal, this.#editor.lines[to - 1].length));
    this.#goal = { column: goal, at };
    return this.#move(at, extends_);
  }

  #breakLine() {
    this.#editor.type(`\n${indentAfter(this.#editor.lines[this.#editor.line - 1] ?? '')}`);
    return true;
  }

  /** Spaces up to the next eighth column; where several lines are chosen, all of them are indented. */
  #indent() {
    const { start, end } = this.#editor.selection;
    const { text } = this.#editor;
    const first = this.#editor.lineOf(start).start;
    if (!text.slice(start, end).includes('\n')) {
      this.#editor.type(' '.repeat(TAB - ((start - first) % TAB)));
      return true;
    }
    const last = text[end - 1] === '\n' ? end - 1 : end;
    const indented = text.slice(first, last).replace(/^(?=.)/gm, ' '.repeat(TAB));
    this.#editor.replace(first, last, indented);
    this.#editor.select(first, first + indented.length);
    return true;
  }

  /** Takes as much of an indent out of the cursor's line, or of all lines that are chosen. */
  #outdentLines() {
    const { start, end } = this.#editor.selection;
    const { text } = this.#editor;
    const first = this.#editor.lineOf(start).start;
    const last = end > start && text[end - 1] === '\n' ? end - 1 : Math.max(end, first);
    const lineEnd = text.indexOf('\n', last);
    const lines = text.slice(first, lineEnd < 0 ? text.length : lineEnd);
    const without = lines.replace(new RegExp(`^(?: {1,${TAB}}|\\t)`, 'gm'), '');
    if (without === lines) return true;
    this.#editor.replace(first, first + lines.length, without);
    if (lines.includes('\n')) this.#editor.select(first, first + without.length);
    else this.#editor.select(...Array(2).fill(Math.max(first, start - lines.length + without.length)));
    return true;
  }

  /** Takes an indent back whole, where nothing else stands before the cursor. */
  #outdent() {
    const { start, end } = this.#editor.selection;
    const before = this.#editor.text.slice(this.#editor.lineOf(start).start, start);
    const length = start === end ? outdentLength(before) : 0;
    if (length < 2) return false;
    this.#editor.replace(start - length, start, '');
    return true;
  }
}
