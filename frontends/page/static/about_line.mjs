// The texts about the cursor's line and the word under the pointer: the address, the fault, a name's value, an instruction.

import { byId, element, setProperty, setText } from './dom.mjs';
import { hex } from './answers.mjs';
import { placeOf } from './columns.mjs';
import { rowOfWord, rowsOf, tokensOf } from './language.mjs';

export class AboutLine {
  #editor;
  #model;
  #assembled;
  #explain;
  #state = byId('line-state');
  #count = byId('fault-count');
  #next = byId('next-fault');
  #hover = byId('hover');
  #told = '';

  /** `assembled()` is what is known of the text; `explain(code)` tells more of a code. */
  constructor(editor, { model, assembled, explain }) {
    this.#editor = editor;
    this.#model = model;
    model.addEventListener('change', ({ detail }) => {
      if (detail === 'options') this.#tellLine();
    });
    this.#assembled = assembled;
    this.#explain = explain;
    const paper = byId('paper');
    editor.addEventListener('cursor', () => this.#tellLine());
    paper.addEventListener('pointermove', (event) => this.#pointed(event));
    for (const name of ['pointerleave', 'keydown', 'pointerdown']) paper.addEventListener(name, () => this.#hide());
    byId('editor').addEventListener('scroll', () => this.#hide(), { passive: true });
    this.#next.addEventListener('click', () => editor.goToFault(true));
  }

  /** Shows the number of faults. */
  showFaults() {
    const lines = this.#editor.faultLines;
    this.#count.classList.toggle('some', lines.length > 0);
    setText(this.#count, lines.length === 0 ? 'no faults' : `${lines.length} ${lines.length === 1 ? 'fault' : 'faults'}, the first in line ${lines[0]}`);
    setProperty(this.#next, 'hidden', lines.length === 0);
    setProperty(byId('faults-badge'), 'hidden', lines.length === 0);
    setText(byId('faults-badge'), String(lines.length));
  }

  #tellLine() {
    const { line, fault } = this.#editor;
    const { address, field } = this.#editor.listing[line - 1] ?? {};
    const bytes = field && fault === null ? `, ${field}` : '';
    const said = fault === null ? '' : `${fault}: ${this.#editor.faultText(line)} `;
    const text = `line ${line}${address === null || address === undefined ? '' : `, #${hex(address, 3)}`}${bytes}`;
    const about = this.#aboutWord();
    if (`${text}${said}${about}` === this.#told) return;
    this.#told = `${text}${said}${about}`;
    this.#state.textContent = said === '' && about !== '' ? `${text}; ${about}` : text;
    if (said === '') return;
    this.#state.append(`; ${said}`);
    const button = element('button', { type: 'button', textContent: 'Explain', title: 'F1' });
    button.addEventListener('click', () => this.#explain(fault));
    this.#state.append(button);
  }

  /** The text about the token at the cursor, in one line. */
  #aboutWord() {
    const { line, column } = this.#editor.cursor;
    return this.#about(line, column).join('; ');
  }

  /** The facts about the token at a place of a line, a row of text for each; empty if there are none. */
  #about(line, place) {
    const token = tokensOf(this.#editor.lines[line - 1] ?? '').find(({ start, text }) => start <= place && place <= start + text.length);
    if (token?.kind === 'mnemonic') return this.#aboutInstruction(line, token.text);
    if (token?.kind === 'directive') return rowsOf(token.text, this.#model.options);
    if (token?.kind !== 'name') return [];
    const symbol = this.#assembled().symbols.find(({ name }) => name === token.text.toUpperCase());
    return symbol === undefined ? [] : [`${symbol.name} = ${symbol.value} (#${hex(symbol.value < 0 ? 2 ** 32 + symbol.value : symbol.value, 3)}), line ${symbol.line}`];
  }

  /** The form that the line has, where the program has made a word of it; else all forms. */
  #aboutInstruction(line, mnemonic) {
    const { field = '' } = this.#editor.listing[line - 1] ?? {};
    const row = this.#editor.faultAt(line) === null && /^[0-9a-f]{4}$/.test(field) ? rowOfWord(field, this.#model.options) : null;
    return row !== null && row.startsWith(mnemonic.toUpperCase()) ? [row] : rowsOf(mnemonic, this.#model.options);
  }

  #pointed(event) {
    const { line, column } = this.#editor.placeAt(event);
    const text = event.target.closest('#fault-help') === null ? this.#editor.lines[line - 1] : undefined;
    const place = text === undefined ? 0 : placeOf(text, column);
    const isOnText = text !== undefined && column >= 0 && place < text.length;
    const rows = isOnText ? [...this.#faultAt(line, place), ...this.#about(line, place)] : [];
    if (rows.length === 0) {
      this.#hide();
      return;
    }
    setText(this.#hover, rows.join('\n'));
    this.#hover.hidden = false;
    const box = this.#hover.getBoundingClientRect();
    this.#hover.style.left = `${Math.max(4, Math.min(event.clientX, innerWidth - box.width - 4))}px`;
    this.#hover.style.top = `${event.clientY + 18 + box.height > innerHeight ? event.clientY - box.height - 10 : event.clientY + 18}px`;
  }

  #faultAt(line, place) {
    const found = this.#editor.faultPlace(line);
    return found !== null && found.start <= place && place < found.end ? [`${found.code}: ${found.sentence}`] : [];
  }

  #hide() {
    setProperty(this.#hover, 'hidden', true);
  }
}
