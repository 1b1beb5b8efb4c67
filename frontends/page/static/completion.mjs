// Completions while a word is typed: instructions, directives, registers, and the names of the source.

import { byId, element } from './dom.mjs';
import { hex } from './answers.mjs';
import { DIRECTIVES, MNEMONICS, REGISTERS, rowsOf, tokensOf } from './language.mjs';
import { propertyStart, propertyWords } from './property_line.mjs';

const MOST = 12;
/** How high a row of the list is, and what stands around the rows, in pixels, as style.css has them. */
const LIST_ROW = 20;
const LIST_EDGE = 10;
const LIST_WIDTH = 544;

/** The completions of a word that is being typed: the words that begin with it, as on a machine with these options. */
export function completionsOf(line, place, symbols, { isAsked = false, options = {} } = {}) {
  const token = tokensOf(line).find(({ start, text }) => start < place && place <= start + text.length);
  if (token !== undefined && !/^[A-Za-z_]/.test(token.text)) return null;
  const begun = token === undefined ? '' : token.text.slice(0, place - token.start);
  if (begun.length < 2 && !isAsked) return null;
  const before = line.slice(0, place - begun.length).replace(/^\s*\w+:/, '');
  const isStatement = before.trim() === '';
  const names = symbols.map(({ name, value }) => [name, `= ${value}, #${hex(value < 0 ? 2 ** 32 + value : value, 3)}`]);
  const words = [...MNEMONICS, ...Object.keys(DIRECTIVES)].map((word) => [word, rowsOf(word, options)[0]]);
  const ofStatements = isStatement ? words : [...names, ...REGISTERS.map((word) => [word, 'register'])];
  const isProperty = propertyStart(line) !== null && place >= propertyStart(line);
  const all = isProperty ? propertyWords(line.slice(0, place - begun.length), names) : ofStatements;
  const found = all.filter(([word]) => word.toUpperCase().startsWith(begun.toUpperCase())).slice(0, MOST);
  const isWhole = found.some(([word]) => word.toUpperCase() === begun.toUpperCase());
  if (found.length === 0 || (isWhole && !isAsked)) return null;
  return { start: place - begun.length, begun, found };
}

export class Completion {
  #editor;
  #model;
  #symbols;
  #text = byId('source-text');
  #list = byId('completions');
  #open = null;
  #chosen = 0;

  /** `symbols()` are the names of the source. */
  constructor(editor, model, symbols) {
    this.#editor = editor;
    this.#model = model;
    this.#symbols = symbols;
    this.#text.addEventListener('keydown', (event) => this.#pressed(event), { capture: true });
    this.#text.addEventListener('input', (event) => (event.inputType === 'insertText' ? this.#look(false) : this.#close()));
    for (const name of ['blur', 'pointerdown']) this.#text.addEventListener(name, () => this.#close());
    byId('editor').addEventListener('scroll', () => this.#close(), { passive: true });
  }

  /** Another document: what was offered is of another text. */
  close() {
    this.#close();
  }

  #look(isAsked) {
    const { line, column, start } = this.#editor.cursor;
    const found = completionsOf(this.#editor.lines[line - 1] ?? '', column, this.#symbols(), { isAsked, options: this.#model.options });
    if (found === null) this.#close();
    else this.#show({ ...found, lineStart: start });
  }

  #show(found) {
    this.#open = found;
    this.#chosen = 0;
    const rows = found.found.map(([word, about], place) => {
      const row = element('li', { id: `completion-${place}` }, element('span', { textContent: word }), element('span', { className: 'hint', textContent: about }));
      row.setAttribute('role', 'option');
      row.addEventListener('pointerdown', (event) => {
        event.preventDefault();
        this.#take(place);
      });
      return row;
    });
    this.#list.replaceChildren(...rows);
    this.#list.hidden = false;
    this.#place();
    this.#mark(0);
  }

  /** Below the word that is typed, or above where there is no room. Its size is known: to ask for it would lay the page out. */
  #place() {
    const { x, y, row } = this.#editor.pixelsOf(this.#open.start);
    const height = this.#open.found.length * LIST_ROW + LIST_EDGE;
    const width = Math.min(LIST_WIDTH, innerWidth - 8);
    const below = y + row + height <= innerHeight || y < height;
    Object.assign(this.#list.style, { width: `${width}px`, left: `${Math.max(4, Math.min(x, innerWidth - width - 4))}px`, top: `${below ? y + row : y - height}px` });
  }

  #mark(place) {
    this.#chosen = (place + this.#list.children.length) % this.#list.children.length;
    [...this.#list.children].forEach((row, other) => row.setAttribute('aria-selected', String(other === this.#chosen)));
    this.#text.setAttribute('aria-activedescendant', `completion-${this.#chosen}`);
  }

  #close() {
    if (this.#open === null) return;
    this.#open = null;
    this.#list.hidden = true;
    this.#text.removeAttribute('aria-activedescendant');
  }

  #take(place) {
    const { lineStart, start, begun, found } = this.#open;
    const word = found[place][0];
    const isLower = begun !== '' && begun === begun.toLowerCase();
    this.#close();
    this.#editor.replace(lineStart + start, lineStart + start + begun.length, isLower ? word.toLowerCase() : word);
  }

  #pressed(event) {
    const act = (action) => {
      event.preventDefault();
      event.stopImmediatePropagation();
      action();
    };
    if (event.key === ' ' && event.ctrlKey && !event.altKey) act(() => this.#look(true));
    if (this.#open === null || event.ctrlKey || event.altKey || event.metaKey) return;
    if (event.key === 'ArrowDown') act(() => this.#mark(this.#chosen + 1));
    else if (event.key === 'ArrowUp') act(() => this.#mark(this.#chosen - 1));
    else if (event.key === 'Tab' && !event.shiftKey) act(() => this.#take(this.#chosen));
    else if (event.key === 'Escape') act(() => this.#close());
    else if (['Enter', 'ArrowLeft', 'ArrowRight', 'Home', 'End'].includes(event.key)) this.#close();
  }
}
