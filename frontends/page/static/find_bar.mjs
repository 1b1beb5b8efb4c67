// Finds and replaces in the source, and goes to a line.

import { byId, grouped, setText } from './dom.mjs';
import { placeFrom, placesOf, replacedAll } from './text_find.mjs';

export class FindBar {
  #editor;
  #form = byId('find');
  #told = byId('find-told');

  constructor(editor) {
    this.#editor = editor;
    const { what, exact, line } = this.#form.elements;
    this.#form.addEventListener('submit', (event) => {
      event.preventDefault();
      this.#act(event.submitter?.value ?? 'next');
    });
    // Enter takes the field that has the focus
    this.#form.addEventListener('keydown', (event) => this.#pressed(event));
    what.addEventListener('input', () => this.#findFrom(this.#editor.selection.start));
    exact.addEventListener('change', () => this.#findFrom(this.#editor.selection.start));
    line.addEventListener('input', () => {
      const number = Number(line.value);
      if (Number.isSafeInteger(number) && number >= 1 && number <= editor.lines.length) this.#editor.showLine(number);
    });
  }

  get #places() {
    const { what, exact } = this.#form.elements;
    return placesOf(this.#editor.text, what.value, exact.checked);
  }

  /** Opens the bar on what is selected; `field` is the one to type into. */
  open(field = 'what') {
    const { start, end } = this.#editor.selection;
    const selected = this.#editor.text.slice(start, end);
    const { elements } = this.#form;
    if (selected !== '' && !selected.includes('\n')) elements.what.value = selected;
    elements.line.max = this.#editor.lines.length;
    this.#form.hidden = false;
    elements[field].select();
    elements[field].focus();
    this.#tell();
  }

  /** To the next place, or the one before. */
  find(forward) {
    if (this.#form.elements.what.value === '') {
      this.open();
      return;
    }
    const { start, end } = this.#editor.selection;
    this.#goTo(placeFrom(this.#places, forward ? end : start, forward));
  }

  #findFrom(cursor) {
    this.#goTo(placeFrom(this.#places, cursor, true));
  }

  #goTo(number) {
    const places = this.#places;
    if (number >= 0) {
      const { what } = this.#form.elements;
      this.#editor.select(places[number], places[number] + what.value.length, 'forward');
      this.#editor.revealCursor();
    }
    this.#tell(number);
  }

  #tell(number = -1) {
    const { what } = this.#form.elements;
    const count = this.#places.length;
    const place = number < 0 ? '' : `${grouped(number + 1)} of `;
    setText(this.#told, what.value === '' ? '' : count === 0 ? 'not found' : `${place}${grouped(count)}`);
  }

  #pressed(event) {
    if (event.key === 'Escape') {
      event.preventDefault();
      event.stopPropagation();
      this.#close();
    }
    if (event.key !== 'Enter' || !(event.target instanceof HTMLInputElement)) return;
    event.preventDefault();
    const acts = { what: event.shiftKey ? 'last' : 'next', by: 'replace', line: 'line' };
    this.#act(acts[event.target.name] ?? 'next');
  }

  #act(name) {
    const acts = { next: () => this.find(true), last: () => this.find(false), replace: () => this.#replace(), all: () => this.#replaceAll(), line: () => this.#close(), close: () => this.#close() };
    acts[name]();
  }

  /** Replaces what is selected, where it is one of the places, and goes on to the next. */
  #replace() {
    const { what, by } = this.#form.elements;
    const { start, end } = this.#editor.selection;
    if (end - start === what.value.length && this.#places.includes(start)) this.#editor.replace(start, end, by.value);
    this.find(true);
  }

  #replaceAll() {
    const { what, by, exact } = this.#form.elements;
    const count = this.#places.length;
    if (count === 0) return;
    this.#editor.replace(0, this.#editor.length, replacedAll(this.#editor.text, what.value, by.value, exact.checked));
    setText(this.#told, `replaced ${grouped(count)}`);
  }

  #close() {
    this.#form.hidden = true;
    this.#editor.focus();
    this.#editor.revealCursor();
  }
}
