// The card beside a faulty line: what the program says of it, its help, and buttons that put it right.

import { request } from './bridge.mjs';
import { byId, element } from './dom.mjs';
import { readPlaces } from './fault_places.mjs';
import { BYTE_ORDER_MARK, fixed, fixesOf } from './fixes.mjs';
import { encodeText } from './text_form.mjs';

const REST_MILLISECONDS = 400;

export class FaultHelp {
  #editor;
  #model;
  #findings;
  #explain;
  #place = byId('fault-help');
  #timer = null;
  /** The text whose card the author closed. */
  #closed = null;

  /** `explain(code)` tells more of a code. */
  constructor(editor, { model, findings }, explain) {
    this.#editor = editor;
    this.#model = model;
    this.#findings = findings;
    this.#explain = explain;
    editor.addEventListener('cursor', () => this.#later());
    editor.addEventListener('edit', () => this.#hide());
    model.addEventListener('change', ({ detail }) => {
      if (detail === 'document' || detail === 'text') this.#draw();
    });
    findings.addEventListener('change', ({ detail }) => {
      if (detail === 'help') this.#draw();
    });
    byId('source-text').addEventListener('keydown', (event) => this.#pressed(event), { capture: true });
    this.#place.addEventListener('mousedown', (event) => event.preventDefault());
  }

  /** The card of the present text: the line, the fault there and its fixes; null where it is closed. */
  get #shown() {
    return this.#findings.present('help');
  }

  /** Takes the first fix of the line with the cursor, if one is shown. */
  takeFirst() {
    const fix = this.#shown?.fixes[0];
    if (fix !== undefined) this.#take(fix);
  }

  #pressed(event) {
    if (event.key !== 'Escape' || this.#shown === null) return;
    event.preventDefault();
    event.stopImmediatePropagation();
    this.#closed = this.#shown.key;
    this.#hide();
  }

  /** Shows the card once the author rests on a faulty line whose fault the program has told. */
  #later() {
    const { line } = this.#editor;
    if (this.#shown !== null && this.#shown.line !== line) this.#hide();
    clearTimeout(this.#timer);
    const place = this.#editor.faultPlace(line);
    const text = this.#editor.lines[line - 1];
    if (place === null || this.#closed === `${line} ${text}` || this.#shown?.line === line) return;
    this.#timer = setTimeout(() => this.#show(line, place), REST_MILLISECONDS);
  }

  async #show(line, place) {
    if (this.#editor.line !== line || this.#editor.faultPlace(line) !== place) return;
    const text = this.#editor.lines[line - 1];
    const { wanted } = this.#model;
    const card = { line, place, key: `${line} ${text}`, fixes: [] };
    this.#findings.take('help', wanted, card);
    const fixes = await this.#tried(line, fixesOf(text, place));
    // it may have been closed, or be that of another line by now
    if (this.#shown === card) this.#findings.take('help', wanted, { ...card, fixes });
  }

  /** The fixes after which the program finds no fault in the line. */
  async #tried(line, fixes) {
    const { form } = this.#model;
    const lines = this.#editor.lines.map((one) => encodeText(one, form.encoding));
    const tried = await Promise.all(
      fixes.map(async (fix) => {
        const content = lines.with(line - 1, encodeText(fixed(this.#editor.lines[line - 1], fix), form.encoding));
        const { status, output } = await request('word', { word: 'check', content: `${content.join('\n')}\n` }).catch(() => ({ status: -1 }));
        return status === 0 || (status === 1 && !readPlaces(output, content, form.encoding).has(line));
      }),
    );
    return fixes.filter((_, place) => tried[place]);
  }

  #draw() {
    this.#place.hidden = this.#shown === null;
    if (this.#shown === null) return;
    const { line, fixes, place: { code, sentence, help } } = this.#shown;
    const buttons = fixes.map((fix, place) => this.#button(fix.title, place === 0 ? 'Alt+Enter' : '', () => this.#take(fix)));
    buttons.push(this.#button('More', 'F1', () => this.#explain(code)));
    const isMarked = this.#editor.lines[line - 1].startsWith(BYTE_ORDER_MARK);
    const all = isMarked ? [...help, 'the line begins with an invisible byte order mark'] : help;
    const told = [element('strong', { textContent: code }), ` ${sentence}`, ...all.map((one) => element('span', { textContent: one }))];
    this.#place.replaceChildren(element('p', {}, ...told), element('div', { className: 'buttons' }, ...buttons));
    this.#editor.placeCard(this.#place, line);
  }

  #button(title, key, action) {
    const button = element('button', { type: 'button', className: 'bordered' }, title, ...(key === '' ? [] : [element('kbd', { textContent: key })]));
    button.addEventListener('click', action);
    return button;
  }

  #take({ start, end, text }) {
    const { line } = this.#shown;
    const from = this.#editor.placeOf(line, 0);
    this.#hide();
    this.#editor.focus();
    this.#editor.replace(from + start, from + end, text);
  }

  #hide() {
    clearTimeout(this.#timer);
    this.#findings.drop('help');
  }
}
