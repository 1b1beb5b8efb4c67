// What is drawn of the source around the text area: numbers, colours, addresses and bytes, faults, and the line that pc is at. Only
// the rows in sight, or nearly so, are there.

import { byId, element, setChildren } from './dom.mjs';
import { hex } from './answers.mjs';
import { columnOf, widthOf } from './columns.mjs';
import { coloured } from './colours.mjs';

export const ROW = 20;
const LAYERS = ['gutter', 'bands', 'colours', 'marks', 'fields'];
const SPARE_ROWS = 12;
/** More rows than these aren't kept. */
const MOST_MADE = 1000;

export class EditorRows {
  #content;
  #layers = Object.fromEntries(LAYERS.map((name) => [name, byId(name)]));
  /** The rows of each layer. */
  #drawn = Object.fromEntries(LAYERS.map((name) => [name, []]));
  /** The rows of the gutter, and of the addresses, by line. */
  #rows = new Map();
  #fields = new Map();
  /** The rows as they were made, by their line, each with the text that it was made of. */
  #made = { gutter: new Map(), colours: new Map(), fields: new Map() };
  #band = element('div', { className: 'here', hidden: true });
  /** The rows that are marked as those of the line that pc is at. */
  #marked = [];
  /** A hundred columns, to know how wide one is. */
  #hundred = element('span', { textContent: '0'.repeat(100) });
  #measure = element('div', { className: 'measure' }, this.#hundred);

  /** `content` is the editor: the lines, and what is known of each. */
  constructor(content) {
    this.#content = content;
  }

  measureColumn() {
    return this.#hundred.getBoundingClientRect().width / 100;
  }

  /** Draws the rows that are in sight. */
  draw({ top, height }) {
    const { lines } = this.#content;
    const first = Math.max(0, Math.floor(top / ROW) - SPARE_ROWS);
    const last = Math.min(lines.length, Math.ceil((top + height) / ROW) + SPARE_ROWS);
    for (const made of Object.values(this.#made)) if (made.size > MOST_MADE) made.clear();
    this.#rows = new Map();
    this.#fields = new Map();
    const [bands, marks, colours] = [[this.#band], [this.#measure], []];
    for (let line = first + 1; line <= last; line += 1) {
      const text = lines[line - 1];
      this.#rows.set(line, this.#gutterRow(line));
      this.#fields.set(line, this.#fieldsRow(line));
      colours.push(this.#row('colours', line, text, () => coloured(text)));
      if (this.#content.faultAt(line) === null) continue;
      bands.push(at(line, element('div', { className: 'faulty' })));
      marks.push(...this.#faultMarks(line, text));
    }
    this.#put({ gutter: [...this.#rows.values()], fields: [...this.#fields.values()], bands, colours, marks });
    this.drawHere();
  }

  #put(wanted) {
    for (const name of Object.keys(wanted)) setChildren(this.#layers[name], this.#drawn[name], wanted[name]);
    this.#drawn = wanted;
  }

  /** Marks the line that pc is at, and no other. */
  drawHere() {
    const { here } = this.#content;
    const rows = [this.#rows.get(here), this.#fields.get(here)];
    for (const other of this.#marked) if (!rows.includes(other)) other?.classList.remove('here');
    for (const row of rows) if (row !== undefined && !row.classList.contains('here')) row.classList.add('here');
    this.#marked = rows;
    if (this.#band.hidden !== (here === null)) this.#band.hidden = here === null;
    // it moves in each picture of a play, which needs no layout in this way
    this.#band.style.transform = `translateY(${topOf(here ?? 1)}px)`;
  }

  /** The row that was made of the same text for that line, or a new one. */
  #row(kind, line, text, make) {
    const known = this.#made[kind].get(line);
    if (known?.text === text) return known.row;
    const row = at(line, make());
    this.#made[kind].set(line, { text, row });
    return row;
  }

  /** What is wrong with a line, after it; and a line under the tokens where it is, once the program has said so. */
  #faultMarks(line, text) {
    const told = at(line, element('span', { className: 'told', textContent: `${this.#content.faultAt(line)}: ${this.#content.faultText(line)}` }));
    told.style.left = `${widthOf(text) + 2}ch`;
    const place = this.#content.faultPlace(line);
    if (place === null) return [told];
    const underline = at(line, element('span', { className: 'underline' }));
    const from = columnOf(text, place.start);
    underline.style.left = `${from}ch`;
    underline.style.width = `${Math.max(1, columnOf(text, place.end) - from)}ch`;
    return [told, underline];
  }

  #gutterRow(line) {
    const title = this.#content.coveredAt(line) ?? '';
    const fault = this.#content.faultAt(line) === null ? '' : ' faulty';
    const stop = this.#content.breakpoints.has(line) ? ' break' : '';
    const className = `row${fault}${stop}${title === '' ? '' : ' covered'}`;
    return this.#row('gutter', line, `${className}|${title}`, () =>
      element('div', { className, title }, element('span', { className: 'number', textContent: line }), element('span', { className: 'mark' })),
    );
  }

  /** The address and the bytes of a line, which stand at the right. */
  #fieldsRow(line) {
    const { address, field } = this.#content.listing[line - 1] ?? { address: null, field: '' };
    const shown = address === null ? (this.#content.listing[line - 1] ? '----' : '') : hex(address, 4);
    const name = this.#content.faultAt(line) === null ? 'row' : 'row faulty';
    return this.#row('fields', line, [name, shown, field].join('|'), () =>
      element('div', { className: name }, element('span', { textContent: shown }), element('span', { className: 'field', textContent: field })),
    );
  }
}

const topOf = (line) => (line - 1) * ROW;

/** Puts an element at the height of a line: not by a transform, of which the browser would follow each in each picture. */
function at(line, made) {
  made.style.top = `${topOf(line)}px`;
  return made;
}
