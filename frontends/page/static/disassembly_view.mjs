// The words around pc, each with its line of the source.

import { byId, element, setText, setTitle } from './dom.mjs';
import { hex } from './answers.mjs';

const HEAD = ['', 'Address', 'Word', 'Instruction', 'Line of the source'];
/** Instructions whose last operand is an address. */
const TO_ADDRESS = /^(?:JP|CALL|SYS|LD I,).* ?#([0-9a-f]{3})$/;
const IMAGE_START = 512;

export class DisassemblyView {
  #body = element('tbody');
  #rows = [];
  #goToLine;

  /** `goToLine(line)` shows a line of the source. */
  constructor(goToLine) {
    this.#goToLine = goToLine;
    const head = element('tr', {}, ...HEAD.map((name) => element('th', { textContent: name, scope: 'col' })));
    const columns = HEAD.map(() => element('col'));
    const table = element('table', {}, element('colgroup', {}, ...columns), element('thead', { className: 'unseen' }, head), this.#body);
    table.setAttribute('aria-label', 'Words around pc, with their lines');
    byId('disassembly').append(table);
  }

  /** `machine` is null where there is none; `lineText(line)` is the text of a line of its source. */
  show(machine, { map, image, names }, lineText) {
    const { words, registers } = machine ?? { words: [] };
    while (this.#rows.length < words.length) this.#addRow();
    this.#rows.forEach((row, place) => {
      row.element.hidden = place >= words.length;
      if (place < words.length) this.#showRow(row, words[place], { pc: registers.pc, line: map.lineAt(words[place].address), image, lineText, names });
    });
  }

  /** A row whose cells stay, so that only what changes is drawn anew. */
  #addRow() {
    const cells = HEAD.map(() => element('td'));
    const number = element('button', { type: 'button', className: 'row-button', title: 'To this line of the source' });
    const text = element('span');
    const row = { element: element('tr', {}, ...cells), cells, number, text, line: null };
    number.addEventListener('click', () => this.#goToLine(row.line));
    // it is seen where pc is: to take it in and out would lay the table out anew
    cells[0].append('▸');
    cells[4].append(number, ' ', text);
    this.#rows.push(row);
    this.#body.append(row.element);
  }

  #showRow(row, { address, word, text }, { pc, line, image, lineText, names }) {
    const assembled = line === null ? word : (wordOf(image, address - IMAGE_START) ?? word);
    const here = address === pc;
    const target = TO_ADDRESS.exec(text);
    const name = target === null ? null : names.at(parseInt(target[1], 16));
    const shown = name === null ? text : `${text} ${name}`;
    setText(row.cells[1], hex(address, 4));
    setText(row.cells[2], word);
    setText(row.cells[3], shown);
    setTitle(row.cells[1], names.at(address) ?? '');
    setTitle(row.cells[3], shown);
    row.element.classList.toggle('here', here);
    if (here !== (row.element.ariaCurrent === 'true')) row.element.ariaCurrent = here ? 'true' : null;
    row.cells[2].classList.toggle('changed', assembled !== word);
    setTitle(row.cells[2], assembled === word ? '' : `the source has ${assembled} here`);
    row.line = line;
    row.number.hidden = line === null;
    setText(row.number, line === null ? '' : String(line));
    setText(row.text, line === null ? '' : lineText(line).trim().replace(/\s+/g, ' '));
  }
}

function wordOf(image, offset) {
  return image !== null && offset + 1 < image.length ? hex(image[offset] * 256 + image[offset + 1], 4) : null;
}
