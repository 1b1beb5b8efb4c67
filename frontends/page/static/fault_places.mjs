// Where the faults of a text lie, and what the program says of them, by its command `check`.

import { request } from './bridge.mjs';
import { decodeText } from './text_form.mjs';

const LATER_MILLISECONDS = 120;

/**
 * The places in an answer of `check`, by line: the code, the sentence, the first and the last character, and its help. Each fault is a line
 * `NAME:LINE:COLUMN: CODE: SENTENCE`, the line itself, and signs under the place, which is empty where one `^` alone stands behind
 * the text; then its help, a line `help: SENTENCE` or `note: SENTENCE` each. Columns count bytes.
 */
export function readPlaces(output, lines, encoding) {
  const places = new Map();
  const answer = output.split('\n');
  answer.forEach((row, place) => {
    const found = /:(\d+):(\d+): ([A-Z]\d+): (.*)$/.exec(row);
    const marks = /^[ \t]*(\^~*)$/.exec(answer[place + 2] ?? '');
    if (found === null || marks === null) return;
    const [line, column] = [Number(found[1]), Number(found[2])];
    const start = charactersIn(lines[line - 1] ?? '', column - 1, encoding);
    const end = charactersIn(lines[line - 1] ?? '', column - 1 + marks[1].length, encoding);
    const after = answer.slice(place + 3);
    const count = after.findIndex((one) => !/^(help|note): /.test(one));
    const help = after.slice(0, count < 0 ? after.length : count).map((one) => one.replace(/^(help|note): /, ''));
    // the first fault of a line is the one that is shown
    if (!places.has(line)) places.set(line, { code: found[3], sentence: found[4], start, end, help });
  });
  return places;
}

/** How many characters the first bytes of a line are. */
function charactersIn(line, bytes, encoding) {
  return decodeText(line.slice(0, bytes), encoding).length;
}

export class FaultPlaces {
  #model;
  #findings;
  #timer = null;

  constructor(model, findings) {
    this.#model = model;
    this.#findings = findings;
  }

  /** Asks for the places a little later, unless the text changes before. */
  askLater() {
    clearTimeout(this.#timer);
    this.#timer = setTimeout(() => this.#ask(), LATER_MILLISECONDS);
  }

  async #ask() {
    const { wanted } = this.#model;
    const { lines } = wanted;
    const { encoding } = this.#model.form;
    const content = lines.map((line) => `${line}\n`).join('');
    const { status, output } = await request('word', { word: 'check', content }).catch(() => ({ status: -1 }));
    if (status === 1) this.#findings.take('places', wanted, readPlaces(output, lines, encoding));
  }
}
