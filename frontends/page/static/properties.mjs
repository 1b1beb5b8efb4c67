// The properties that the source states of the game in its lines `;!`, with the answers of `prove`, as they are found beside the
// author's work.

import { BackgroundSearch } from './background_search.mjs';
import { request } from './bridge.mjs';
import { propertyStart } from './property_line.mjs';

/** The milliseconds after a change before the page asks which properties the source states. */
const STATE_MILLISECONDS = 300;

/**
 * What `prove --json` prints, as far as it has come: the answers and the faults by their lines, and whether it came to its end.
 * Null for anything else.
 */
export function readProved(output) {
  const read = { answers: new Map(), faults: new Map(), ending: null };
  for (const line of output.split('\n').slice(0, -1)) {
    let told = null;
    try {
      told = JSON.parse(line);
    } catch {
      return null;
    }
    if (told.code !== undefined) read.faults.set(told.line, { code: told.code, message: told.message, help: told.help ?? [] });
    else if (told.answer !== undefined) read.answers.set(told.line, told);
    else if (told.states !== undefined) read.ending = told;
    else return null;
  }
  return read;
}

/** Whether an answer is what the author doesn't want. */
export const isBad = ({ answer }) =>
  answer === 'broken' || answer === 'dead end' || answer.startsWith('never reached') || answer === 'not reached';

/** An answer as a sentence. */
export function answerText({ answer, step, covered }, grouped) {
  const at = step === undefined ? answer : `${answer} at step ${grouped(step)}`;
  if (covered === undefined) return at;
  if (step === undefined) return `${answer} up to step ${grouped(covered)}`;
  return `${at}; no keys do so up to step ${grouped(covered)}`;
}

/** The key events of an answer as a script of keys. */
export const scriptOf = ({ keys }) => (keys ?? []).map(({ step, key, down }) => `${step} ${key} ${down ? 'down' : 'up'}\n`).join('');

/**
 * What is found is what `readProved` gives. Which properties a source states the program says too: it is asked for a run without a
 * step, whose answers are there at once.
 */
export class Properties extends BackgroundSearch {
  #model;
  #findings;
  #ask;
  #timer = null;

  /** `hasRun()` says whether the source has no fault. A source that states nothing is not searched. */
  constructor({ model, findings, hasRun, ask = request }) {
    const hindrance = async () => (!(await hasRun()) ? 'faulty' : (await this.#state()).length === 0 ? 'empty' : null);
    super({ model, findings, command: 'prove', hindrance, ask });
    this.#model = model;
    this.#findings = findings;
    this.#ask = ask;
    model.addEventListener('change', ({ detail }) => {
      if (['document', 'text'].includes(detail)) this.#stateLater();
    });
    findings.addEventListener('change', ({ detail }) => {
      if (detail === 'stated') this.dispatchEvent(new Event('change'));
    });
  }

  /** The properties that the present text states, each with its line and its text, as far as the program has said so. */
  get stated() {
    return this.#findings.present('stated') ?? [];
  }

  #stateLater() {
    clearTimeout(this.#timer);
    this.#timer = setTimeout(() => this.#state().catch(() => {}), STATE_MILLISECONDS);
  }

  /** Asks which properties are stated. */
  async #state() {
    const known = this.#findings.present('stated');
    if (known !== null) return known;
    const { wanted } = this.#model;
    // what a property begins with is nowhere: there is nothing to ask
    const isPlain = wanted.refused.size > 0 || !wanted.lines.some((line) => propertyStart(line) !== null);
    const output = isPlain ? '' : (await this.#ask('stated', { source: wanted.lines.map((line) => `${line}\n`).join('') })).output;
    const stated = statedIn(output, wanted.lines);
    this.#findings.take('stated', wanted, stated);
    return stated;
  }

  read({ output, result }, isWhole) {
    const found = readProved(isWhole ? result.output : (output ?? ''));
    return isWhole && found?.ending === null && found.faults.size === 0 ? null : found;
  }
}

/** The properties that `prove --json` answers, or finds faults in, in the order of their lines. */
export function statedIn(output, lines) {
  const { answers, faults } = readProved(output) ?? { answers: new Map(), faults: new Map() };
  const faulty = [...faults].filter(([, { code }]) => code.startsWith('P'));
  const texts = [...answers].map(([line, { property }]) => ({ line, text: property }));
  const others = faulty.map(([line]) => ({ line, text: (lines[line - 1] ?? '').slice(propertyStart(lines[line - 1] ?? '') ?? 0).trim() }));
  return [...texts, ...others].sort((one, other) => one.line - other.line);
}
