// The search in time: what is looked for, the progress, and a stop.

import { byId, element, grouped, setText } from './dom.mjs';
import { hex } from './answers.mjs';
import { findStep, NoSuchStep, SearchStopped, subject } from './finder.mjs';
import { readNumber } from './numbers.mjs';

const SUBJECTS = [
  ['pc', 'pc'],
  ['byte', 'the byte'],
  ...Array.from({ length: 16 }, (_, register) => [`v${hex(register, 1)}`, `V${hex(register, 1).toUpperCase()}`]),
  ...[['i', 'I'], ['dt', 'DT'], ['st', 'ST'], ['draws', 'random bytes used'], ['frames', 'depth of the call stack'], ['stopped', 'the machine stopped']],
];

export class SearchView {
  #model;
  #ask;
  #scan;
  #symbols;
  #lineAddress;
  #form = byId('search');
  #result = byId('search-result');
  #progress = byId('search-progress');
  #stop = byId('search-stop');
  #goOn = false;
  #running = false;
  #names = '';

  /**
   * `ask(questions)` answers about what the model wants; `scan(question)` tells which steps of its run have something (finder.mjs);
   * `symbols()` are the names; `lineAddress()` is the cursor line's, or null, once it is known.
   */
  constructor(model, { ask, scan, symbols, lineAddress }) {
    this.#model = model;
    this.#ask = ask;
    this.#scan = scan;
    this.#symbols = symbols;
    this.#lineAddress = lineAddress;
    const { elements } = this.#form;
    elements.subject.append(...SUBJECTS.map(([value, textContent]) => element('option', { value, textContent })));
    this.#form.addEventListener('submit', (event) => {
      event.preventDefault();
      this.#search(event.submitter?.value !== 'last');
    });
    // Enter would take the first button, which looks back
    this.#form.addEventListener('keydown', (event) => {
      if (event.key !== 'Enter' || event.target instanceof HTMLButtonElement || event.isComposing) return;
      event.preventDefault();
      this.#search(!event.shiftKey);
    });
    this.#form.addEventListener('change', () => this.#shape());
    this.#stop.addEventListener('click', () => this.stop());
    byId('search-line').addEventListener('click', () => this.toLine(true));
    model.addEventListener('change', ({ detail }) => {
      if (['document', 'text', 'keys', 'options'].includes(detail)) this.stop();
      // what was told of a step isn't of another one, or of another run
      if (['document', 'text', 'keys', 'options', 'step'].includes(detail) && !this.#running) this.#tell('');
    });
    this.#shape();
  }

  /** Looks for the next step, or the last before, at which pc is at the line with the cursor. */
  async toLine(forward) {
    const address = await this.#lineAddress();
    if (address === null) return this.#tell('the line with the cursor has no address');
    const { subject: chosen, relation, value } = this.#form.elements;
    [chosen.value, relation.value, value.value] = ['pc', 'is', `#${hex(address, 3)}`];
    this.#shape();
    return this.#search(forward);
  }

  focus() {
    this.#form.elements.subject.focus();
  }

  showNames() {
    const names = this.#symbols().slice(0, 500).map(({ name }) => name);
    if (names.join() === this.#names) return;
    this.#names = names.join();
    byId('names').replaceChildren(...names.map((value) => element('option', { value })));
  }

  /** Resolves when the search that runs has ended. */
  #ended = Promise.resolve();

  stop() {
    this.#goOn = false;
  }

  #shape() {
    const { subject: chosen, relation } = this.#form.elements;
    const isStop = chosen.value === 'stopped';
    byId('search-address').hidden = chosen.value !== 'byte';
    byId('search-value').hidden = isStop || relation.value === 'changes';
    relation.parentElement.hidden = isStop;
  }

  async #search(forward) {
    if (this.#running) return;
    const { subject: chosen, relation, address, value } = this.#form.elements;
    const isStop = chosen.value === 'stopped';
    const wanted = isStop ? 1 : readNumber(value.value, this.#symbols());
    const at = readNumber(address.value, this.#symbols());
    const kind = isStop ? 'is' : relation.value;
    if (kind !== 'changes' && wanted === null) return this.#tell(`'${value.value}' is neither a number nor a name of the source`);
    if (chosen.value === 'byte' && !(at !== null && at < 4096)) return this.#tell(`'${address.value}' is not an address`);
    this.#tell('');
    const told = await this.find(forward, { of: subject(chosen.value, at ?? 0), relation: kind, wanted: [wanted] });
    if (told !== null) this.#tell(told);
  }

  /** Goes to the next step, or the last before, that a question is true of; returns what is to be said of it. */
  async find(forward, question) {
    // a search that runs gives way to the next one
    while (this.#running) {
      this.stop();
      await this.#ended;
    }
    const from = this.#model.step;
    this.#show(true);
    let ended = () => {};
    this.#ended = new Promise((done) => {
      ended = done;
    });
    try {
      const found = await this.#found(forward, question, from);
      if (!this.#goOn) throw new SearchStopped();
      if (found === null) return `no such step ${forward ? 'after' : 'before'} ${grouped(from)}`;
      this.#model.setStep(found);
      return `step ${grouped(found)}`;
    } catch (fault) {
      if (fault instanceof NoSuchStep) return `no such step: ${fault.message}`;
      return fault instanceof SearchStopped ? 'stopped' : fault.message || 'the search failed';
    } finally {
      this.#show(false);
      ended();
    }
  }

  #found(forward, question, from) {
    return findStep({
      ...question,
      ask: (questions) => this.#unlessStopped(() => this.#ask(questions)),
      scan: (part) => this.#unlessStopped(() => this.#scan(part)),
      from,
      forward,
      lastStep: this.#model.lastStep,
      progress: (part) => {
        this.#progress.value = part;
        return this.#goOn;
      },
    });
  }

  /** An edit stops the search, since its answers would be of two runs. */
  #unlessStopped(ask) {
    if (!this.#goOn) throw new SearchStopped();
    return ask();
  }

  #show(running) {
    this.#running = running;
    this.#goOn = running;
    this.#progress.hidden = !running;
    this.#stop.hidden = !running;
    this.#progress.value = 0;
  }

  #tell(text) {
    setText(this.#result, text);
  }
}
