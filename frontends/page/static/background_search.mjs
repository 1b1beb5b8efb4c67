// A search of the program that runs beside the author's work. Unasked it looks at each text for a second, after a pause; once the
// author asks for it, it goes on to its end. What it found stands among the findings, with the text that it is of.

import { request } from './bridge.mjs';

const REST_MILLISECONDS = 800;
const TELL_MILLISECONDS = 300;
const UNASKED_MILLISECONDS = 1000;
const NOTHING = { step: 0, states: 0, found: null, why: '' };
/** States of a search that needs no other one. */
const ENDED = ['found', 'failed', 'paused', 'faulty', 'empty'];

export class BackgroundSearch extends EventTarget {
  #model;
  #findings;
  #command;
  #hindrance;
  #ask;
  #timer = null;
  /** The number of the search that runs, what it is of, and which of its starts was the last. */
  #number = null;
  #of = null;
  #round = 0;

  /** Whether it searches, anew at each change, until it is stopped. */
  isOn = false;

  /**
   * `command` is the program's, and the name of the request and of the finding. `hindrance()` says why there is nothing to search,
   * `faulty` or `empty`, or null.
   */
  constructor({ model, findings, command, hindrance, ask = request }) {
    super();
    this.#model = model;
    this.#findings = findings;
    this.#command = command;
    this.#hindrance = hindrance;
    this.#ask = ask;
    model.addEventListener('change', ({ detail }) => {
      if (['document', 'text', 'options'].includes(detail)) this.#changed();
    });
    findings.addEventListener('change', ({ detail }) => {
      if (detail === command) this.#tell();
    });
  }

  /**
   * How the search of the present text is: `name` is `off`, `waits`, `searches`, `paused`, `found`, `faulty`, `empty` or `failed`; how far it is,
   * and what it found, as `read` gives it.
   */
  get state() {
    return this.#findings.present(this.#command) ?? { ...NOTHING, name: this.isOn ? 'waits' : 'off' };
  }

  /** Whether it searches, or is about to. */
  get isBusy() {
    return this.isOn && ['waits', 'searches'].includes(this.state.name);
  }

  /** Looks at the text, and at each that it becomes, for a moment. */
  begin() {
    this.isOn = true;
    this.#changed(0);
  }

  /** Searches the text to the end, since the author asked. */
  start() {
    this.isOn = true;
    this.#later(0, Infinity);
  }

  stop() {
    this.isOn = false;
    this.#end();
    this.#tell();
  }

  /** What a search found, by all that is told of it, or null where it can't be read. `isWhole` says that it has ended. */
  read(_told, _isWhole) {
    return null;
  }

  #tell() {
    this.dispatchEvent(new Event('change'));
  }

  #changed(milliseconds = REST_MILLISECONDS) {
    this.#end();
    if (this.isOn && !ENDED.includes(this.state.name)) this.#later(milliseconds, UNASKED_MILLISECONDS);
    this.#tell();
  }

  #later(milliseconds, most) {
    this.#end();
    this.#timer = setTimeout(() => this.#begin(most), milliseconds);
  }

  /** Ends what runs. How far it came stays known of its text. */
  #end() {
    clearTimeout(this.#timer);
    this.#round += 1;
    if (this.#number === null) return;
    this.#ask(this.#command, { action: 'stop', number: this.#number }).catch(() => {});
    this.#number = null;
    this.#findings.take(this.#command, this.#of, { ...this.#last, name: 'paused' });
  }

  /** The last progress of the running search. */
  #last = NOTHING;

  #take(of, change) {
    this.#last = { ...NOTHING, ...change };
    this.#findings.take(this.#command, of, this.#last);
  }

  async #begin(most) {
    const round = this.#round;
    const hindrance = await this.#hindrance();
    if (round !== this.#round) return;
    const { wanted } = this.#model;
    if (hindrance !== null) {
      this.#take(wanted, { name: hindrance });
      return;
    }
    this.#of = wanted;
    this.#take(wanted, { name: 'searches' });
    try {
      await this.#follow(wanted, round, most);
    } catch (fault) {
      if (round === this.#round) this.#take(wanted, { name: 'failed', why: fault.message });
    }
  }

  /** Tells how far the search is until it ends, or until the time that it has once it has begun is over. */
  async #follow(wanted, round, most) {
    let deadline = Infinity;
    const { lines, options } = wanted;
    let told = await this.#ask(this.#command, { action: 'start', source: lines.map((line) => `${line}\n`).join(''), options });
    while (told.number !== null && told.result === null) {
      if (round !== this.#round) return;
      this.#number = told.number;
      this.#take(wanted, { name: 'searches', step: told.step, states: told.states, found: this.read(told, false) });
      if (told.isBegun !== false && deadline === Infinity) deadline = performance.now() + most;
      if (performance.now() > deadline) {
        this.#end();
        return;
      }
      await new Promise((done) => setTimeout(done, TELL_MILLISECONDS));
      if (round === this.#round) told = await this.#ask(this.#command, { action: 'tell', number: this.#number });
    }
    if (round !== this.#round) return;
    this.#number = null;
    const found = told.number === null ? null : this.read(told, true);
    this.#take(wanted, found === null ? { name: 'failed', why: told.result?.errors ?? '' } : { name: 'found', found });
  }
}
