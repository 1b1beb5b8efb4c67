// Which lines are executed up to the step looked at, and when last: pc at each step, as the program answers it.

import { byId, grouped } from './dom.mjs';
import { subject } from './finder.mjs';

const BATCH = 2000;

/** When each address was pc last, up to a step. */
class LastSteps {
  #pcs = [];
  #last = new Map();
  #upTo = -1;

  /** How many steps are known. */
  get count() {
    return this.#pcs.length;
  }

  add(pcs) {
    for (const pc of pcs) this.#pcs.push(pc);
  }

  /** The last step at each address, of the steps up to this one. */
  upTo(step) {
    if (step < this.#upTo) [this.#last, this.#upTo] = [new Map(), -1];
    for (let at = this.#upTo + 1; at <= step && at < this.#pcs.length; at += 1) this.#last.set(this.#pcs[at], at);
    this.#upTo = Math.min(step, this.#pcs.length - 1);
    return this.#last;
  }
}

export class Coverage {
  #page;
  #model;
  #ask;
  #button = byId('coverage');
  #pc = subject('pc');
  #steps = new LastSteps();
  /** The model's wishes when these steps were requested. */
  #of = null;
  #running = false;

  /** `page` has the model, the findings and the viewer; `ask(wanted, questions)` answers. */
  constructor(page, ask) {
    this.#page = page;
    this.#model = page.model;
    this.#ask = ask;
    this.#button.addEventListener('click', () => this.#turn());
    page.model.addEventListener('change', () => {
      if (this.#isOn) this.#run();
    });
  }

  get #isOn() {
    return this.#button.getAttribute('aria-pressed') === 'true';
  }

  #turn() {
    this.#button.setAttribute('aria-pressed', String(!this.#isOn));
    if (this.#isOn) this.#run();
    else this.#page.findings.drop('covered');
  }

  async #run() {
    if (this.#running) return;
    this.#running = true;
    try {
      while (this.#isOn && !(await this.#isWhole()));
    } catch {
      // what went wrong is told where the machine is shown
    } finally {
      this.#running = false;
    }
  }

  /** Asks about some of the steps that are lacking; whether none is lacking any more. */
  async #isWhole() {
    const { wanted, step } = this.#model;
    if (this.#of !== wanted) [this.#steps, this.#of] = [new LastSteps(), wanted];
    const steps = this.#steps;
    const first = steps.count;
    const count = Math.min(BATCH, step + 1 - first);
    if (count > 0) {
      const answers = await this.#ask(wanted, Array.from({ length: count }, (_, place) => this.#pc.question(first + place)));
      if (answers[0].startsWith('no ')) return true;
      if (this.#steps !== steps || this.#of !== wanted) return false;
      steps.add(answers.map(this.#pc.value));
    }
    // the lines of addresses are those of the same text
    await this.#page.viewer.settle();
    this.#tell(wanted, step);
    return steps.count > this.#model.step && this.#of === this.#model.wanted && step === this.#model.step;
  }

  #tell(wanted, step) {
    if (!this.#isOn || this.#model.wanted !== wanted) return;
    const { map } = this.#page.viewer.assembled;
    const covered = new Map();
    for (const [pc, last] of this.#steps.upTo(step)) {
      const line = map.lineAt(pc);
      if (line !== null && (covered.get(line) ?? -1) < last) covered.set(line, last);
    }
    const told = new Map();
    for (const [line, last] of covered) told.set(line, `executed, last at step ${grouped(last)}${last === step ? ', this one' : ''}`);
    this.#page.findings.take('covered', wanted, told);
    const isWhole = this.#steps.count > step;
    this.#button.title = isWhole ? `${grouped(covered.size)} lines are executed by step ${grouped(step)}` : `marked up to step ${grouped(this.#steps.count)}`;
  }
}
