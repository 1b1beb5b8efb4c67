// Which step a play may go to: up to the next one at a breakpoint. The steps ahead of the play are looked at while it goes on, and
// again where a key is pressed, since that is another run.

const LEAST_AHEAD = 2000;
const AHEAD_SECONDS = 2;
const FRAMES_A_SECOND = 60;

export class BreakGuard {
  #model;
  #addresses;
  #scan;
  /** Up to which step there is none, where the next one is, and whether an answer is awaited. */
  #free = 0;
  #hit = null;
  #asking = false;
  #round = 0;

  /** `addresses()` are those of the lines with breakpoints; `scan(question)` tells which steps of the run have something. */
  constructor(model, { addresses, scan }) {
    this.#model = model;
    this.#addresses = addresses;
    this.#scan = scan;
    model.addEventListener('change', ({ detail }) => {
      if (['keys', 'text', 'options', 'breakpoints'].includes(detail)) this.begin(Math.min(this.#free, model.step));
    });
  }

  /** A play begins at a step, which it leaves even where it has a breakpoint. */
  begin(step) {
    this.#round += 1;
    this.#free = step;
    this.#hit = null;
    this.#asking = false;
  }

  /** The step of the next breakpoint, or null as far as it is known. */
  get hit() {
    return this.#hit;
  }

  /** How far a play may go that wants to be at a step, with a speed. */
  allowed(wanted, speed) {
    if (this.#addresses().length === 0) return wanted;
    const ahead = Math.max(LEAST_AHEAD, AHEAD_SECONDS * FRAMES_A_SECOND * this.#model.rate * speed);
    if (this.#hit === null && wanted + ahead / 2 > this.#free) this.#look(Math.min(this.#model.lastStep, Math.ceil(wanted + ahead)));
    return Math.min(wanted, this.#hit ?? this.#free);
  }

  async #look(last) {
    if (this.#asking || this.#free >= last) return;
    this.#asking = true;
    const round = this.#round;
    const where = [['pc', this.#addresses().map((address) => address.toString(16).padStart(4, '0')), false]];
    const found = await this.#scan({ first: this.#free + 1, last, where, isLast: false, most: 1 }).catch(() => null);
    if (round !== this.#round) return;
    this.#asking = false;
    // without an answer a play goes on, as if there were none
    if (found !== null && found.steps.length > 0) this.#hit = found.steps[0];
    else this.#free = last;
  }
}
