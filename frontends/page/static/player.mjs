// Plays the run at the rate's speed, forwards and backwards, a frame at a time; and records keys that are pressed while it plays.

import { grouped } from './dom.mjs';
import { MOST_EVENTS } from './model.mjs';

const FRAMES_A_SECOND = 60;
const LONGEST_GAP = 0.25;
/** The seconds before the end of a run at which the page announces it. */
const WARNING_SECONDS = 10;

export class Player extends EventTarget {
  #model;
  #direction = 0;
  #position = 0;
  #shown = 0;
  #time = 0;
  #play = '';
  #pressed = new Map();

  speed = 1;
  /** Tells how far a play may go (break_guard.mjs). */
  guard = null;
  /** Whether there is a run: a source with a fault has none. */
  #hasRun = true;
  #warned = false;

  constructor(model) {
    super();
    this.#model = model;
  }

  /** 1 while it plays, -1 while it plays backwards, else 0. */
  get direction() {
    return this.#direction;
  }

  get hasRun() {
    return this.#hasRun;
  }

  /** A run that isn't there any more is played no further, and nothing is recorded. */
  setRun(hasRun) {
    if (hasRun === this.#hasRun) return;
    this.#hasRun = hasRun;
    if (!hasRun && this.#direction !== 0) this.pause('a line has a fault');
    this.dispatchEvent(new Event('change'));
  }

  play(direction) {
    if (direction === this.#direction) return;
    if (direction !== 0 && !this.#hasRun) {
      this.#tell('there is no run, because a line has a fault');
      return;
    }
    this.#releaseAll();
    if (direction > 0 && this.#model.step >= this.#model.lastStep) this.#model.setStep(0);
    this.#direction = direction;
    this.#position = this.#model.step;
    this.#shown = this.#model.step;
    this.#time = performance.now();
    this.#play = `play ${Date.now()}`;
    this.#warned = false;
    this.guard?.begin(this.#model.step);
    if (direction !== 0) requestAnimationFrame((now) => this.#tick(now));
    this.dispatchEvent(new Event('change'));
  }

  /** Plays no further, and says why. */
  pause(why) {
    this.play(0);
    this.#tell(`paused: ${why}`);
  }

  toggle(direction) {
    this.play(this.#direction === direction ? 0 : direction);
  }

  #tick(now) {
    if (this.#direction === 0) return;
    const { rate, lastStep } = this.#model;
    // a step that was set by hand is where it goes on
    if (this.#model.step !== this.#shown) this.#position = this.#model.step;
    const seconds = Math.max(0, Math.min(LONGEST_GAP, (now - this.#time) / 1000));
    this.#time = now;
    this.#position += this.#direction * seconds * FRAMES_A_SECOND * this.speed * rate;
    const frame = Math.floor(this.#position / rate) * rate;
    const wanted = Math.max(0, Math.min(lastStep, this.#direction > 0 ? Math.max(frame, this.#shown) : Math.min(frame, this.#shown)));
    const step = this.#direction > 0 && this.guard !== null ? this.guard.allowed(wanted, this.speed) : wanted;
    // while the steps ahead are looked at, the play waits
    if (step < wanted) this.#position = Math.min(this.#position, step + rate);
    this.#hold(step);
    this.#shown = step;
    this.#model.setStep(step);
    if (this.#direction > 0) this.#model.setPlayed(step);
    if (this.#isAtEnd(step)) return;
    requestAnimationFrame((next) => this.#tick(next));
  }

  /** Stops a play at its end, or at a breakpoint, and says so; the end of the run is said before it comes. */
  #isAtEnd(step) {
    const { rate, lastStep } = this.#model;
    const left = (lastStep - step) / (FRAMES_A_SECOND * this.speed * rate);
    if (this.#direction > 0 && left < WARNING_SECONDS && !this.#warned && lastStep > step) {
      this.#warned = true;
      this.#tell(`the run ends in ${Math.ceil(left)} s, at step ${grouped(lastStep)}, the last step of the program`);
    }
    const isHit = this.#direction > 0 && this.guard !== null && step === this.guard.hit;
    const isEnd = this.#direction < 0 ? step === 0 : this.#position >= lastStep;
    if (!isHit && !isEnd) return false;
    const played = this.#direction > 0;
    this.play(0);
    if (isHit) this.#tell(`breakpoint at step ${grouped(step)}`);
    else if (played) this.#tell(`the end of the run, step ${grouped(lastStep)}; Play starts again at step 0`);
    return true;
  }

  #tell(text) {
    this.dispatchEvent(new CustomEvent('told', { detail: text }));
  }

  /** A key of the sixteen goes down. While it plays, that is recorded; else the key changes from this step on. */
  press(key) {
    if (this.#pressed.has(key) || !this.#hasRun) return;
    const { step, keys, lastStep } = this.#model;
    if (this.#direction <= 0) {
      this.#toggle(key);
      return;
    }
    if (step >= lastStep) return;
    // the release is an event too: where the program doesn't take both, the play goes no further
    if (keys.size + 2 > MOST_EVENTS) {
      this.pause(`there are ${grouped(keys.size)} key events, and the program takes no more than ${grouped(MOST_EVENTS)}`);
      return;
    }
    this.#pressed.set(key, step);
    this.#record(keys.with(step, key, true));
  }

  release(key) {
    const from = this.#pressed.get(key);
    if (from === undefined) return;
    this.#pressed.delete(key);
    const { rate, step, lastStep, keys } = this.#model;
    // at least one frame long, so that a program that looks once a frame sees it
    const until = Math.max(step, from + rate);
    if (until <= lastStep) this.#record(keys.cleared(key, from + 1, until).with(until, key, false));
  }

  #releaseAll() {
    for (const key of [...this.#pressed.keys()]) this.release(key);
  }

  /** What an earlier recording says of a key that is being held is overwritten. */
  #hold(step) {
    let { keys } = this.#model;
    for (const [key, from] of this.#pressed) {
      const overwritten = keys.events.some((event) => event.key === key && event.step > from && event.step <= step);
      if (overwritten) keys = keys.cleared(key, from + 1, step);
    }
    if (keys !== this.#model.keys) this.#record(keys);
  }

  #record(keys) {
    this.#model.setKeys(keys, { play: this.#play });
  }

  #toggle(key) {
    const { step, keys } = this.#model;
    const wanted = !keys.held(step)[key];
    const without = keys.without(step, key);
    this.#model.setKeys(without.held(step)[key] === wanted ? without : keys.with(step, key, wanted));
  }
}
