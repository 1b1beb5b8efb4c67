// The script of keys: at most one event for each step and key, which says that the key is down, or up, from that step on.

import { readNumber } from './numbers.mjs';

export const KEYS = 16;

/** Events in the order of steps, and of keys where two share a step. A script never changes: an edit makes a new one. */
export class KeyScript {
  #events;

  constructor(events = []) {
    this.#events = [...events].sort((one, other) => one.step - other.step || one.key - other.key);
  }

  get events() {
    return this.#events;
  }

  get size() {
    return this.#events.length;
  }

  /** The event of this step and key, if there is one. */
  at(step, key) {
    return this.#events.find((event) => event.step === step && event.key === key);
  }

  with(step, key, down) {
    return new KeyScript([...this.without(step, key).events, { step, key, down }]);
  }

  without(step, key) {
    return new KeyScript(this.#events.filter((event) => event.step !== step || event.key !== key));
  }

  /** No event of the key stands from step `first` to step `last`. */
  cleared(key, first, last) {
    return new KeyScript(this.#events.filter((event) => event.key !== key || event.step < first || event.step > last));
  }

  /** Which keys are down in a step, by the script alone. */
  held(step) {
    const down = Array(KEYS).fill(false);
    for (const event of this.#events) {
      if (event.step > step) break;
      down[event.key] = event.down;
    }
    return down;
  }

  /** The event before or after a step. */
  next(step) {
    return this.#events.find((event) => event.step > step);
  }

  previous(step) {
    return this.#events.findLast((event) => event.step < step);
  }
}

const word = (down) => (down ? 'down' : 'up');

/** The fewest `kins`, `krep` and `kdel` that make one script into another. */
export function keyCommands(before, after) {
  if (before === after) return [];
  const place = ({ step, key }) => `${step} ${key}`;
  const had = new Map(before.events.map((event) => [place(event), event.down]));
  const has = new Map(after.events.map((event) => [place(event), event.down]));
  const commands = [];
  for (const at of had.keys()) if (!has.has(at)) commands.push(`kdel ${at}`);
  for (const [at, down] of has) {
    if (!had.has(at)) commands.push(`kins ${at} ${word(down)}`);
    else if (had.get(at) !== down) commands.push(`krep ${at} ${word(down)}`);
  }
  return commands;
}

/** A script as a text: a line `STEP KEY down` or `STEP KEY up` for each event. */
export function writeKeys(script) {
  return script.events.map(({ step, key, down }) => `${step} ${key} ${word(down)}\n`).join('');
}

/** The number of a key, written as a number or as a letter A to F of either case. */
const readKey = (word) => readNumber(/^[a-f]$/i.test(word) ? `#${word}` : word);

/**
 * Reads a text of key events that the program takes: `STEP KEY down` or `up` in a line, a `;` before a comment, numbers as in a
 * script, and letters A to F as keys. Which texts it takes the program says (the request `keys`); what can't be read is thrown with its line.
 */
export function readKeys(text) {
  const events = text.split('\n').flatMap((line, place) => {
    const words = line.replace(/;.*/s, '').trim();
    if (words === '') return [];
    const [step, key, state, ...more] = words.split(/ +/);
    const event = { step: readNumber(step), key: readKey(key ?? ''), down: state === 'down' };
    const isEvent = event.step !== null && event.key !== null && event.key < KEYS && (event.down || state === 'up') && more.length === 0;
    if (!isEvent) throw new Error(`line ${place + 1} of the keys: expected STEP KEY down or STEP KEY up, as in "10 4 down"; found "${line.slice(0, 60)}"`);
    return [event];
  });
  return new KeyScript([...new Map(events.map((event) => [`${event.step} ${event.key}`, event])).values()]);
}
