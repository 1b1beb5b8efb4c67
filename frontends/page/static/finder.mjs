// Finds the next step, or the last one before, at which something holds. The lines of `trace` are read for it, a part of
// the run in each request. A value that only ever grows is found by bisection; a byte of the memory by the steps that write it.

import { hex, readBytes, refusal } from './answers.mjs';
import { codeText } from './codes.mjs';

const FIRST_PART = 20_000;
const LARGEST_PART = 250_000;
/** How many steps that write a byte are asked for, and looked at, in one go. */
const MOST_WRITES = 2000;
/** The greatest pc that a jump or a skip can give (docs/MACHINE.md). */
const MOST_PC = 4350;
/** The instructions that write to the memory, `LD B, Vx` and `LD [I], Vx`: at most sixteen bytes from I on. */
const WRITERS = Array.from({ length: 16 }, (_, x) => [`f${hex(x, 1)}33`, `f${hex(x, 1)}55`]).flat();
const MOST_WRITTEN = 16;

/** Values in an answer of `regs`, which has three lines of fixed places up to the draws. */
const second = (answer) => answer.indexOf('\n') + 1;
const hexAt = (answer, place, digits) => parseInt(answer.slice(place, place + digits), 16);
const FIELDS = {
  pc: { value: (answer) => hexAt(answer, second(answer) + 3, 4), most: MOST_PC, digits: 4 },
  i: { value: (answer) => hexAt(answer, second(answer) + 10, 4), most: 0xffff, digits: 4 },
  dt: { value: (answer) => hexAt(answer, second(answer) + 18, 2), most: 255, digits: 2 },
  st: { value: (answer) => hexAt(answer, second(answer) + 24, 2), most: 255, digits: 2 },
  draws: { value: (answer) => Number(/ draws (\d+)/.exec(answer)[1]), most: Infinity, grows: true },
  stopped: { value: (answer) => (/ run\n/.test(answer) ? 0 : 1), most: 1, grows: true },
  frames: { value: (answer) => Math.round((answer.length - 1 - (answer.indexOf(' stack') + 6)) / 5), most: 16, column: 'depth' },
};

/**
 * What can be looked for: the question about a step, its value in the answer, the greatest value, the column of a trace that has
 * it, as hexadecimal digits or in decimal, and whether it never falls.
 */
export function subject(name, address = 0) {
  if (name === 'byte') return { question: (step) => `mem ${step} ${address} 1`, value: (answer) => readBytes(answer)[0], most: 255, address };
  const question = (step) => `regs ${step}`;
  const register = /^v([0-9a-f])$/.exec(name);
  if (!register) return { question, column: name, ...FIELDS[name] };
  const place = 2 + 3 * parseInt(register[1], 16);
  return { question, value: (answer) => hexAt(answer, place, 2), most: 255, column: name, digits: 2 };
}

export class SearchStopped extends Error {}

/** No step has what is looked for, and why that is known. */
export class NoSuchStep extends Error {}

/**
 * A search from `from`, which it doesn't look at itself, up to `lastStep`, or down to 0. `relation` is `is`, of one of the values
 * `wanted`; `not`, of none of them; or `changes`. `ask(questions)` answers. `scan({ first, last, where, isLast, most })` tells
 * which steps have what `where` says, the first or the last of them, and `end`, where the trace ends. `progress(part)` is told how
 * much is done, and returns false to stop. The result is a step, or null.
 */
export async function findStep(search) {
  const { of, relation, wanted, from, forward, lastStep } = search;
  const possible = wanted.filter((value) => value >= 0 && value <= of.most);
  if (relation === 'is' && possible.length === 0) throw new NoSuchStep(`it is at most ${of.most}`);
  if (forward ? from >= lastStep : from <= 0) return null;
  if (relation === 'changes') return findChange(search);
  if (relation === 'not' && possible.length === 0) return forward ? from + 1 : from - 1;
  if (of.grows && relation === 'is') return bisected(search, possible[0]);
  const look = of.address === undefined ? lookAtLines : lookAtByte;
  return inParts((first, last) => look({ ...search, wanted: possible, isNot: relation === 'not' }, first, last), search);
}

/** Up to a change the value is the one before: the next other value is looked for, or the last other one, which is before it. */
async function findChange(search) {
  const { forward, from } = search;
  const value = await valueAt(search, forward ? from : from - 1);
  const start = forward ? from : from - 1;
  const found = await findStep({ ...search, relation: 'not', wanted: [value], from: start });
  return found === null || forward ? found : found + 1;
}

async function valueAt({ ask, of }, step) {
  const [answer] = await ask([of.question(step)]);
  const code = refusal(answer);
  if (code !== null) throw new Error(`${code}: ${codeText(code)}`);
  return of.value(answer);
}

/** The least step from `low` to `high` at which a condition holds that holds ever after; `high` + 1 if there is none. */
async function leastStep(low, high, holds) {
  while (low <= high) {
    const middle = Math.floor((low + high) / 2);
    if (await holds(middle)) high = middle - 1;
    else low = middle + 1;
  }
  return low;
}

async function bisected(search, wanted) {
  const { forward, from, lastStep } = search;
  const at = (step) => valueAt(search, step);
  const found = forward ? await leastStep(from + 1, lastStep, async (step) => (await at(step)) >= wanted) : (await leastStep(0, from - 1, async (step) => (await at(step)) > wanted)) - 1;
  const isThere = forward ? found <= lastStep : found >= 0;
  return isThere && (await at(found)) === wanted ? found : null;
}

/** Looks at one part of the run after another. `look(first, last)` tells which step has it, or null, and where the machine stopped. */
async function inParts(look, { from, forward, lastStep, progress = (_part) => true }) {
  let [low, high] = forward ? [from + 1, lastStep] : [0, from - 1];
  const count = high - low + 1;
  for (let size = FIRST_PART; low <= high; size = Math.min(LARGEST_PART, 2 * size)) {
    const [first, last] = forward ? [low, Math.min(high, low + size - 1)] : [Math.max(low, high - size + 1), high];
    const { step, stopped } = await look(first, last);
    if (step !== null) return step;
    // a stopped machine stays as it is
    if (forward && stopped !== null) return null;
    if (forward) low = last + 1;
    else high = Math.min(first - 1, stopped ?? first);
    if (!progress(1 - (high - low + 1) / count)) throw new SearchStopped();
  }
  return null;
}

const stoppedAt = (end) => (end === null || end.text === 'run' ? null : end.step);

async function lookAtLines({ scan, of, wanted, isNot, forward }, first, last) {
  const texts = wanted.map((value) => (of.digits === undefined ? String(value) : hex(value, of.digits)));
  const { steps, end } = await scan({ first, last, where: [[of.column, texts, isNot]], isLast: !forward, most: 1 });
  const stopped = stoppedAt(end);
  if (steps.length === 0) return { step: null, stopped };
  // the line of a stopped machine is that of each step after it
  if (forward) return { step: Math.max(first, steps[0]), stopped };
  return { step: steps[0] === stopped ? last : steps[0], stopped };
}

/** A byte changes at a write alone: where it isn't as wanted at the one end, each write is looked at, and the byte beside it. */
async function lookAtByte(search, first, last) {
  const { ask, of, wanted, isNot, forward } = search;
  const holds = (value) => wanted.includes(value) !== isNot;
  const end = forward ? first : last;
  if (holds(await valueAt(search, end))) return { step: end, stopped: null };
  let stopped = null;
  let [low, high] = [first, last - 1];
  while (low <= high) {
    const found = await writes(search, low, high);
    stopped = found.stopped;
    if (found.steps.length === 0) break;
    // the state before a write has what stood there, the one after it what it wrote
    const steps = found.steps.map((step) => (forward ? step + 1 : step));
    const answers = await ask(steps.map(of.question));
    const place = forward ? answers.findIndex((answer) => holds(of.value(answer))) : answers.findLastIndex((answer) => holds(of.value(answer)));
    if (place >= 0) return { step: steps[place], stopped };
    if (found.steps.length < MOST_WRITES) break;
    if (forward) low = found.steps.at(-1) + 1;
    else high = found.steps[0] - 1;
  }
  return { step: null, stopped };
}

/** The steps that may write to an address, in their order: the first ones, or the last ones. */
async function writes({ scan, of, forward }, first, last) {
  const starts = Array.from({ length: MOST_WRITTEN }, (_, back) => of.address - back).filter((address) => address >= 0);
  const where = [['word', WRITERS, false], ['i', starts.map((address) => hex(address, 4)), false]];
  const { steps, end } = await scan({ first, last, where, isLast: !forward, most: MOST_WRITES });
  return { steps: steps.filter((step) => step >= first), stopped: stoppedAt(end) };
}
