// The search in time, over runs that are made up, against looking at every step.

import assert from 'node:assert/strict';
import test from 'node:test';

import './older_node.mjs';
import { hex } from '../static/answers.mjs';
import { findStep, NoSuchStep, SearchStopped, subject } from '../static/finder.mjs';

/** A generator of numbers below a bound, the same in each run. */
function generator(seed) {
  let state = seed;
  return (bound) => {
    state = (Math.imul(state, 1664525) + 1013904223) >>> 0;
    return Math.floor((state / 2 ** 32) * bound);
  };
}

const ADDRESS = 0x300;

/** The states of a run at its steps: registers, the byte at an address, and the instruction at pc, which may write that byte. */
function madeRun({ random, lastStep, stop = Infinity, writesEvery = 5 }) {
  const states = [];
  let [byte, draws] = [0, 0];
  for (let step = 0; step <= Math.min(lastStep, stop); step += 1) {
    const isWriter = random(writesEvery) === 0;
    const [i, word] = isWriter ? [ADDRESS - random(20), random(2) === 0 ? 'f133' : 'ff55'] : [0x400, '7001'];
    states.push({ pc: 0x200 + 2 * random(9), v0: random(4), i, word, depth: random(4), draws, byte });
    if (isWriter && i > ADDRESS - 16 && random(2) === 0) byte = random(4);
    draws += random(40) === 0 ? 1 : 0;
  }
  return new Run(states, lastStep, stop);
}

/** A program that answers about these states: what it is asked, and how many lines of a trace it would print. */
class Run {
  asked = 0;
  lines = 0;

  constructor(states, lastStep, stop) {
    Object.assign(this, { states, lastStep, stop });
  }

  at(step) {
    return this.states[Math.min(step, this.states.length - 1)];
  }

  ask = async (questions) => {
    this.asked += questions.length;
    return questions.map((question) => {
      const [word, step] = question.split(' ');
      const { pc, v0, i, depth, draws, byte } = this.at(Number(step));
      if (word === 'mem') return `${hex(byte, 2)}\n`;
      const state = Number(step) >= this.stop ? 'S1' : 'run';
      return `v ${hex(v0, 2)}${' 00'.repeat(15)}\npc ${hex(pc, 4)} i ${hex(i, 4)} dt 00 st 00 draws ${draws} low ${state}\nflags stack${' 0200'.repeat(depth)}\n`;
    });
  };

  /** As the bridge reads it out of `trace`: the line of a stopped machine is the last one, and the only one from there on. */
  scan = async ({ first, last, where, isLast, most }) => {
    assert.ok(0 <= first && first <= last && last <= this.lastStep, `${first} ${last}`);
    const end = Math.min(last, this.stop);
    const steps = [];
    for (let step = Math.min(first, end); step <= end; step += 1) {
      const { pc, v0, i, word, depth, draws } = this.at(step);
      const columns = { pc: hex(pc, 4), v0: hex(v0, 2), i: hex(i, 4), word, depth: String(depth), draws: String(draws) };
      if (where.every(([name, texts, isNot]) => texts.includes(columns[name]) !== isNot)) steps.push(step);
    }
    this.lines += end - Math.min(first, end) + 1;
    if (!isLast && steps.length >= most) return { steps: steps.slice(0, most), end: null };
    return { steps: isLast ? steps.slice(-most) : steps, end: { step: end, text: end >= this.stop ? 'S1' : 'run' } };
  };
}

/** No step, where it is known that there can be none. */
function noStep(fault) {
  if (fault instanceof NoSuchStep) return null;
  throw fault;
}

test('search: next and last, against looking at every step', async () => {
  const random = generator(3);
  for (let round = 0; round < 400; round += 1) {
    const lastStep = 1 + random(600);
    const run = madeRun({ random, lastStep, stop: random(2) === 0 ? Infinity : random(700), writesEvery: 2 + random(60) });
    const name = ['v0', 'byte', 'pc', 'draws', 'frames', 'stopped'][random(6)];
    const of = subject(name, ADDRESS);
    const relation = name === 'stopped' ? 'is' : ['is', 'not', 'changes'][random(3)];
    const wanted = name === 'pc' ? [0x200 + 2 * random(12), 0x200 + 2 * random(12)] : name === 'frames' ? [0, 1].slice(0, 1 + random(2)) : [random(name === 'stopped' ? 2 : 6)];
    const from = random(lastStep + 1);
    const forward = random(2) === 1;
    const found = await findStep({ ...run, ask: run.ask, scan: run.scan, of, relation, wanted, from, forward, lastStep }).catch(noStep);
    const values = (await run.ask(Array.from({ length: lastStep + 1 }, (_, step) => of.question(step)))).map(of.value);
    const holds = (step) => (relation === 'changes' ? step > 0 && values[step] !== values[step - 1] : wanted.includes(values[step]) === (relation === 'is'));
    const steps = values.map((_, step) => step).filter(holds);
    const nearest = forward ? steps.find((step) => step > from) : steps.findLast((step) => step < from);
    assert.equal(found, nearest ?? null, `${round}: ${name} ${relation} ${wanted} from ${from} of ${lastStep}, stop ${run.stop}, ${forward ? 'next' : 'last'}`);
  }
});

test('search: a byte that is written very often is found in parts', async () => {
  const random = generator(11);
  const run = madeRun({ random, lastStep: 30_000, writesEvery: 1 });
  run.states.forEach((state, step) => { state.byte = step < 15_000 ? 1 : 2; });
  const search = { ask: run.ask, scan: run.scan, of: subject('byte', ADDRESS), relation: 'is', lastStep: 30_000 };
  assert.equal(await findStep({ ...search, wanted: [2], from: 0, forward: true }), 15_000);
  assert.equal(await findStep({ ...search, wanted: [1], from: 30_000, forward: false }), 14_999);
  assert.equal(await findStep({ ...search, wanted: [3], from: 30_000, forward: false }), null);
});

test('search: bisection where a value only grows, and no further than the stop', async () => {
  const states = Array.from({ length: 5001 }, (_, step) => ({ pc: 0x200, v0: step % 200, i: 0, word: '7001', depth: 0, draws: Math.floor(step / 10), byte: 0 }));
  const run = new Run(states, 1_000_000, 5000);
  const search = { ask: run.ask, scan: run.scan, lastStep: 1_000_000, relation: 'is', forward: true };
  assert.equal(await findStep({ ...search, of: subject('draws'), wanted: [77], from: 5 }), 770);
  assert.equal(await findStep({ ...search, of: subject('stopped'), wanted: [1], from: 0 }), 5000);
  assert.ok(run.asked < 100 && run.lines === 0);
  assert.equal(await findStep({ ...search, of: subject('v0'), wanted: [200], from: 0 }), null);
  assert.equal(await findStep({ ...search, of: subject('v0'), wanted: [199], from: 900_000, forward: false }), 4999);
  assert.ok(run.lines < 12_000, run.lines);
});

test('search: progress and a stop, both ways', async () => {
  for (const forward of [true, false]) {
    const parts = [];
    const scan = async ({ last }) => ({ steps: [], end: { step: last, text: 'run' } });
    const progress = (part) => parts.push(part) < 3;
    const search = { ask: assert.fail, scan, of: subject('pc'), relation: 'is', wanted: [999], from: forward ? 0 : 1_000_000, forward, lastStep: 1_000_000, progress };
    await assert.rejects(findStep(search), SearchStopped);
    assert.ok(parts[0] > 0 && parts[0] < parts[1] && parts[1] < parts[2] && parts[2] < 1, parts);
  }
});

test('search: a refusal is told', async () => {
  const ask = async (questions) => questions.map(() => 'no Q1\n');
  await assert.rejects(findStep({ ask, of: subject('byte', 5), relation: 'is', wanted: [0], from: 0, forward: true, lastStep: 10 }), /Q1: no image/);
});

test('search: what can be at no step is known at once', async () => {
  const nothing = { ask: async () => assert.fail('nothing is asked'), scan: async () => assert.fail('nothing is looked at') };
  for (const [name, wanted] of [['pc', 4351], ['v3', 256], ['byte', 300], ['dt', 256], ['i', 65_536], ['frames', 17]]) {
    await assert.rejects(findStep({ ...nothing, of: subject(name, ADDRESS), relation: 'is', wanted: [wanted], from: 0, forward: true, lastStep: 100 }), NoSuchStep);
    assert.equal(await findStep({ ...nothing, of: subject(name, ADDRESS), relation: 'not', wanted: [wanted], from: 5, forward: true, lastStep: 100 }), 6);
  }
});
