// A session whose memory may not grow past 3, 8 and 64 MB: each refusal is an answer, and no edit that was made is lost.
import assert from 'node:assert/strict';
import fs from 'node:fs';
import test from 'node:test';
import { load, OutOfMemory, STATUS } from '../session.mjs';
import { capped } from './capped.mjs';
import { modules } from './modules.mjs';
import { Numbers } from './numbers.mjs';

const MEGABYTE = 1 << 20;
const PAGE = 1 << 16;
const LINES = process.env.CHIPBENCH_SLOW ? 12_000 : 3_000;
// What is given back before the last questions.
const SPARE = 768 << 10;
const QUESTIONS = ['list', 'syms', 'image', 'faults', 'regs 20000', 'screen 20000', 'mem 20000 0 4096'];

const file = modules().session;
const skip = file ? false : 'the modules are not built';
const encode = (text) => new TextEncoder().encode(text);
const decode = (bytes) => new TextDecoder().decode(bytes);

// Takes memory until no more than that much is left.
function fill(session, left) {
  const kept = session.reserve(left);
  for (let size = 32 * MEGABYTE; size >= 64; size >>= 1) {
    try {
      for (;;) session.reserve(size);
    } catch (error) {
      if (!(error instanceof OutOfMemory)) throw error;
    }
  }
  session.release(kept);
}

function command(numbers) {
  const kind = numbers.below(8);
  const name = `N${numbers.below(3000)}`;
  if (kind < 4) return `ins 1 ${name} EQU ${numbers.below(4096)} + 1 + 2 + 3 + 4`;
  if (kind === 4) return `ins ${1 + numbers.below(5)} LD V${numbers.below(10)}, ${numbers.below(256)}`;
  if (kind === 5) return `kins ${numbers.below(20_000)} ${numbers.below(16)} ${numbers.below(2) ? 'down' : 'up'}`;
  if (kind === 6) return `regs ${numbers.below(1_000_000)}`;
  return QUESTIONS[numbers.below(QUESTIONS.length)];
}

// Gives a session lines beside one with all the memory that it wants, which is given those that weren't refused.
function storm(session, free, seed) {
  const numbers = new Numbers(seed);
  let refused = 0;
  for (let line = 0; line < LINES; line += 1) {
    const text = encode(command(numbers));
    const answer = session.answer(text);
    if (answer === null) refused += 1;
    else assert.equal(decode(answer), decode(free.answer(text)));
  }
  return refused;
}

for (const [megabytes, left] of [[3, 200 << 10], [8, 400 << 10], [64, 900 << 10]]) {
  test(`memory of ${megabytes} MB`, { skip }, async () => {
    const bytes = fs.readFileSync(file);
    const session = await load(capped(bytes, (megabytes * MEGABYTE) / PAGE));
    const free = await load(bytes);
    const spare = session.reserve(megabytes === 3 ? SPARE / 2 : SPARE);
    const source = fs.readFileSync(new URL('../../../examples/bounce.asm', import.meta.url));
    assert.equal(session.open(source), STATUS.done);
    free.open(source);
    fill(session, left);
    const refused = storm(session, free, megabytes);
    assert.ok(refused > 0, 'some lines are refused');
    assert.ok(session.exports.memory.buffer.byteLength <= megabytes * MEGABYTE);
    session.release(spare);
    for (const question of QUESTIONS) {
      const answer = session.answer(encode(question));
      assert.ok(answer !== null, `${question} is answered`);
      assert.equal(decode(answer), decode(free.answer(encode(question))));
    }
    // a source that there is no memory for is refused, and leaves no session; a small one opens
    assert.equal(session.open(new Uint8Array(megabytes * MEGABYTE).fill(10)), STATUS.noMemory);
    assert.equal(session.carryOut(encode('image')), STATUS.noSession);
    assert.equal(session.open(encode('CLS\n')), STATUS.done);
    assert.equal(decode(session.answer(encode('image'))), '00e0\n');
  });
}
