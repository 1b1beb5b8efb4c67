// What the page in one file reads of its blocks, and the tape that it makes of a seed.
import assert from 'node:assert/strict';
import fs from 'node:fs';
import test from 'node:test';
import zlib from 'node:zlib';
import '../../page/tests/older_node.mjs';
import { inflated, spelt } from '../page_blocks.mjs';
import { ProgramRequests } from '../requests.mjs';
import { isSeed, tapeOf } from '../seed_tape.mjs';
import { modules } from './modules.mjs';

const { program } = modules();
const skip = program ? false : 'the program is not built';
const bytes = Uint8Array.from({ length: 3000 }, (_, place) => (place * 7 + (place >> 8)) & 255);

test('a block whose bytes are characters', () => {
  const alphabet = Array.from({ length: 256 }, (_, byte) => String.fromCharCode(byte % 2 === 0 ? 0x20 + byte / 2 : 0x100 + byte)).join('');
  assert.deepEqual(spelt([...bytes].map((byte) => alphabet[byte]).join(''), alphabet), bytes);
});

test('a block that is deflated', async () => {
  const text = zlib.deflateSync(bytes, { level: 9 }).toString('base64');
  assert.deepEqual(await inflated(text), bytes);
});

test('a browser that cannot inflate is told to be too old', async () => {
  const { DecompressionStream } = globalThis;
  delete globalThis.DecompressionStream;
  try {
    await assert.rejects(inflated(''), /this browser is too old/);
  } finally {
    globalThis.DecompressionStream = DecompressionStream;
  }
});

test('the tape of a seed is the one that the program makes', { skip }, () => {
  const requests = new ProgramRequests(new WebAssembly.Module(fs.readFileSync(program)));
  const seeds = ['0', '1', '7', '007', '9999', '4294967295', '4294967296', '1311768467463790320', '18446744073709551615'];
  for (const seed of seeds) {
    assert.ok(isSeed(seed));
    assert.equal(tapeOf(seed), requests.tape({ seed }).tape, seed);
  }
});

test('a text that the program takes for no seed is none', { skip }, () => {
  const requests = new ProgramRequests(new WebAssembly.Module(fs.readFileSync(program)));
  for (const seed of ['', 'x', '-1', '1.5', ' 1', '18446744073709551616', '99999999999999999999999']) {
    assert.ok(!isSeed(seed), seed);
    assert.throws(() => requests.tape({ seed }), seed);
  }
});
