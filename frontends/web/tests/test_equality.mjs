// Equality of bytes by words, beside the bytes themselves.
import assert from 'node:assert/strict';
import fs from 'node:fs';
import test from 'node:test';
import { modules } from './modules.mjs';

const MOST_BYTES = 80;
const ROOM = MOST_BYTES + 16;
const file = modules().parts;

test('bytes are equal where each of them is', { skip: file ? false : 'the parts are not built' }, () => {
  const { memory, malloc, bytes_equal: equal } = new WebAssembly.Instance(new WebAssembly.Module(fs.readFileSync(file)), {}).exports;
  const [left, right] = [malloc(BigInt(ROOM)), malloc(BigInt(ROOM))];
  const bytes = (place) => new Uint8Array(memory.buffer, Number(place), ROOM);
  let count = 0;
  for (let size = 0; size <= MOST_BYTES; size += 1) {
    for (const [from, to] of [[0, 0], [1, 0], [3, 6]]) {
      // what lies beside the parts differs
      bytes(left).fill(1);
      bytes(right).fill(2);
      for (let at = 0; at < size; at += 1) bytes(left)[from + at] = bytes(right)[to + at] = (at * 37) & 255;
      const isEqual = () => equal(left + BigInt(from), BigInt(size), right + BigInt(to), BigInt(size)) === 1;
      assert.ok(isEqual(), `${size} bytes`);
      for (let at = 0; at < size; at += 1) {
        bytes(right)[to + at] ^= 1 << at % 8;
        assert.ok(!isEqual(), `${size} bytes, which differ at ${at}`);
        bytes(right)[to + at] ^= 1 << at % 8;
        count += 1;
      }
    }
  }
  assert.equal(count, (3 * MOST_BYTES * (MOST_BYTES + 1)) / 2);
});
