// Numbers of 128 bits, beside those of JavaScript.
import assert from 'node:assert/strict';
import fs from 'node:fs';
import test from 'node:test';
import { modules } from './modules.mjs';
import { Numbers } from './numbers.mjs';

const ROUNDS = 2_000;
const BITS = 128;
const file = modules().parts;

class Wide {
  constructor() {
    this.exports = new WebAssembly.Instance(new WebAssembly.Module(fs.readFileSync(file)), {}).exports;
    [this.answer, this.left, this.right] = [0, 1, 2].map(() => this.exports.malloc(16n));
  }

  view() {
    return new DataView(this.exports.memory.buffer);
  }

  put(place, number) {
    this.view().setBigUint64(Number(place), BigInt.asUintN(64, number), true);
    this.view().setBigUint64(Number(place) + 8, BigInt.asUintN(64, number >> 64n), true);
  }

  get(place) {
    return this.view().getBigUint64(Number(place), true) | (this.view().getBigUint64(Number(place) + 8, true) << 64n);
  }

  ofTwo(name, left, right) {
    this.put(this.left, left);
    this.put(this.right, right);
    this.exports[name](this.answer, this.left, this.right);
    return this.get(this.answer);
  }

  shifted(name, number, places) {
    this.put(this.left, number);
    this.exports[name](this.answer, this.left, places);
    return this.get(this.answer);
  }
}

// A number of some length, often one of all ones or with a single one.
function someNumber(numbers) {
  const length = numbers.below(BITS + 1);
  if (numbers.below(4) === 0) return (1n << BigInt(length)) - 1n;
  if (numbers.below(4) === 0) return BigInt.asUintN(BITS, 1n << BigInt(length));
  let number = 0n;
  for (let part = 0; part < 4; part += 1) number = (number << 32n) | BigInt(numbers.next());
  return BigInt.asUintN(length, number);
}

test('products, quotients and shifts are those of JavaScript', { skip: file ? false : 'the modules are not built' }, () => {
  const wide = new Wide();
  const numbers = new Numbers(5);
  for (let round = 0; round < ROUNDS; round += 1) {
    const [left, right] = [someNumber(numbers), someNumber(numbers)];
    assert.equal(wide.ofTwo('multiply', left, right), BigInt.asUintN(BITS, left * right));
    if (right !== 0n) assert.equal(wide.ofTwo('divide', left, right), left / right);
    const places = numbers.below(BITS);
    assert.equal(wide.shifted('shift_left', left, places), BigInt.asUintN(BITS, left << BigInt(places)));
    assert.equal(wide.shifted('shift_right', left, places), left >> BigInt(places));
    const signed = BigInt.asIntN(BITS, left) >> BigInt(places);
    assert.equal(wide.shifted('shift_signed', left, places), BigInt.asUintN(BITS, signed));
  }
});
