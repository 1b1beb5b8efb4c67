// The heap by itself, beside a model; and its growth refused, at each of the first calls in turn.
import assert from 'node:assert/strict';
import fs from 'node:fs';
import test from 'node:test';
import { modules } from './modules.mjs';
import { Numbers } from './numbers.mjs';

const CALLS = process.env.CHIPBENCH_SLOW ? 1_000_000 : 100_000;
const REFUSED_CALLS = process.env.CHIPBENCH_SLOW ? 2_000 : 100;
const MOST_BLOCKS = 400;
const GRANULE = 16;

const file = modules().parts;
const skip = file ? false : 'the modules are not built';
const compiled = file && new WebAssembly.Module(fs.readFileSync(file));

class Heap {
  constructor() {
    this.exports = new WebAssembly.Instance(compiled, {}).exports;
    this.blocks = new Map(); // the place of each block: its size, and the byte that fills it
    this.order = [];
  }

  get memory() {
    return new Uint8Array(this.exports.memory.buffer);
  }

  call(name, ...words) {
    return Number(BigInt.asUintN(64, this.exports[name](...words.map(BigInt)) ?? 0n));
  }

  // Fills a block and keeps it. No other block may have its bytes.
  keep(place, size, filling) {
    assert.equal(place % GRANULE, 0, 'a block begins at a multiple of 16');
    assert.ok(place + size <= this.memory.length, 'a block lies in memory');
    this.memory.fill(filling, place, place + size);
    this.blocks.set(place, { size, filling });
    this.order.push(place);
  }

  // Each byte of a block is as it was written: no other call has touched it.
  look(place, count = this.blocks.get(place).size) {
    const { filling } = this.blocks.get(place);
    assert.ok(this.memory.subarray(place, place + count).every((byte) => byte === filling), 'a block has its bytes');
  }

  forget(place) {
    this.blocks.delete(place);
    const at = this.order.indexOf(place);
    this.order[at] = this.order.at(-1);
    this.order.pop();
  }

  allocate(size, filling) {
    const place = this.call('malloc', size);
    if (place) this.keep(place, size, filling);
    return place !== 0;
  }

  release(place) {
    this.look(place);
    this.call('free', place);
    this.forget(place);
  }

  resize(place, size, filling) {
    const { size: old } = this.blocks.get(place);
    const moved = this.call('realloc', place, size);
    if (!moved) {
      this.look(place);
      return false;
    }
    this.blocks.set(moved, { ...this.blocks.get(place) });
    this.look(moved, Math.min(old, size));
    if (moved !== place) this.blocks.delete(place);
    this.order.splice(this.order.indexOf(place), 1);
    this.keep(moved, size, filling);
    return true;
  }

  // One call of a random kind, and whether there was memory for it.
  step(numbers) {
    const kind = numbers.below(5);
    const filling = 1 + numbers.below(255);
    if (this.order.length === 0 || (kind < 2 && this.order.length < MOST_BLOCKS)) {
      return this.allocate(sizeOf(numbers), filling);
    }
    const place = this.order[numbers.below(this.order.length)];
    if (kind === 4) return this.resize(place, sizeOf(numbers), filling);
    this.release(place);
    return true;
  }
}

// Mostly small, and some of each larger order.
function sizeOf(numbers) {
  return numbers.below(1 << (1 + numbers.below(numbers.below(20) === 0 ? 17 : 10)));
}

function apart(heap) {
  const places = [...heap.blocks.keys()].sort((left, right) => left - right);
  for (let at = 1; at < places.length; at += 1) {
    assert.ok(places[at - 1] + heap.blocks.get(places[at - 1]).size <= places[at], 'blocks lie apart');
  }
}

test('random calls keep each block, and what is freed is merged', { skip }, () => {
  const heap = new Heap();
  const numbers = new Numbers(1);
  for (let call = 0; call < CALLS; call += 1) {
    assert.ok(heap.step(numbers), 'there is memory');
    if (call % 1000 === 0) apart(heap);
  }
  for (const place of [...heap.order]) heap.release(place);
  // all of it is one block again: memory needn't grow for nearly as much as there is
  const size = heap.memory.length;
  const whole = size - Number(heap.exports.__heap_base.value) - 4 * GRANULE;
  assert.ok(heap.allocate(whole, 7), 'one block');
  assert.equal(heap.memory.length, size);
});

test('each growth can be refused, from each of the first calls on', { skip }, () => {
  for (let refused = 0; refused < REFUSED_CALLS; refused += 1) {
    const heap = new Heap();
    const numbers = new Numbers(refused);
    for (let call = 0; call < refused; call += 1) heap.step(numbers);
    fillUp(heap);
    const size = heap.memory.length;
    // What is taken keeps its bytes, what asks for more than there is is refused, and what is freed can be had again.
    for (let call = 0; call < 20; call += 1) heap.step(numbers);
    assert.equal(heap.memory.length, size);
    assert.ok(!heap.allocate(size, 1), 'more than there is');
    for (const place of [...heap.order]) heap.release(place);
    assert.ok(heap.allocate(4096, 3), 'what was freed can be had');
  }
});

// Grows memory from outside to the most that the module may have, so that each later growth is refused.
function fillUp(heap) {
  const { memory } = heap.exports;
  for (let pages = 4096; pages >= 1; pages = Math.floor(pages / 2)) {
    try {
      for (;;) memory.grow(pages);
    } catch (error) {
      if (!(error instanceof RangeError)) throw error;
    }
  }
}

test('sizes that no memory has are refused', { skip }, () => {
  const heap = new Heap();
  for (const size of [2 ** 31 - 17, 2 ** 31, 2 ** 32 - 1, 2 ** 40]) assert.equal(heap.call('malloc', size), 0);
  assert.equal(heap.call('malloc', (1n << 64n) - 1n), 0);
});
