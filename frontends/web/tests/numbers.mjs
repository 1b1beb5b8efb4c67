// A sequence of numbers for tests, the same from the same seed.
export class Numbers {
  constructor(seed) {
    this.state = BigInt(seed);
    this.next();
  }

  // Below 2^32: the upper half of a sequence of 64 bits.
  next() {
    this.state = BigInt.asUintN(64, this.state * 6364136223846793005n + 1442695040888963407n);
    return Number(this.state >> 32n);
  }

  below(bound) {
    return this.next() % bound;
  }
}
