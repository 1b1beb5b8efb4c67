// The tape of a seed, as docs/FORMATS.md says it: the low bytes of the first 256 words of the generator Lcg64Xsh32::seed_from_u64. The
// program says the same (`tape` in requests.mjs), but it is a module of 1.4 MB, and the first answer would wait for it.

const TAPE_BYTES = 256;
const MULTIPLIER = 6364136223846793005n;
// The increment of the generator that makes the state and the increment of the other one out of a seed.
const SEEDING = 11634580027462260723n;

const wide = (number) => BigInt.asUintN(64, number);

/** Whether a text is a number of 64 bits. */
export const isSeed = (text) => /^\d{1,20}$/.test(text) && BigInt(text) === wide(BigInt(text));

/** The word of 32 bits that a state gives. */
function wordOf(state) {
  const shifted = Number(BigInt.asUintN(32, ((state >> 18n) ^ state) >> 27n));
  const places = Number(state >> 59n);
  return ((shifted >>> places) | (shifted << (32 - places) % 32)) >>> 0;
}

/** A tape in hexadecimal. */
export function tapeOf(seed) {
  let state = BigInt(seed);
  const drawn = Array.from({ length: 4 }, () => {
    state = wide(state * MULTIPLIER + SEEDING);
    return BigInt(wordOf(state));
  });
  const increment = drawn[2] | (drawn[3] << 32n) | 1n;
  const next = (before) => wide(before * MULTIPLIER + increment);
  state = next(wide((drawn[0] | (drawn[1] << 32n)) + increment));
  let tape = '';
  for (let place = 0; place < TAPE_BYTES; place += 1) {
    tape += (wordOf(state) & 0xff).toString(16).padStart(2, '0');
    state = next(state);
  }
  return tape;
}
