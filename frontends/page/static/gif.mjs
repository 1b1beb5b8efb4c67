// Animated GIF files of pictures in two colours.

const END_OF_FILE = 0x3b;
const LONGEST_BLOCK = 255;
const CODE_SIZE = 2;
const CLEAR = 1 << CODE_SIZE;
const END = CLEAR + 1;
const MOST_CODES = 4096;

/** The bytes of a file that shows the frames again and again; each frame is a 0 or 1 for each pixel, row after row. */
export function encodeGif({ frames, width, height, scale, colours, hundredths }) {
  const bytes = [...text('GIF89a'), ...word(width * scale), ...word(height * scale), 0x80, 0, 0];
  for (const name of colours) bytes.push(...[1, 3, 5].map((place) => parseInt(name.slice(place, place + 2), 16)));
  bytes.push(0x21, 0xff, 11, ...text('NETSCAPE2.0'), 3, 1, 0, 0, 0);
  const parts = [Uint8Array.from(bytes)];
  for (const frame of merged(frames)) {
    const head = [0x21, 0xf9, 4, 0, ...word(frame.count * hundredths), 0, 0, 0x2c, ...word(0), ...word(0), ...word(width * scale), ...word(height * scale), 0, CODE_SIZE];
    parts.push(Uint8Array.from(head), blocks(compressed(scaled(frame.pixels, width, height, scale))));
  }
  parts.push(Uint8Array.of(END_OF_FILE));
  return joined(parts);
}

/** Equal frames in a row become one that is shown longer. */
function merged(frames) {
  const all = [];
  for (const pixels of frames) {
    const last = all.at(-1);
    if (last !== undefined && last.count < 600 && last.pixels.every((pixel, place) => pixel === pixels[place])) last.count += 1;
    else all.push({ pixels, count: 1 });
  }
  return all;
}

function scaled(pixels, width, height, scale) {
  const large = new Uint8Array(width * height * scale * scale);
  for (let place = 0; place < large.length; place += 1) {
    const row = Math.floor(Math.floor(place / (width * scale)) / scale);
    large[place] = pixels[row * width + Math.floor((place % (width * scale)) / scale)];
  }
  return large;
}

/** The pixels in the codes of the GIF form (LZW), packed from the lowest bit on. */
function compressed(pixels) {
  const out = new Bits();
  let codes = new Map();
  let next = END + 1;
  let size = CODE_SIZE + 1;
  out.add(CLEAR, size);
  let prefix = pixels[0];
  for (let place = 1; place < pixels.length; place += 1) {
    const key = prefix * 2 + pixels[place];
    const known = codes.get(key);
    if (known !== undefined) {
      prefix = known;
      continue;
    }
    out.add(prefix, size);
    if (next === MOST_CODES) {
      out.add(CLEAR, size);
      [codes, next, size] = [new Map(), END + 1, CODE_SIZE + 1];
    } else {
      codes.set(key, next);
      if (next === 1 << size) size += 1;
      next += 1;
    }
    prefix = pixels[place];
  }
  out.add(prefix, size);
  out.add(END, size);
  return out.bytes();
}

class Bits {
  #bytes = [];
  #held = 0;
  #count = 0;

  add(value, size) {
    this.#held |= value << this.#count;
    this.#count += size;
    while (this.#count >= 8) {
      this.#bytes.push(this.#held & 0xff);
      this.#held >>>= 8;
      this.#count -= 8;
    }
  }

  bytes() {
    return this.#count > 0 ? [...this.#bytes, this.#held & 0xff] : this.#bytes;
  }
}

/** Bytes in blocks, each after its length; an empty one is the last. */
function blocks(bytes) {
  const all = [];
  for (let start = 0; start < bytes.length; start += LONGEST_BLOCK) {
    const block = bytes.slice(start, start + LONGEST_BLOCK);
    all.push(block.length, ...block);
  }
  return Uint8Array.from([...all, 0]);
}

const text = (letters) => [...letters].map((letter) => letter.charCodeAt(0));
const word = (number) => [number & 0xff, number >> 8];

function joined(parts) {
  const whole = new Uint8Array(parts.reduce((sum, part) => sum + part.length, 0));
  let start = 0;
  for (const part of parts) {
    whole.set(part, start);
    start += part.length;
  }
  return whole;
}
