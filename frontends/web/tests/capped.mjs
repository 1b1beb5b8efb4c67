// A module whose memory may not grow past some pages: the limit is written into its section on memory.
const HEADER_BYTES = 8;
const MEMORY_SECTION = 5;
const HAS_LIMIT = 1;

function readNumber(bytes, place) {
  let [value, shift] = [0, 0];
  for (;;) {
    const byte = bytes[place];
    place += 1;
    value |= (byte & 0x7f) << shift;
    if (byte < 0x80) return [value, place];
    shift += 7;
  }
}

function written(value) {
  const bytes = [];
  for (; value >= 0x80; value >>>= 7) bytes.push((value & 0x7f) | 0x80);
  return [...bytes, value];
}

export function capped(bytes, pages) {
  for (let place = HEADER_BYTES; place < bytes.length; ) {
    const [size, content] = readNumber(bytes, place + 1);
    if (bytes[place] === MEMORY_SECTION) {
      const [least] = readNumber(bytes, content + 2);
      const section = [1, HAS_LIMIT, ...written(least), ...written(pages)];
      const all = [...bytes.subarray(0, place), MEMORY_SECTION, ...written(section.length), ...section];
      return new Uint8Array([...all, ...bytes.subarray(content + size)]);
    }
    place = content + size;
  }
  throw new Error('a module without memory');
}
