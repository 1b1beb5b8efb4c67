// Reads the answers of the program (docs/FORMATS.md). Nothing here knows what an instruction does.

/** The code of a refusal, `no CODE`, or null. */
export function refusal(answer) {
  const found = /^no ([A-Z]\d+)\n$/.exec(answer);
  return found === null ? null : found[1];
}

const linesOf = (answer) => answer.split('\n').slice(0, -1);
const bytesOf = (words) => words.map((word) => parseInt(word, 16));

/** The three lines of `regs`. */
export function readRegisters(answer) {
  const [first, second, third] = linesOf(answer);
  const words = second.split(' ');
  const stack = third.indexOf(' stack');
  return {
    v: bytesOf(first.split(' ').slice(1)),
    pc: parseInt(words[1], 16),
    i: parseInt(words[3], 16),
    dt: parseInt(words[5], 16),
    st: parseInt(words[7], 16),
    draws: words[9],
    size: words[10],
    state: words[11],
    flags: bytesOf(third.slice(0, stack).split(' ').slice(1)),
    stack: bytesOf(third.slice(stack).split(' ').slice(2)),
  };
}

/** The value of a hexadecimal digit in lower case. */
export const digitOf = (code) => (code < 58 ? code - 48 : code - 87);

/** The bytes of `mem` or `image`. */
export function readBytes(answer) {
  const bytes = new Uint8Array((answer.length - 1) / 2);
  for (let place = 0; place < bytes.length; place += 1) {
    bytes[place] = 16 * digitOf(answer.charCodeAt(2 * place)) + digitOf(answer.charCodeAt(2 * place + 1));
  }
  return bytes;
}

/** The size, and the stored rows with a lit pixel, each with its 32 hexadecimal digits. */
export function readScreen(answer) {
  const lines = linesOf(answer);
  const rows = lines.slice(1, -1).map((line) => ({ row: Number(line.slice(0, 2)), digits: line.slice(3) }));
  return { size: lines[0], rows };
}

/** The words of `dis`. */
export function readWords(answer) {
  return linesOf(answer)
    .slice(0, -1)
    .map((line) => ({ address: parseInt(line.slice(0, 4), 16), word: line.slice(5, 9), text: line.slice(10) }));
}

/** The faults, code by line. */
export function readFaults(answer) {
  return new Map(
    linesOf(answer)
      .slice(0, -1)
      .map((line) => line.split(' '))
      .map(([line, code]) => [Number(line), code]),
  );
}

/** For each line of the listing its address, or null where it isn't active, and the field of its bytes. */
export function readListing(answer) {
  return linesOf(answer)
    .slice(0, -1)
    .map((line) => {
      const address = line.slice(5, 9);
      return { address: address === '----' ? null : parseInt(address, 16), field: line.slice(10, 23).trimEnd() };
    });
}

/** The names of `syms`. */
export function readSymbols(answer) {
  return linesOf(answer)
    .slice(0, -1)
    .map((line) => line.split(' '))
    .map(([name, value, line]) => ({ name, value: Number(value), line: Number(line) }));
}

export const hex = (value, digits) => value.toString(16).padStart(digits, '0');
