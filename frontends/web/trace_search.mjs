// Finds steps of a run in the lines that `trace` prints.
import { MemoryHost } from './memory_host.mjs';
import { joined } from './session.mjs';
import { run } from './system.mjs';

const REGISTERS = Array.from({ length: 16 }, (_, number) => `v${number.toString(16)}`);
const COLUMNS = ['pc', 'word', ...REGISTERS, 'i', 'dt', 'st', 'depth', 'draws'];
const HEAD = `# step ${COLUMNS.join(' ')} text`;
const NEWLINE = 10;
const SPACE = 32;

// The steps that were looked for are found: the rest of the trace isn't wanted.
class Enough extends Error {}

const textOf = (bytes) => new TextDecoder('latin1').decode(bytes.slice());

// A number that stands for a text, in which each character is a digit: no column has more than eight, all hexadecimal or decimal digits.
function keyOf(bytes, from, end) {
  let key = 0;
  for (let at = from; at < end && bytes[at] !== SPACE; at += 1) key = key * 64 + (bytes[at] & 63);
  return key;
}

const keyOfText = (text) => keyOf(new TextEncoder().encode(text), 0, text.length);

// The place where a column begins in a line.
function columnAt(bytes, from, place) {
  let at = from;
  for (let spaces = 0; spaces < place; at += 1) if (bytes[at] === SPACE) spaces += 1;
  return at;
}

// A host that reads each line of the trace as it comes, and keeps the last alone. It reads bytes: to make a text of each line takes six
// times as long as the program takes for the trace.
class TraceHost extends MemoryHost {
  constructor(words, files, { where, most, isLast }) {
    super(words, { files });
    this.tests = where.map(([name, values, isNot]) => ({ place: 1 + COLUMNS.indexOf(name), keys: new Set(values.map(keyOfText)), isNot }));
    this.most = most;
    this.isLast = isLast;
    this.steps = [];
    this.rest = new Uint8Array();
    this.last = '';
    this.isTrace = null;
  }

  write(stream, bytes) {
    if (stream !== 1) return super.write(stream, bytes);
    const piece = joined([this.rest, bytes]);
    let [from, last] = [0, null];
    for (let end = piece.indexOf(NEWLINE); end >= 0; end = piece.indexOf(NEWLINE, from)) {
      this.take(piece, from, end);
      last = [from, end];
      from = end + 1;
    }
    if (last !== null) this.last = textOf(piece.subarray(...last));
    this.rest = piece.subarray(from);
    return bytes.length;
  }

  take(bytes, from, end) {
    if (this.isTrace === null) {
      const line = textOf(bytes.subarray(from, end));
      // the line that names the machine, where there is one, is above the one that names the columns
      if (/^# (profile|quirks) /.test(line)) return;
      this.isTrace = line === HEAD;
      return;
    }
    if (!this.isTrace) return;
    for (const { place, keys, isNot } of this.tests) if (keys.has(keyOf(bytes, columnAt(bytes, from, place), end)) === isNot) return;
    this.steps.push(Number(textOf(bytes.subarray(from, bytes.indexOf(SPACE, from)))));
    if (this.isLast && this.steps.length > this.most) this.steps.shift();
    if (!this.isLast && this.steps.length === this.most) throw new Enough();
  }
}

export function findSteps(module, words, files, question) {
  const host = new TraceHost(words, files, question);
  try {
    const status = run(module, host);
    if (status !== 0) return { refused: { status, text: new TextDecoder().decode(host.written(2)).trim() } };
  } catch (error) {
    if (!(error instanceof Enough)) throw error;
    return { steps: host.steps, end: null };
  }
  if (!host.isTrace) return { refused: { status: 0, text: '`trace` prints other columns than the page knows' } };
  const columns = host.last.split(' ');
  return { steps: host.steps, end: { step: Number(columns[0]), text: columns.at(-1) } };
}
