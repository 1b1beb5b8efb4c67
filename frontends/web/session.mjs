// The proved session in WebAssembly, for node and browsers: a source is opened, and each line of a script is answered.
// Pointers and counts cross as BigInt.

const HANDLE_BYTES = 16;
const ASKED_BYTES = 24;
const ROOM = 1 << 16;
// A line is told as too long by one byte more than it may have.
const KEPT_BYTES = 402;
const NEWLINE = 10;
const CARRIAGE_RETURN = 13;

// The numbers of crates/chip_web/src/status.rt.
export const STATUS = {
  done: 0,
  noMemory: 1,
  noSession: 2,
  rateOutOfRange: 3,
  tapeLength: 4,
  spacingOutOfRange: 5,
  unknownProfile: 6,
  tooManyLines: 7,
  unknownQuirks: 8,
  lineTooLong: 1000,
};
export const PROFILES = ['schip', 'vip', 'chip48', 'schip10', 'schip-modern', 'octo'];

// A module's bytes, or the module.
export async function load(module) {
  const made = module instanceof WebAssembly.Module ? module : await WebAssembly.compile(module);
  return new Session(new WebAssembly.Instance(made, {}).exports);
}

export class OutOfMemory extends Error {
  constructor() {
    super('out of memory');
  }
}

export class Session {
  constructor(exports) {
    this.exports = exports;
    this.handle = this.reserve(HANDLE_BYTES);
    this.memory.fill(0, this.handle, this.handle + HANDLE_BYTES);
    this.asked = this.reserve(ASKED_BYTES);
    this.line = this.reserve(KEPT_BYTES);
    this.answers = this.reserve(ROOM);
  }

  // The memory's bytes: those from before a growth are of no use.
  get memory() {
    const { buffer } = this.exports.memory;
    if (this.bytes?.buffer !== buffer) this.bytes = new Uint8Array(buffer);
    return this.bytes;
  }

  reserve(count) {
    const place = Number(BigInt.asUintN(64, this.exports.host_alloc(BigInt(count))));
    if (place === 0) throw new OutOfMemory();
    return place;
  }

  release(place) {
    this.exports.host_free(BigInt(place));
  }

  // Puts bytes into the module's memory for one call.
  withBytes(bytes, call) {
    const place = this.reserve(bytes.length || 1);
    try {
      this.memory.set(bytes, place);
      return call(BigInt(place), BigInt(bytes.length));
    } finally {
      this.release(place);
    }
  }

  // Opens a session on a source in the place of the last one. Answers a status; that of a line that is too long has the
  // line's number added. `quirks` is the text of `--quirks`, such as 'shift=vy,edges=wrap'.
  open(source, { rate = 10, tape = new Uint8Array(1), profile = 'schip', quirks = '', spacing = 1000, nameSeed = 0n } = {}) {
    const view = new DataView(this.exports.memory.buffer, this.asked, ASKED_BYTES);
    [rate, PROFILES.indexOf(profile), spacing].forEach((value, place) => view.setUint32(4 * place, value, true));
    view.setBigUint64(16, nameSeed, true);
    const handle = BigInt(this.handle);
    try {
      return this.withBytes(source, (at, count) =>
        this.withBytes(tape, (tapeAt, tapeCount) =>
          this.withBytes(new TextEncoder().encode(quirks), (listAt, listCount) =>
            this.exports.session_open(handle, at, count, tapeAt, tapeCount, listAt, listCount, BigInt(this.asked)))));
    } catch (error) {
      if (!(error instanceof OutOfMemory)) throw error;
      this.close();
      return STATUS.noMemory;
    }
  }

  // Carries out one line, without its newline, and answers its status.
  carryOut(line) {
    const kept = line.subarray(0, KEPT_BYTES);
    this.memory.set(kept, this.line);
    return this.exports.session_answer(BigInt(this.handle), BigInt(this.line), BigInt(kept.length));
  }

  // The bytes of the last answer, taken in pieces that need no more memory in the module.
  lastAnswer() {
    const answer = new Uint8Array(this.copy(0));
    for (let from = 0; ; ) {
      const piece = this.memory.subarray(this.answers, this.answers + Math.min(ROOM, answer.length - from));
      answer.set(piece, from);
      from += ROOM;
      if (from >= answer.length) return answer;
      this.copy(from);
    }
  }

  // Has the answer from a place on copied, as far as there is room, and answers how many bytes are left from there.
  copy(from) {
    const left = this.exports.session_read(BigInt(this.handle), BigInt(from), BigInt(this.answers), BigInt(ROOM));
    return Number(BigInt.asUintN(64, left));
  }

  // The answer to one line, or null where memory ran out.
  answer(line) {
    const status = this.carryOut(line);
    if (status === STATUS.noMemory) return null;
    if (status !== STATUS.done) throw new Error(`no session: status ${status}`);
    return this.lastAnswer();
  }

  // The answers to a whole script, as `debug` gives them.
  script(bytes) {
    const answers = [];
    for (const line of linesOf(bytes)) {
      const answer = this.answer(line);
      if (answer === null) throw new OutOfMemory();
      answers.push(answer);
    }
    return joined(answers);
  }

  close() {
    this.exports.session_close(BigInt(this.handle));
  }
}

// The lines of a script: each ends at a newline, and a carriage return before it doesn't belong to it. What stands after
// the last newline is a line as it is.
export function* linesOf(bytes) {
  for (let start = 0; start < bytes.length; ) {
    const end = bytes.indexOf(NEWLINE, start);
    const line = (end < 0 ? bytes.subarray(start) : bytes.subarray(start, end)).subarray(0, KEPT_BYTES);
    const hasReturn = end >= 0 && line.at(-1) === CARRIAGE_RETURN;
    yield hasReturn ? line.subarray(0, -1) : line;
    start = end < 0 ? bytes.length : end + 1;
  }
}

export function joined(parts) {
  const all = new Uint8Array(parts.reduce((count, part) => count + part.length, 0));
  let place = 0;
  for (const part of parts) {
    all.set(part, place);
    place += part.length;
  }
  return all;
}
