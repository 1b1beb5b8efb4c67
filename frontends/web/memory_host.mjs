// A host of the whole program whose files lie in memory, as a browser has it: names lead to bytes.
import { SystemError } from './system.mjs';

const STREAMS = 3;
const REGULAR_FILE = 0o100644;
const PIPE = 0o010600;
const decoder = new TextDecoder();

export class MemoryHost {
  // `files` is a Map from names to bytes, which the program reads and changes. `variables` may have NO_COLOR.
  constructor(words, { files = new Map(), input = new Uint8Array(), variables = {} } = {}) {
    this.arguments = ['chipbench', ...words];
    this.files = files;
    this.variables = variables;
    this.streams = [{ bytes: input, place: 0 }, { pieces: [] }, { pieces: [] }];
    this.opened = new Map();
    this.nextFile = STREAMS;
    this.numbers = new Map();
  }

  // What was written to standard output, 1, or to standard error, 2.
  written(stream) {
    const { pieces } = this.streams[stream];
    const all = new Uint8Array(pieces.reduce((count, piece) => count + piece.length, 0));
    let place = 0;
    for (const piece of pieces) {
      all.set(piece, place);
      place += piece.length;
    }
    return all;
  }

  variable(name) {
    return this.variables[name];
  }

  fillRandom(bytes) {
    bytes.set(globalThis.crypto.getRandomValues(new Uint8Array(bytes.length)));
  }

  isTerminal() {
    return false;
  }

  file(number) {
    const file = this.opened.get(number);
    if (!file) throw new SystemError('EBADF');
    return file;
  }

  read(number, room) {
    const from = number === 0 ? this.streams[0] : this.file(number);
    const bytes = number === 0 ? from.bytes : this.files.get(from.name);
    const piece = bytes.subarray(from.place, from.place + room.length);
    room.set(piece);
    from.place += piece.length;
    return piece.length;
  }

  write(number, bytes) {
    if (number < STREAMS) this.streams[number].pieces.push(bytes.slice());
    else {
      const file = this.file(number);
      const old = this.files.get(file.name);
      const all = new Uint8Array(Math.max(old.length, file.place + bytes.length));
      all.set(old);
      all.set(bytes, file.place);
      this.files.set(file.name, all);
      file.place += bytes.length;
    }
    return bytes.length;
  }

  open(path, how) {
    const name = decoder.decode(path);
    const isThere = this.files.has(name);
    if (isThere && how.exclusive) throw new SystemError('EEXIST');
    if (!isThere && !how.create) throw new SystemError('ENOENT');
    if (!isThere || how.truncate) this.files.set(name, new Uint8Array());
    this.opened.set(this.nextFile, { name, place: how.append ? this.files.get(name).length : 0 });
    this.nextFile += 1;
    return this.nextFile - 1;
  }

  close(number) {
    this.opened.delete(number);
  }

  unlink(path) {
    if (!this.files.delete(decoder.decode(path))) throw new SystemError('ENOENT');
  }

  rename(from, to) {
    const name = decoder.decode(from);
    if (!this.files.has(name)) throw new SystemError('ENOENT');
    this.files.set(decoder.decode(to), this.files.get(name));
    this.files.delete(name);
  }

  truncate(number, length) {
    const { name } = this.file(number);
    const all = new Uint8Array(length);
    all.set(this.files.get(name).subarray(0, length));
    this.files.set(name, all);
  }

  changeMode() {}

  sync() {}

  readLink() {
    throw new SystemError('EINVAL');
  }

  stat(path) {
    const name = decoder.decode(path);
    if (name === '/dev/stdin') return this.statOpen(0);
    if (!this.files.has(name)) throw new SystemError('ENOENT');
    return this.told(name, REGULAR_FILE, this.files.get(name).length);
  }

  statOpen(number) {
    if (number < STREAMS) return this.told(`stream ${number}`, PIPE, 0);
    const { name } = this.file(number);
    return this.told(name, REGULAR_FILE, this.files.get(name).length);
  }

  // Each name has a number of its own, by which the program tells files apart.
  told(name, mode, size) {
    if (!this.numbers.has(name)) this.numbers.set(name, BigInt(this.numbers.size + 1));
    return { mode, names: 1, user: 0, group: 0, device: 1, number: this.numbers.get(name), size };
  }
}
