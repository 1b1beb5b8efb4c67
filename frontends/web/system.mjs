// The whole program in WebAssembly: what it asks of a system, over a host that is written in JavaScript. The numbers are
// those of Linux on x86-64, for which the program was made.

const ERRORS = {
  EPERM: [1, 'Operation not permitted'],
  ENOENT: [2, 'No such file or directory'],
  EINTR: [4, 'Interrupted system call'],
  EIO: [5, 'Input/output error'],
  ENXIO: [6, 'No such device or address'],
  EBADF: [9, 'Bad file descriptor'],
  EAGAIN: [11, 'Resource temporarily unavailable'],
  ENOMEM: [12, 'Cannot allocate memory'],
  EACCES: [13, 'Permission denied'],
  EBUSY: [16, 'Device or resource busy'],
  EEXIST: [17, 'File exists'],
  EXDEV: [18, 'Invalid cross-device link'],
  ENODEV: [19, 'No such device'],
  ENOTDIR: [20, 'Not a directory'],
  EISDIR: [21, 'Is a directory'],
  EINVAL: [22, 'Invalid argument'],
  ENFILE: [23, 'Too many open files in system'],
  EMFILE: [24, 'Too many open files'],
  ENOTTY: [25, 'Inappropriate ioctl for device'],
  ETXTBSY: [26, 'Text file busy'],
  EFBIG: [27, 'File too large'],
  ENOSPC: [28, 'No space left on device'],
  ESPIPE: [29, 'Illegal seek'],
  EROFS: [30, 'Read-only file system'],
  EMLINK: [31, 'Too many links'],
  EPIPE: [32, 'Broken pipe'],
  ENAMETOOLONG: [36, 'File name too long'],
  ENOSYS: [38, 'Function not implemented'],
  ENOTEMPTY: [39, 'Directory not empty'],
  ELOOP: [40, 'Too many levels of symbolic links'],
  EOVERFLOW: [75, 'Value too large for defined data type'],
  ENOTSUP: [95, 'Operation not supported'],
  EDQUOT: [122, 'Disk quota exceeded'],
};
const TEXTS = new Map(/** @type {[number, string][]} */ (Object.values(ERRORS)));
const EMPTY_PATH = 0x1000;
const NO_FOLLOW = 0x100;
const OPEN = { write: 1, readAndWrite: 2, create: 0o100, exclusive: 0o200, truncate: 0o1000, append: 0o2000 };
const STAT_BYTES = 256;
const ALL_STATISTICS = 0x7ff;

// A refusal by a host: the code of an error, as ENOENT.
export class SystemError extends Error {
  constructor(code) {
    super(code);
    this.code = code;
  }
}

// Runs the program once, with an instance of its own, and answers its status. The host has the arguments, `variable`,
// and the calls on files and streams that are below.
export function run(module, host) {
  const system = new System(host);
  system.exports = new WebAssembly.Instance(module, { env: system.calls() }).exports;
  return system.exports.main(0, 0n);
}

class System {
  /** @type {any} */
  exports = null;

  constructor(host) {
    this.host = host;
    this.error = 0;
    this.encoder = new TextEncoder();
  }

  // The memory's bytes: those from before a growth are of no use.
  get memory() {
    const { buffer } = this.exports.memory;
    if (this.bytes?.buffer !== buffer) this.bytes = new Uint8Array(buffer);
    return this.bytes;
  }

  part(place, count) {
    return this.memory.subarray(Number(place), Number(place) + Number(count));
  }

  // The bytes up to a zero.
  text(place) {
    return this.memory.slice(Number(place), this.memory.indexOf(0, Number(place)));
  }

  // What a call answers, or -1 where the host refuses it. `wide` is of calls that answer 64 bits.
  guarded(call, /** @type {any} */ refused = -1) {
    try {
      return call() ?? 0;
    } catch (error) {
      if (typeof error?.code !== 'string') throw error;
      this.error = (ERRORS[error.code] ?? ERRORS.EIO)[0];
      return refused;
    }
  }

  wide(call) {
    return this.guarded(() => BigInt(call()), -1n);
  }

  // Copies a text, as far as there is room: its length, -1 where there is no text, -2 where there isn't room for it.
  copied(text, place, room) {
    if (text === undefined) return -1n;
    const bytes = this.encoder.encode(text);
    this.part(place, room).set(bytes.subarray(0, Number(room)));
    return bytes.length > Number(room) ? -2n : BigInt(bytes.length);
  }

  calls() {
    return { ...this.processCalls(), ...this.streamCalls(), ...this.fileCalls() };
  }

  processCalls() {
    return {
      __sysv_signal: () => 0n,
      rattle_errno: () => this.error,
      rattle_set_errno: (error) => {
        this.error = error;
      },
      rattle_arg: (number, place, room) => this.copied(this.host.arguments[Number(number)], place, room),
      rattle_env: (name, place, room) =>
        this.copied(this.host.variable(new TextDecoder().decode(this.text(name))), place, room),
      rattle_env_at: () => -1n,
      // whole seconds and nanoseconds, of a clock that goes evenly and is never set
      clock_gettime: (_clock, place) => {
        const now = performance.now();
        const view = new DataView(this.exports.memory.buffer);
        view.setBigInt64(Number(place), BigInt(Math.floor(now / 1000)), true);
        view.setBigInt64(Number(place) + 8, BigInt(Math.floor((now % 1000) * 1e6)), true);
        return 0;
      },
      getentropy: (place, count) => this.guarded(() => this.host.fillRandom(this.part(place, count))),
      __xpg_strerror_r: (error, place, room) => {
        this.copied(`${TEXTS.get(error) ?? `Unknown error ${error}`}\0`, place, room);
        return 0;
      },
    };
  }

  streamCalls() {
    const write = (file, place, count) => this.wide(() => this.host.write(file, this.part(place, count)));
    return {
      __write: write,
      write,
      read: (file, place, count) => this.wide(() => this.host.read(file, this.part(place, count))),
      isatty: (file) => (this.host.isTerminal(file) ? 1 : 0),
      close: (file) => this.guarded(() => this.host.close(file)),
    };
  }

  fileCalls() {
    const { host } = this;
    return {
      open: (path, flags, rest) =>
        this.guarded(() => host.open(this.text(path), this.openWith(flags), this.mode(flags, rest))),
      unlink: (path) => this.guarded(() => host.unlink(this.text(path))),
      rename: (from, to) => this.guarded(() => host.rename(this.text(from), this.text(to))),
      ftruncate: (file, length) => this.guarded(() => host.truncate(file, Number(length))),
      fchmod: (file, mode) => this.guarded(() => host.changeMode(file, mode)),
      fsync: (file) => this.guarded(() => host.sync(file)),
      fdatasync: (file) => this.guarded(() => host.sync(file)),
      flock: () => 0,
      readlink: (path, place, room) =>
        this.wide(() => {
          const target = host.readLink(this.text(path)).subarray(0, Number(room));
          this.part(place, room).set(target);
          return target.length;
        }),
      statx: (folder, path, flags, _mask, place) =>
        this.guarded(() => this.tellOf(this.statistics(folder, this.text(path), flags), Number(place))),
    };
  }

  openWith(flags) {
    const words = Object.entries(OPEN).filter(([, bit]) => flags & bit);
    return Object.fromEntries(words.map(([word]) => [word, true]));
  }

  mode(flags, rest) {
    return flags & OPEN.create ? new DataView(this.exports.memory.buffer).getUint32(Number(rest), true) : 0;
  }

  statistics(folder, path, flags) {
    if (path.length === 0 && flags & EMPTY_PATH) return this.host.statOpen(folder);
    return this.host.stat(path, !(flags & NO_FOLLOW));
  }

  // Writes statistics as Linux's structure statx has them.
  tellOf(known, place) {
    this.part(place, STAT_BYTES).fill(0);
    const view = new DataView(this.exports.memory.buffer);
    const narrow = [[0, ALL_STATISTICS], [4, 4096], [16, known.names], [20, known.user], [24, known.group], [140, known.device]];
    for (const [offset, value] of narrow) view.setUint32(place + offset, value, true);
    view.setUint16(place + 28, known.mode, true);
    view.setBigUint64(place + 32, BigInt.asUintN(64, known.number), true);
    view.setBigUint64(place + 40, BigInt(known.size), true);
  }
}
