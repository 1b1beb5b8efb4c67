#!/usr/bin/env node
// The whole program on node: arguments, standard streams and files are those of this process.
import { randomFillSync } from 'node:crypto';
import fs from 'node:fs';
import process from 'node:process';
import { isatty } from 'node:tty';
import { run } from './system.mjs';

const { constants } = fs;
const WAIT_MILLISECONDS = 5;
// A name that the program asks about, to find out whether its input is a file. Not every system has it.
const STANDARD_INPUT = '/dev/stdin';
const pause = new Int32Array(new SharedArrayBuffer(4));

// Does something again while a stream that doesn't block has nothing to give, or no room.
function waited(call) {
  for (;;) {
    try {
      return call();
    } catch (error) {
      if (error.code === 'EOF') return 0;
      if (error.code !== 'EAGAIN') throw error;
      Atomics.wait(pause, 0, 0, WAIT_MILLISECONDS);
    }
  }
}

function told(known) {
  return {
    mode: Number(known.mode),
    names: Number(known.nlink),
    user: Number(known.uid),
    group: Number(known.gid),
    device: Number(BigInt.asUintN(32, known.dev)),
    number: known.ino,
    size: known.size,
  };
}

const path = (bytes) => Buffer.from(bytes);

class NodeHost {
  constructor(words) {
    this.arguments = ['chipbench', ...words];
  }

  variable(name) {
    return process.env[name];
  }

  fillRandom(bytes) {
    bytes.set(randomFillSync(new Uint8Array(bytes.length)));
  }

  isTerminal(file) {
    return isatty(file);
  }

  read(file, bytes) {
    return waited(() => fs.readSync(file, bytes, 0, bytes.length, null));
  }

  write(file, bytes) {
    return waited(() => fs.writeSync(file, bytes, 0, bytes.length));
  }

  close(file) {
    fs.closeSync(file);
  }

  open(name, how, mode) {
    let flags = how.readAndWrite ? constants.O_RDWR : how.write ? constants.O_WRONLY : constants.O_RDONLY;
    if (how.create) flags |= constants.O_CREAT;
    if (how.exclusive) flags |= constants.O_EXCL;
    if (how.truncate) flags |= constants.O_TRUNC;
    if (how.append) flags |= constants.O_APPEND;
    return fs.openSync(path(name), flags, mode);
  }

  unlink(name) {
    fs.unlinkSync(path(name));
  }

  rename(from, to) {
    fs.renameSync(path(from), path(to));
  }

  truncate(file, length) {
    fs.ftruncateSync(file, length);
  }

  changeMode(file, mode) {
    fs.fchmodSync(file, mode);
  }

  sync(file) {
    fs.fsyncSync(file);
  }

  readLink(name) {
    return fs.readlinkSync(path(name), 'buffer');
  }

  stat(name, follows) {
    if (path(name).toString() === STANDARD_INPUT) return this.statOpen(0);
    return told((follows ? fs.statSync : fs.lstatSync)(path(name), { bigint: true }));
  }

  statOpen(file) {
    return told(fs.fstatSync(file, { bigint: true }));
  }
}

const bytes = fs.readFileSync(new URL('chipbench.wasm', import.meta.url));
process.exit(run(new WebAssembly.Module(bytes), new NodeHost(process.argv.slice(2))));
