// The modules' answers to the page's requests about the program. Texts are strings in which each character stands for one byte.
import { MemoryHost } from './memory_host.mjs';
import { OPTIONS } from './options.mjs';
import { Session, STATUS } from './session.mjs';
import { run } from './system.mjs';
import { findSteps } from './trace_search.mjs';

const MOST_COMMANDS = 25_000;
const MOST_ANSWERS = 64_000_000;
const TAPE_BYTES = 256;
const FIRST_REGISTER = 3;
// This number of states of a search takes about 150 megabytes.
const STATES = 1_000_000;
const PROGRESS = /step (\d+), (\d+) states/;
const LINE_OF_PROGRESS = 200;
// The screen stands after the three lines of the registers in what `run` prints.
const LINES_OF_REGISTERS = 3;

// A request that is refused, with a status of HTTP, as the bridge refuses one.
export class Refused extends Error {
  constructor(status, reason) {
    super(reason);
    this.status = status;
  }
}

export function bytesOf(text) {
  const bytes = new Uint8Array(text.length);
  for (let place = 0; place < text.length; place += 1) {
    const byte = text.charCodeAt(place);
    if (byte > 255) throw new Refused(400, "a character that isn't a byte");
    bytes[place] = byte;
  }
  return bytes;
}

export function textOf(bytes) {
  const pieces = [];
  // a spread takes nine times as long
  for (let place = 0; place < bytes.length; place += 8192) pieces.push(String.fromCharCode.apply(null, bytes.subarray(place, place + 8192)));
  return pieces.join('');
}

export function argumentsOf(options) {
  return Object.entries(options ?? {}).map(([name, value]) => `--${name}=${value}`);
}

function settingsOf({ rate, tape, profile, quirks, every }) {
  const settings = {};
  if (rate !== undefined) settings.rate = Number(rate);
  if (tape !== undefined) settings.tape = Uint8Array.from(tape.match(/../g) ?? [], (/** @type {any} */ digits) => parseInt(digits, 16));
  if (profile !== undefined) settings.profile = profile;
  if (quirks !== undefined) settings.quirks = quirks;
  if (every !== undefined) settings.spacing = Number(every);
  return settings;
}

// The session's requests, `open` and `ask`.
export class SessionRequests {
  constructor(module) {
    this.session = new Session(new WebAssembly.Instance(module, {}).exports);
    this.isOpen = false;
  }

  // Where the source isn't opened, the reply has the module's status in the place of the answers.
  open({ source, options, commands }) {
    const nameSeed = globalThis.crypto.getRandomValues(new BigUint64Array(1))[0];
    const unopened = this.session.open(bytesOf(source), { ...settingsOf(options), nameSeed });
    this.isOpen = unopened === STATUS.done;
    return this.isOpen ? this.exchange(commands) : { answers: [], unopened };
  }

  ask({ commands }) {
    if (!this.isOpen) return { answers: [], ended: { status: 0, text: "it isn't running" } };
    return this.exchange(commands);
  }

  exchange(commands) {
    if (commands.length > MOST_COMMANDS) throw new Refused(400, 'the commands are missing or too many');
    const answers = [];
    let count = 0;
    for (const command of commands) {
      const answer = this.session.answer(bytesOf(command));
      if (answer === null) return { answers, ended: this.end(4, 'chipbench: out of memory') };
      count += answer.length;
      if (count > MOST_ANSWERS) {
        this.end();
        throw new Refused(413, `the answers of one request have over ${MOST_ANSWERS} bytes`);
      }
      answers.push(textOf(answer));
    }
    return { answers };
  }

  end(status, text) {
    this.session.close();
    this.isOpen = false;
    return { status, text };
  }
}

// A host of a long run, which prints what it finds, and says on standard error how far it is, in pieces of lines.
class ToldHost extends MemoryHost {
  constructor(words, files, tell) {
    super(words, { files });
    this.tell = tell;
    this.last = '';
  }

  write(number, bytes) {
    if (number === 1) {
      super.write(number, bytes);
      // whole lines alone
      const output = new TextDecoder().decode(this.written(1));
      this.tell({ output: output.slice(0, output.lastIndexOf('\n') + 1) });
      return bytes.length;
    }
    if (number === 2) {
      this.last = (this.last + textOf(bytes)).slice(-LINE_OF_PROGRESS);
      const found = PROGRESS.exec(this.last);
      if (found !== null) {
        this.tell({ step: Number(found[1]), states: Number(found[2]) });
        this.last = '';
      }
    }
    return super.write(number, bytes);
  }
}

// The requests of which each runs the program once.
export class ProgramRequests {
  constructor(module) {
    this.module = module;
    this.known = new Map();
  }

  runOnce(words, files = new Map()) {
    const host = new MemoryHost(words, { files });
    const status = run(this.module, host);
    return { status, output: textOf(host.written(1)), errors: new TextDecoder().decode(host.written(2)) };
  }

  // Which options a command takes, by its own help.
  optionsOf(word) {
    if (!this.known.has(word)) this.known.set(word, OPTIONS.filter((name) => this.runOnce([word, '--help']).output.includes(`--${name} `)));
    return this.known.get(word);
  }

  // The arguments of the settings that a command takes: the others make no difference to it.
  argumentsFor(word, options) {
    return argumentsOf(Object.fromEntries(Object.entries(options ?? {}).filter(([name]) => this.optionsOf(word).includes(name))));
  }

  // A game to begin with: its text, and the screen after some steps.
  example({ text, steps }) {
    const { status, output } = this.runOnce(['run', 'source', '--steps', `${steps}`], new Map([['source', bytesOf(text)]]));
    return { text, screen: status === 0 ? output.split('\n').slice(LINES_OF_REGISTERS).join('\n') : null };
  }

  // A search over all key scripts for a stop: what it prints, and the keys that it found.
  explore({ source, options }, tell) {
    const files = new Map([['source', bytesOf(source)]]);
    const found = this.searchOver('explore', { options, files, more: ['--keys-to', 'keys'] }, tell);
    return { ...found, keys: textOf(files.get('keys') ?? new Uint8Array()) };
  }

  // A search for keys that break a property of the source; what it prints is told as it comes.
  prove({ source, options }, tell) {
    return this.searchOver('prove', { options, files: new Map([['source', bytesOf(source)]]), more: ['--json'] }, tell);
  }

  // Which properties a source states: the answers of `prove` to a run without a step.
  stated({ source }) {
    return this.runOnce(['prove', '--steps', '0', '--json', 'source'], new Map([['source', bytesOf(source)]]));
  }

  searchOver(command, { options, files, more }, tell) {
    const words = [command, ...this.argumentsFor(command, options), '--states', `${STATES}`, '--progress', ...more, 'source'];
    const host = new ToldHost(words, files, tell);
    const status = run(this.module, host);
    const decoder = new TextDecoder();
    return { status, output: decoder.decode(host.written(1)), errors: decoder.decode(host.written(2)) };
  }

  // Why a source doesn't open, as the program says it.
  unopened({ source, options }) {
    const files = new Map([['source', bytesOf(source)]]);
    const { status, output, errors } = this.runOnce(['debug', ...argumentsOf(options), 'source'], files);
    return { status, text: (output + errors).trim() };
  }

  word({ word, content, code }) {
    if (word === 'explain') return this.runOnce(['explain', code], new Map());
    if (word !== 'dis' && word !== 'check') throw new Refused(400, 'no such word');
    return this.runOnce([word, 'file'], new Map([['file', bytesOf(content)]]));
  }

  // The tape of a seed, in hexadecimal: what as many random numbers give, one after another.
  tape({ seed }) {
    const files = new Map([['source', bytesOf('RND V0, 255\n'.repeat(TAPE_BYTES))]]);
    const { status, output, errors } = this.runOnce(['trace', 'source', '--seed', seed, '--steps', `${TAPE_BYTES}`], files);
    if (status !== 0) throw new Refused(400, errors.trim());
    // the header and the state before the first step have none of them
    const [, , ...steps] = output.trimEnd().split('\n');
    return { tape: steps.map((line) => line.split(' ')[FIRST_REGISTER]).join('') };
  }

  // Whether the program takes a file of key events: the first line that it refuses, and why.
  keys({ text }) {
    const files = new Map([['empty', new Uint8Array()], ['keys', bytesOf(text)]]);
    const { status, errors } = this.runOnce(['run', 'empty', '--steps', '0', '--keys', 'keys'], files);
    if (status === 0) return { refused: null };
    const found = /:(\d+): (.+)$/.exec(errors.trim());
    if (!found) throw new Refused(409, errors.trim());
    return { refused: { line: Number(found[1]), why: found[2] } };
  }

  search({ source, keys, options, ...question }) {
    const files = new Map([['source', bytesOf(source)], ['keys', bytesOf(keys)]]);
    const words = ['trace', ...this.argumentsFor('trace', options), '--from', `${question.first}`, '--steps', `${question.last}`, '--keys', 'keys', 'source'];
    return findSteps(this.module, words, files, question);
  }
}
