// Carries out the page's requests about the program. The session runs in one worker, and the program in others: one for short
// commands, one for searches in a run, one for each kind of long run. A worker that answers too late, or whose run is stopped, is ended
// and begins anew with its next request.
import { BridgeFault, carryBy } from './bridge.mjs';
import { OPTIONS } from './options.mjs';
import { isSeed, tapeOf } from './seed_tape.mjs';

const SECONDS = 60;
/** The workers of single requests; the one for short commands has the others. */
const WORKERS = { ask: 'session', search: 'search' };
const LONG_RUNS = ['explore', 'prove'];

class Workers {
  #begin;
  #modules;
  #taken = {};
  #workers = new Map();
  #number = 0;

  constructor(begin, modules) {
    this.#begin = begin;
    this.#modules = modules;
  }

  #worker(kind) {
    if (!this.#workers.has(kind)) {
      const worker = this.#begin();
      const name = kind === 'session' ? 'session' : 'program';
      const ready = this.#module(name).then((module) => worker.postMessage({ kind: name, module }));
      const waiting = new Map();
      worker.onmessage = ({ data }) => {
        const { answered, tell } = waiting.get(data.number) ?? {};
        if (data.progress !== undefined) tell?.(data.progress);
        else {
          waiting.delete(data.number);
          answered?.(data);
        }
      };
      this.#workers.set(kind, { worker, waiting, ready });
    }
    return this.#workers.get(kind);
  }

  // A module is taken and compiled when its first worker begins, once for all workers.
  #module(name) {
    this.#taken[name] ??= this.#modules[name]();
    return this.#taken[name];
  }

  // Has the session's worker begin, so that it takes its module while the page is made. The first answer needs no other worker, and
  // the program's module is seven times as large.
  begin() {
    this.#worker('session');
  }

  end(kind) {
    const ended = this.#workers.get(kind);
    if (ended === undefined) return;
    ended.worker.terminate();
    this.#workers.delete(kind);
    for (const { answered } of ended.waiting.values()) answered({ refused: { status: 504, text: 'the program gave no answer in time and was ended' } });
  }

  /** `tell` is told how far a run is; a run with one may take any time. */
  async ask(kind, name, body, tell) {
    const { worker, waiting, ready } = this.#worker(kind);
    this.#number += 1;
    const number = this.#number;
    const late = tell === undefined ? setTimeout(() => this.end(kind), 1000 * SECONDS) : null;
    const { reply, refused } = await new Promise((answered) => {
      waiting.set(number, { answered, tell });
      const refuse = (fault) => answered({ refused: { status: 0, text: fault.message } });
      ready.then(() => worker.postMessage({ number, name, body })).catch(refuse);
    });
    clearTimeout(late);
    if (refused) throw new BridgeFault(refused.status, refused.text);
    return reply;
  }
}

/** Runs of one command that take long, one at a time: each is started, told of and stopped by its number. */
class LongRuns {
  #workers;
  #name;
  #number = 0;
  #told = null;

  constructor(workers, name) {
    this.#workers = workers;
    this.#name = name;
  }

  answer({ action, number, ...body }) {
    if (action === 'start') this.#start(body);
    else if (number !== this.#number || this.#told === null) return { number: null };
    if (action === 'stop') {
      this.#stop();
      return { number: null };
    }
    return { number: this.#number, ...this.#told };
  }

  #start(body) {
    this.#stop();
    this.#number += 1;
    const told = { isBegun: false, step: 0, states: 0, output: '', result: null };
    this.#told = told;
    const take = (result) => {
      told.result = result;
    };
    const asked = this.#workers.ask(this.#name, this.#name, body, (progress) => Object.assign(told, progress));
    asked.then(take, (fault) => take({ status: -1, output: '', errors: fault.message, keys: '' }));
  }

  #stop() {
    if (this.#told !== null && this.#told.result === null) this.#workers.end(this.#name);
    this.#told = null;
  }
}

/**
 * Has the page's requests about the program carried out by workers, and those about files by `own`, which are functions by the names of
 * requests: `about`, `files`, `read`, `save`, and where the browser's file access is used `pick` and `choose`; `game`, the page of an
 * exported game; `text`, a document or an example by its name. `begin()` begins a worker; `modules` are functions that give promises of the
 * WebAssembly modules.
 */
export function carryByWorkers(begin, modules, own) {
  const workers = new Workers(begin, modules);
  workers.begin();
  const runs = Object.fromEntries(LONG_RUNS.map((name) => [name, new LongRuns(workers, name)]));
  // The session's module takes a tape. The program says what is wrong with a seed that is none.
  const tape = async ({ seed }) => (isSeed(seed) ? { tape: tapeOf(seed) } : workers.ask('program', 'tape', { seed }));
  const withTape = async ({ seed, ...options }) => (seed === undefined ? options : { ...options, ...(await tape({ seed })) });
  const carried = {
    about: async () => ({ ...(await own.about()), options: OPTIONS }),
    tape,
    example: async ({ name, steps }) => {
      const { text } = await own.text({ name: `${name}.asm` });
      return text === null ? { text, screen: null } : workers.ask('program', 'example', { text, steps });
    },
    open: async (body) => {
      const reply = await workers.ask('session', 'open', { ...body, options: await withTape(body.options) });
      return reply.unopened === undefined ? reply : { answers: [], ended: await workers.ask('program', 'unopened', body) };
    },
    ...Object.fromEntries(LONG_RUNS.map((name) => [name, (body) => runs[name].answer(body)])),
  };
  carryBy(async (name, body) => (carried[name] ?? own[name] ?? ((asked) => workers.ask(WORKERS[name] ?? 'program', name, asked)))(body));
}
