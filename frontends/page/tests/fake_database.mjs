// A stand-in for the browser's database, which tests make slow, late or faulty. Its transactions go one after another, and what one of
// them writes is there once it is complete.

const wait = globalThis.setTimeout;

export class FakeDatabase {
  #stores = new Map();
  #queue = [];
  #isBusy = false;
  #connections = [];

  /** Whether it can't be opened. */
  isShut = false;
  /** Milliseconds that each answer takes. */
  delay = 0;
  /** Whether a transaction fails, by its mode and the stores that it is about. */
  fails = (_mode, _names) => false;
  /** Whether a transaction isn't answered. */
  hangs = (_mode, _names) => false;
  /** What was written, the newest last. */
  written = [];
  #held = null;

  open() {
    const request = /** @type {any} */ ({});
    wait(() => {
      if (this.isShut) {
        request.error = new Error('the disk failed');
        request.onerror?.();
        return;
      }
      const base = this.#connection();
      request.result = base;
      if (this.#stores.size === 0) request.onupgradeneeded?.();
      request.onsuccess?.();
    }, this.delay);
    return request;
  }

  #connection() {
    const base = /** @type {any} */ ({
      isClosed: false,
      createObjectStore: (name, { keyPath }) => this.#stores.set(name, { keyPath, rows: new Map() }),
      transaction: (names, mode) => {
        if (base.isClosed) throw Object.assign(new Error('the connection is closed'), { name: 'InvalidStateError' });
        return this.#begin([names].flat(), mode);
      },
    });
    this.#connections.push(base);
    return base;
  }

  /** The browser closes the database by itself; `isTold` says whether the page is told. */
  close(isTold = true) {
    for (const base of this.#connections.splice(0)) {
      base.isClosed = true;
      if (isTold) base.onclose?.();
    }
  }

  /** What is in a store. */
  rows(name) {
    return [...(this.#stores.get(name)?.rows.values() ?? [])];
  }

  /** Another window writes something. */
  write(name, record) {
    const { keyPath, rows } = this.#stores.get(name);
    rows.set(record[keyPath], structuredClone(record));
  }

  clear() {
    for (const { rows } of this.#stores.values()) rows.clear();
    Object.assign(this, { isShut: false, delay: 0, fails: () => false, hangs: () => false, written: [] });
  }

  /** Whether a transaction waits for an answer that doesn't come. */
  get isHeld() {
    return this.#held !== null;
  }

  /** Answers again. */
  goOn() {
    this.hangs = () => false;
    const held = this.#held;
    this.#held = null;
    held?.step();
  }

  /** The page is loaded anew: what isn't complete is dropped and tells nothing; the first of it is written with `isWritten`. */
  reload(isWritten = false) {
    const [first] = this.#queue;
    if (isWritten) first?.finish();
    for (const one of this.#queue) one.isDead = true;
    this.#queue = [];
    this.#isBusy = false;
    this.#held = null;
  }

  #begin(names, mode) {
    const writes = [];
    const requests = [];
    const one = /** @type {any} */ ({ isDead: false, error: null });
    const ask = (act) => {
      const request = /** @type {any} */ ({});
      requests.push(() => {
        request.result = act();
        request.onsuccess?.({ target: request });
      });
      return request;
    };
    const storeOf = (name) => {
      const { keyPath, rows } = this.#stores.get(name);
      const change = (act) => ask(() => { writes.push(act); });
      return {
        get: (key) => ask(() => structuredClone(rows.get(key))),
        getAll: () => ask(() => structuredClone([...rows.values()])),
        put: (value) => {
          const copy = structuredClone(value);
          return change(() => {
            rows.set(copy[keyPath], copy);
            this.written.push(copy);
          });
        },
        delete: (key) => change(() => rows.delete(key)),
      };
    };
    one.objectStore = (name) => storeOf(name);
    one.finish = () => {
      while (requests.length > 0) requests.shift()();
      for (const write of writes.splice(0)) write();
    };
    one.abort = (error = null) => this.#end(one, () => {
      one.error = error;
      one.onabort?.();
    });
    one.step = () => {
      if (one.isDead) return;
      if (this.hangs(mode, names)) {
        this.#held = one;
        return;
      }
      if (this.fails(mode, names)) return one.abort(Object.assign(new Error('the disk failed'), { name: 'UnknownError' }));
      if (requests.length > 0) {
        requests.shift()();
        wait(one.step, this.delay);
        return;
      }
      one.finish();
      this.#end(one, () => one.oncomplete?.());
    };
    this.#queue.push(one);
    this.#next();
    return one;
  }

  #end(one, tell) {
    if (one.isDead) return;
    one.isDead = true;
    this.#queue = this.#queue.filter((other) => other !== one);
    this.#isBusy = false;
    tell();
    this.#next();
  }

  #next() {
    if (this.#isBusy || this.#queue.length === 0) return;
    this.#isBusy = true;
    const [one] = this.#queue;
    wait(() => one.step(), this.delay);
  }
}
