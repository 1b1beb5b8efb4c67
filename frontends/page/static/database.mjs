// The browser's database of this page: the documents, and the texts that were put aside.

const NAME = 'chipbench-page';
const VERSION = 1;
const STORES = { documents: 'key', handles: 'key', earlier: 'id' };

/** A database that gives no answer for so long counts as one that failed. */
const LATEST_MILLISECONDS = 10_000;

export class LateFault extends Error {}

let opened = null;

function open() {
  return new Promise((done, fail) => {
    const request = indexedDB.open(NAME, VERSION);
    request.onupgradeneeded = () => {
      for (const [name, keyPath] of Object.entries(STORES)) request.result.createObjectStore(name, { keyPath });
    };
    request.onsuccess = () => {
      // the browser may close the database at any time: the next question opens it again
      request.result.onclose = forget;
      done(request.result);
    };
    request.onerror = () => fail(request.error);
  });
}

function forget() {
  opened = null;
}

/** The database. It is opened again after it was closed, and after it couldn't be opened. */
function database() {
  if (opened === null) {
    opened = open();
    opened.catch(forget);
  }
  return opened;
}

// opened at once, since the first document is read from it
database();

/**
 * Has `act(stores, give)` read and change stores in one transaction. Resolves with what `act` gave, once all of it is written. Throws what
 * kept the browser from writing, such as a lack of room; then nothing of the transaction is written.
 */
export async function inStores(names, mode, act) {
  let transaction = null;
  let timer = null;
  const late = new Promise((_, fail) => {
    timer = setTimeout(() => {
      fail(new LateFault('the browser didn\'t answer'));
      stop(transaction);
    }, LATEST_MILLISECONDS);
  });
  const acted = database().then((base) => new Promise((done, fail) => {
    let given;
    transaction = begun(base, names, mode);
    transaction.oncomplete = () => done(given);
    transaction.onabort = () => fail(transaction.error ?? new Error('the browser wrote nothing'));
    act(names.map((name) => transaction.objectStore(name)), (value) => {
      given = value;
    });
  }));
  return Promise.race([acted, late]).finally(() => clearTimeout(timer));
}

function begun(base, names, mode) {
  try {
    return base.transaction(names, mode);
  } catch (fault) {
    // closed, and not told yet
    forget();
    throw fault;
  }
}

/** An answer came too late, so nothing may be written any more. */
function stop(transaction) {
  try {
    transaction?.abort();
  } catch {
    // the transaction has ended meanwhile
  }
}

/** Does this with one store: `act(store, give)`. */
export const inStore = (name, mode, act) => inStores([name], mode, ([store], give) => act(store, give));

/** The record under a key, or undefined. */
export const readOne = (name, key) => inStore(name, 'readonly', (store, give) => taken(store.get(key), give));

/** All records of a store. */
export const readAll = (name) => inStore(name, 'readonly', (store, give) => taken(store.getAll(), give));

export const remove = (name, key) => inStore(name, 'readwrite', (store) => store.delete(key));

/** Hands the result of a request on once it is there. */
export function taken(request, take) {
  request.onsuccess = () => take(request.result);
}
