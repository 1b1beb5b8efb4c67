// What earlier versions of the page kept in the browser's small storage is taken over into the database, once; and what a window that
// is closed had not written yet.

import { inStore, inStores, taken } from './database.mjs';
import { earlierOf, formOf } from './kept_document.mjs';

const PREFIX = 'chipbench-page ';
const EARLIER = 'chipbench-page, earlier';
const PENDING = 'chipbench-page, pending ';
const WINDOW = Math.random();

function parsed(text) {
  try {
    return JSON.parse(text);
  } catch {
    return null;
  }
}

/** A document's record of what stood under its slot, or null. */
function oldRecord(slot, content, history) {
  const kept = parsed(content);
  if (typeof kept?.text !== 'string') return null;
  const isElsewhere = slot.startsWith('elsewhere ');
  const isUntitled = slot === 'without a file';
  const name = isUntitled ? 'untitled' : slot.replace(/^elsewhere /, '').replace(/^.*\//, '');
  return { ...kept, key: slot, name, isFile: !isElsewhere && !isUntitled, history: parsed(history), time: Date.now(), stamp: 'taken over' };
}

/** Puts a record under its key, but not over one that is there already. */
const putRecord = (record) =>
  inStore('documents', 'readwrite', (store) => {
    taken(store.get(record.key), (there) => {
      if (there === undefined) store.put(record);
    });
  });

/** Takes all over that the small storage has; what the database has no room for stays there. */
export async function takeOver(storage = localStorage) {
  if (!Object.keys(storage).some((name) => name.startsWith(PREFIX) || name.startsWith(PENDING) || name === EARLIER)) return;
  const slots = Object.keys(storage).filter((name) => name.startsWith(PREFIX) && !/, (?:history|aside)$/.test(name));
  for (const name of slots) {
    const slot = name.slice(PREFIX.length);
    const record = oldRecord(slot, storage[name], storage[`${name}, history`]);
    if (record !== null) await putRecord(record);
    for (const gone of [name, `${name}, history`, `${name}, aside`]) storage.removeItem(gone);
  }
  await takeEarlier(storage);
  await takePending(storage);
}

async function takeEarlier(storage) {
  const texts = [parsed(storage.getItem(EARLIER))].flat().filter((one) => typeof one?.text === 'string');
  if (texts.length > 0) {
    await inStore('earlier', 'readwrite', (store) => {
      texts.forEach(({ slot, form, ...one }, place) => {
        const time = Number.isFinite(one.time) ? one.time : Date.now();
        store.put({ ...one, form: formOf(form), key: slot ?? one.key, time, id: one.id ?? `${time} ${place}` });
      });
    });
  }
  storage.removeItem(EARLIER);
}

/** Keeps texts that were put aside and aren't written yet, of a window that is being closed. */
export function keepEarlierPending(texts) {
  try {
    const others = [parsed(localStorage.getItem(EARLIER))].flat().filter((one) => typeof one?.text === 'string' && !texts.some(({ id }) => id === one.id));
    localStorage.setItem(EARLIER, JSON.stringify([...others, ...texts]));
  } catch {
    // a page whose texts can't be written asks before it is closed
  }
}

/** Takes over what closed windows had not written: of one document, or of all. */
async function takePending(storage, key = null) {
  for (const name of Object.keys(storage).filter((one) => one.startsWith(PENDING))) {
    const record = parsed(storage.getItem(name));
    const isDocument = typeof record?.key === 'string' && typeof record.text === 'string';
    if (key !== null && !(isDocument && record.key === key)) continue;
    if (isDocument) await takeWork(record);
    storage.removeItem(name);
  }
}

/** Takes over what closed windows had not written of a document that is read now. */
export const takePendingOf = (key) => takePending(smallStorage(), key);

/**
 * Takes what a window had that was closed; `before` are the stamps that the window itself had read or written. What another window has
 * kept since stays where the closed one had done no work, and else is put aside.
 */
const takeWork = ({ before, isWork, ...record }) =>
  inStores(['documents', 'earlier'], 'readwrite', ([store, earlier]) => {
    taken(store.get(record.key), (there) => {
      const isOther = there !== undefined && ![before, record.stamp].flat().includes(there.stamp);
      if (isOther && !isWork) return;
      if (isOther && typeof there.text === 'string' && there.text !== record.text) earlier.put(earlierOf(there, 'kept by another window'));
      store.put(record);
    });
  });

/** The browser's small storage; an empty one where there is none. */
function smallStorage() {
  try {
    return localStorage;
  } catch {
    return /** @type {any} */ ({});
  }
}

/** Where this window keeps what isn't written of a document: each window has a place of its own. */
const pendingName = (key) => `${PENDING}${key} ${WINDOW}`;

/** Keeps what isn't written yet of a window that is being closed, which has no time for the database. Returns whether there is room. */
export function keepPending(record) {
  try {
    localStorage.setItem(pendingName(record.key), JSON.stringify(record));
    return true;
  } catch {
    return false;
  }
}

/** The database has it by now. */
export function dropPending(key) {
  try {
    localStorage.removeItem(pendingName(key));
  } catch {
    // there is no small storage either
  }
}
