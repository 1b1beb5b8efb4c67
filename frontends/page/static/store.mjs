// What the browser keeps of each document: the text with what can be undone of it, the keys, the settings and the step, in one piece.

import { inStore, inStores, LateFault, readAll, readOne, remove, taken } from './database.mjs';
import { documentOf, earlierOf, recordOf, sizeOf } from './kept_document.mjs';
import { dropPending, keepPending, takeOver, takePendingOf } from './old_storage.mjs';

const LATER_MILLISECONDS = 300;
/** The milliseconds before a failed write is tried again. */
const AGAIN_MILLISECONDS = 3000;
/** The milliseconds before each new try of a failed read. */
const READ_AGAIN_MILLISECONDS = [50, 400];
const TAB = 'chipbench-page document';

/** The parts of a record that are the author's work: another window's are not written over unasked. */
const workOf = ({ text, form, keys, known }) => JSON.stringify([text, form, keys, known]);

/** Where a document is kept: `own` are the stamps that this window has read or written there, `work` the work that was. */
const slotOf = (key, kept) => ({ key, own: kept === null ? [] : [kept.stamp], work: null, isSubstitute: false });

/** Tells `kept` once something is written, `full` where `isFull` changes, and `other` where another window's text was put aside. */
export class Store extends EventTarget {
  #model;
  #about;
  #timer = null;
  #again = null;
  #writing = Promise.resolve();
  /** The place of the document that is open. */
  #slot = null;
  #isChanged = false;
  /** By key what isn't written yet, also of documents that were open before: the newest record, and its slot. */
  #unwritten = new Map();

  /** Whether the browser had no room, or no database, when something was written last. */
  isFull = false;
  /** How often something of the open document was changed. */
  changes = 0;

  /**
   * `about()` says what the open document is: `key`, `name`, `isFile`, `known`, the digest of the file that its text was last the same
   * as, and `isSaved`.
   */
  constructor(model, { about }) {
    super();
    this.#model = model;
    this.#about = about;
    model.addEventListener('change', () => this.#changed());
    document.addEventListener('visibilitychange', () => {
      if (document.hidden) this.keep();
    });
    addEventListener('pagehide', () => this.#leave());
    addEventListener('beforeunload', (event) => {
      if (!this.#leave() || this.isFull) event.preventDefault();
    });
  }

  /** The window is being closed: what isn't written yet is kept where it can be at once. Returns whether all of it could be. */
  #leave() {
    this.#take();
    return [...this.#unwritten.values()].map(leaveEntry).every(Boolean);
  }

  /** Takes over what earlier versions kept. */
  async begin() {
    await takeOver().catch(() => {});
  }

  #changed() {
    if (this.#slot === null) return;
    this.#isChanged = true;
    this.changes += 1;
    this.#timer ??= setTimeout(() => this.keep(), LATER_MILLISECONDS);
  }

  /** Reads what is kept under a key, or null. Throws where that can't be read, and what is kept there is then unknown. */
  async read(key) {
    await this.#writing;
    const unwritten = this.#unwritten.get(key);
    if (unwritten !== undefined) return { ...documentOf(unwritten.record), stamp: unwritten.record.stamp };
    const record = await patiently(async () => {
      await takePendingOf(key);
      return readOne('documents', key);
    });
    const kept = documentOf(record);
    return kept === null ? null : { ...kept, stamp: record.stamp };
  }

  /** The open document as it is now, as `read` gives one. */
  get current() {
    const record = this.#record();
    return { ...documentOf(record), stamp: record.stamp };
  }

  /** From now on the work is kept under this key; `kept` is what was read of it, or null. */
  use(key, kept) {
    this.#slot = this.#unwritten.get(key)?.slot ?? slotOf(key, kept);
    this.#isChanged = false;
  }

  /** What is kept under the open document's key couldn't be read: its work is kept as a document of its own, and nothing is written over. */
  useSubstitute(key) {
    this.#slot = { ...slotOf(key, null), isSubstitute: true };
    this.#isChanged = false;
  }

  /** What couldn't be read is written over: the text that is there is put aside, where it can be read by then. */
  async writeOver(key) {
    const { key: substitute, isSubstitute } = this.#slot;
    // it was saved as another file meanwhile
    if (!isSubstitute) return;
    this.use(key, null);
    this.#isChanged = true;
    await this.keep();
    if (this.isWritten(key)) await this.remove(substitute).catch(() => {});
  }

  /** The key under which the open document is kept. */
  get key() {
    return this.#slot?.key ?? null;
  }

  /** The model has the document: what is changed from now on is this window's own work. */
  opened() {
    this.#slot.work = workOf(this.#record());
  }

  /** Something that is kept beside the model's part has changed. */
  touch() {
    this.#isChanged = true;
  }

  #record() {
    const { key, isSubstitute } = this.#slot;
    const record = { ...this.#about(), ...recordOf(this.#model), key, time: Date.now(), stamp: `${Date.now()} ${Math.random()}` };
    // the file's own document is the one that couldn't be read
    if (isSubstitute) record.isFile = false;
    return { ...record, size: sizeOf(record) };
  }

  /** Takes what the author has now as what is to be written of the open document, whatever is opened next. */
  #take() {
    if (this.#slot === null || !this.#isChanged) return;
    this.#isChanged = false;
    const record = this.#record();
    if (this.#slot.isSubstitute && workOf(record) === this.#slot.work && !this.#unwritten.has(record.key)) return;
    this.#unwritten.set(record.key, { slot: this.#slot, record });
  }

  /** Keeps what the author has; resolves once it is written, or can't be. */
  keep() {
    clearTimeout(this.#timer);
    this.#timer = null;
    this.#take();
    if (this.#unwritten.size > 0) this.#writing = this.#writing.then(() => this.#writeAll());
    return this.#writing;
  }

  /** Writes all that isn't written yet. What can't be stays, and is tried again. */
  async #writeAll() {
    clearTimeout(this.#again);
    for (const entry of [...this.#unwritten.values()]) await this.#write(entry);
    const isLeft = [...this.#unwritten.values()].some(({ isFailed }) => isFailed);
    if (isLeft) this.#again = setTimeout(() => this.keep(), AGAIN_MILLISECONDS);
    this.#setFull(isLeft);
  }

  async #write(entry) {
    const { slot, record } = entry;
    const { own } = slot;
    // one that fails may still be written in the end, as where the browser is late
    slot.own = [...own, record.stamp];
    let result;
    try {
      result = await inStores(['documents', 'earlier'], 'readwrite', ([store, earlier], give) => {
        taken(store.get(record.key), (there) => {
          const isOther = typeof there?.text === 'string' && !own.includes(there.stamp);
          // what another window has kept stays until something is changed in this one
          const stays = isOther && slot.work === workOf(record);
          const isAside = isOther && !stays && there.text !== record.text && there.text.trim() !== '';
          if (isAside) earlier.put(earlierOf(there, 'kept by another window'));
          if (!stays) store.put(record);
          give({ isAside, isWritten: !stays });
        });
      });
    } catch {
      entry.isFailed = true;
      return;
    }
    if (this.#unwritten.get(record.key) === entry) this.#unwritten.delete(record.key);
    if (result.isWritten) {
      slot.own = [record.stamp];
      slot.work = workOf(record);
      dropPending(record.key);
    }
    if (result.isAside) this.dispatchEvent(new Event('other'));
    if (result.isWritten) this.dispatchEvent(new Event('kept'));
  }

  #setFull(isFull) {
    if (isFull === this.isFull) return;
    this.isFull = isFull;
    this.dispatchEvent(new Event('full'));
  }

  /** All documents that are kept, the newest first: `key`, `name`, `isFile`, `known`, `time` and `size`. Throws where they can't be read. */
  async list() {
    const all = await patiently(() => readAll('documents'));
    const rows = all.filter((one) => typeof one.key === 'string' && typeof one.text === 'string');
    return rows.map(({ key, name, isFile, known, time, size, text }) => ({ key, name: String(name ?? key), isFile: isFile === true, known: known ?? null, time: time ?? 0, size: size ?? text.length, isEmpty: text.trim() === '' })).sort((one, other) => other.time - one.time);
  }

  /** Deletes a document that isn't open. */
  async remove(key) {
    await this.#writing;
    await remove('documents', key);
    this.#unwritten.delete(key);
    dropPending(key);
    await remove('handles', key).catch(() => {});
    if (this.isFull) {
      this.#isChanged = true;
      await this.keep();
    }
  }

  /** Whether the last state of a document is written. */
  isWritten(key) {
    return !this.#unwritten.has(key);
  }

  /** Gives a document that is in no file another name. */
  async rename(key, name) {
    await this.#writing;
    const unwritten = this.#unwritten.get(key);
    if (unwritten !== undefined) unwritten.record = { ...unwritten.record, name };
    await inStore('documents', 'readwrite', (store) => {
      taken(store.get(key), (record) => {
        if (record !== undefined) store.put({ ...record, name });
      });
    });
  }
}

/** Keeps what isn't written of a window that is being closed. Another window may write it: it is this one's own nevertheless. */
function leaveEntry({ slot, record }) {
  slot.own = [...slot.own, record.stamp];
  return keepPending({ ...record, before: slot.own, isWork: workOf(record) !== slot.work });
}

/** Reads something; what fails, and not by being late, is tried again: the browser may have closed the database only now. */
async function patiently(read) {
  for (const milliseconds of READ_AGAIN_MILLISECONDS) {
    try {
      return await read();
    } catch (fault) {
      if (fault instanceof LateFault) throw fault;
      await new Promise((done) => setTimeout(done, milliseconds));
    }
  }
  return read();
}

/** What a tab shows of which start of the bridge: a reload of the tab comes back to it. */
export const tabDocument = {
  read(start) {
    try {
      const kept = JSON.parse(sessionStorage.getItem(TAB));
      return kept?.start === start && typeof kept.key === 'string' ? kept : null;
    } catch {
      return null;
    }
  },
  write(kept) {
    try {
      sessionStorage.setItem(TAB, JSON.stringify(kept));
    } catch {
      // the tab then comes back to SOURCE
    }
  },
};
