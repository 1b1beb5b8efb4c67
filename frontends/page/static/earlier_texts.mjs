// Texts that others took the place of, until they are dropped: the newest of them, in this browser.

import { inStore, readAll, remove } from './database.mjs';
import { byId } from './dom.mjs';
import { formOf } from './kept_document.mjs';
import { notice, takeAway } from './notices.mjs';
import { keepEarlierPending } from './old_storage.mjs';

const MOST = 20;
const MOST_SAVES = 10;
const MOST_CHARACTERS = 1_500_000;

export class EarlierTexts {
  #onFull;
  #all = [];
  /** By id what isn't written yet: a text, or null for one that is gone. */
  #unwritten = new Map();

  /** Whether the browser didn't write them when they were to be written last. */
  isFull = false;

  /** `onFull()` is called where `isFull` changes. */
  constructor(onFull) {
    this.#onFull = onFull;
    addEventListener('pagehide', () => this.#leave());
    addEventListener('beforeunload', (event) => {
      if (this.isFull) event.preventDefault();
    });
  }

  /** The window is being closed: what isn't written yet is kept where it can be at once. */
  #leave() {
    const texts = [...this.#unwritten.values()].filter((one) => one !== null);
    if (texts.length > 0) keepEarlierPending(texts);
  }

  /** The texts, the newest last. */
  get all() {
    return this.#all;
  }

  /** Reads them anew: another window may have put some aside. */
  async read() {
    const found = await readAll('earlier').catch(() => null);
    if (found === null) return;
    const isWritten = ({ id }) => !this.#unwritten.has(id);
    const texts = found.filter((one) => typeof one?.text === 'string').map((one) => ({ ...one, form: formOf(one.form) }));
    const unwritten = [...this.#unwritten.values()].filter((one) => one !== null);
    this.#all = [...texts.filter(isWritten), ...unwritten].sort((one, other) => one.time - other.time);
  }

  /**
   * Puts a text aside, with the document that it belongs to (`key`, `name`, `isFile`) and why it was put aside. Resolves once it is
   * written, or can't be.
   */
  async put(entry) {
    if (entry.text.trim() === '') return;
    const time = Date.now();
    const added = { ...entry, time, id: `${time} ${Math.random()}` };
    const others = this.#all.filter((one) => one.text !== entry.text || one.key !== entry.key);
    await this.#become([...newest([...others, added])]);
  }

  /** The author was told of these texts: a reload isn't to tell of them again. */
  markTold() {
    if (this.#all.some(({ told }) => told !== true)) this.#become(this.#all.map((one) => ({ ...one, told: true })));
  }

  /** Takes one of them out, by its place, and returns it. */
  take(place) {
    const one = this.#all[place];
    this.#become(this.#all.filter((other) => other !== one));
    return one;
  }

  drop(place) {
    this.take(place);
    takeAway('aside');
  }

  /** Offers the newest of them that no save put aside; `key` is that of the document that is open, and `takeBack(place)` takes one. */
  offer(why, key, takeBack) {
    takeAway('aside');
    const place = this.#all.findLastIndex(({ kind }) => kind !== 'save');
    if (place < 0) return;
    this.markTold();
    const of = this.#all[place].key === key ? 'the text that you had before' : `your text of ${this.#all[place].name}`;
    notice('aside', `${why} This browser keeps ${of}.`.trim(), {
      choices: [['Take it back', () => takeBack(place)], ['Earlier texts …', () => byId('show-earlier').click()], ['Close', () => {}]],
    });
  }

  /** Writes what is another one, and removes what is gone; those of another window stay. */
  #become(all) {
    const gone = this.#all.filter(({ id }) => !all.some((one) => one.id === id));
    const changed = all.filter((one) => !this.#all.includes(one));
    this.#all = all;
    for (const one of changed) this.#unwritten.set(one.id, one);
    for (const { id } of gone) this.#unwritten.set(id, null);
    return this.keep();
  }

  /** Writes what isn't written yet. */
  async keep() {
    const entries = [...this.#unwritten];
    if (entries.length === 0) return;
    try {
      await inStore('earlier', 'readwrite', (store) => {
        for (const [id, one] of entries) one === null ? store.delete(id) : store.put(one);
      });
      for (const [id, one] of entries) if (this.#unwritten.get(id) === one) this.#unwritten.delete(id);
      this.#setFull(false);
    } catch {
      this.#setFull(true);
    }
  }

  #setFull(isFull) {
    if (isFull === this.isFull) return;
    this.isFull = isFull;
    this.#onFull();
  }

  /** All of a document that is deleted go with it. */
  async forget(key) {
    for (const { id } of this.#all.filter((one) => one.key === key)) await remove('earlier', id).catch(() => {});
    this.#all = this.#all.filter((one) => one.key !== key);
    for (const [id, one] of this.#unwritten) if (one?.key === key) this.#unwritten.delete(id);
  }
}

/** The newest of the texts, and of those that a save took the place of, as far as there is room. */
function newest(entries) {
  const isSave = ({ kind }) => kind === 'save';
  const kept = new Set([...entries.filter(isSave).slice(-MOST_SAVES), ...entries.filter((entry) => !isSave(entry)).slice(-MOST)]);
  const all = entries.filter((entry) => kept.has(entry));
  let size = all.reduce((sum, one) => sum + one.text.length, 0);
  while (all.length > 1 && size > MOST_CHARACTERS) size -= all.shift().text.length;
  return all;
}
