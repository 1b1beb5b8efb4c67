// The files of a page without a bridge: those that the author chose by the browser's own file access, where it has one; else the
// page opens texts and saves by downloads. Beside them stand the examples. A file is told by a key, since two may have one name.

import { inStore, readAll, readOne } from './database.mjs';
import { digestOf, toBytes, toByteString } from './text_form.mjs';

const TYPES = [{ description: 'Sources, images and scripts of keys', accept: { 'text/plain': ['.asm', '.s', '.txt', '.keys'], 'application/octet-stream': ['.ch8', '.rom', '.bin'] } }];
const DOWNLOAD_MILLISECONDS = 60_000;

/** Gives null if the user left a picker without a choice. */
async function unlessLeft(chosen) {
  try {
    return await chosen;
  } catch (error) {
    if (error.name === 'AbortError') return null;
    throw error;
  }
}

const isSame = async (one, other) => one === other || (await one.isSameEntry?.(other)) === true;

export class PageFiles {
  /** The examples by name, and by key what was saved as a download. */
  #texts;
  #examples;
  #handles = new Map();
  /** The files that were chosen to be saved to, and weren't since: the browser has asked whether they may be written over. */
  #chosen = new Set();

  constructor(examples) {
    this.#texts = new Map(Object.entries(examples));
    this.#examples = [...this.#texts.keys()];
  }

  /** Whether the browser lets the author choose files that are read and written in their place. */
  get picks() {
    return typeof globalThis.showOpenFilePicker === 'function' && typeof globalThis.showSaveFilePicker === 'function';
  }

  list() {
    return this.#examples.map((name) => ({ name, size: this.#texts.get(name).length }));
  }

  /** The key of a file: the one that it had, also before a reload, or a new one. */
  async #take(handle) {
    const kept = await readAll('handles').catch(() => []);
    for (const { key, handle: other } of [...kept, ...[...this.#handles].map(([key, known]) => ({ key, handle: known }))]) {
      if (await isSame(other, handle)) return this.#hold(key, handle);
    }
    const key = `handle ${Date.now()} ${Math.random().toString(36).slice(2)}`;
    // a browser that keeps no handles has them until the page is closed
    await inStore('handles', 'readwrite', (store) => store.put({ key, handle })).catch(() => {});
    return this.#hold(key, handle);
  }

  #hold(key, handle) {
    this.#handles.set(key, handle);
    return { name: handle.name, key };
  }

  async #handleOf(key) {
    if (!this.#handles.has(key)) {
      const kept = await readOne('handles', key).catch(() => undefined);
      if (kept !== undefined) this.#handles.set(key, kept.handle);
    }
    return this.#handles.get(key);
  }

  /** The file that the author chose to open; its name is null where there is none. */
  async pick() {
    const chosen = await unlessLeft(globalThis.showOpenFilePicker({ types: TYPES }));
    return chosen === null ? { name: null } : this.#take(chosen[0]);
  }

  /** The file that the author chose to save to; its name is null where there is none. */
  async choose(suggestedName) {
    const chosen = await unlessLeft(globalThis.showSaveFilePicker({ types: TYPES, suggestedName }));
    if (chosen === null) return { name: null };
    const taken = await this.#take(chosen);
    this.#chosen.add(taken.key);
    return taken;
  }

  async #textOf(handle) {
    try {
      const file = await handle.getFile();
      return toByteString(new Uint8Array(await file.arrayBuffer()));
    } catch (error) {
      if (error.name === 'NotFoundError') return null;
      throw error;
    }
  }

  /** A file by its key, or an example by its name; `path` is the key, or null where there is no such file here. */
  async read({ name, key }) {
    const handle = key === undefined ? undefined : await this.#handleOf(key);
    if (handle !== undefined) return described(name, key, await this.#textOf(handle));
    const place = key ?? name;
    return described(name, this.#texts.has(place) ? place : null, this.#texts.get(place) ?? null);
  }

  /** Writes a file where it is still the one that is known; without file access it is a download. */
  async save({ name, key = undefined, text, known }) {
    if (!this.picks) return this.#download(name, key ?? name, text);
    const handle = key === undefined ? undefined : await this.#handleOf(key);
    if (handle === undefined) {
      const chosen = await this.choose(name);
      if (chosen.name === null) throw new Error('no file was chosen');
      return this.save({ ...chosen, text, known });
    }
    // after a reload the browser asks once more
    const permission = (await handle.requestPermission?.({ mode: 'readwrite' })) ?? 'granted';
    if (permission !== 'granted') throw new Error('you haven\'t allowed the browser to write this file');
    const found = described(name, key, await this.#textOf(handle));
    if (!this.#chosen.has(key) && found.text !== null && found.digest !== known) return { saved: false, ...found };
    const stream = await handle.createWritable();
    await stream.write(toBytes(text));
    await stream.close();
    this.#chosen.delete(key);
    return { saved: true, ...described(name, key, text), text: null };
  }

  #download(name, key, text) {
    const link = document.createElement('a');
    link.href = URL.createObjectURL(new Blob([toBytes(text)], { type: 'application/octet-stream' }));
    link.download = name;
    link.click();
    setTimeout(() => URL.revokeObjectURL(link.href), DOWNLOAD_MILLISECONDS);
    this.#texts.set(key, text);
    return { saved: true, ...described(name, key, text), text: null };
  }
}

const described = (name, path, text) => ({ name, path, text, digest: text === null ? null : digestOf(text) });

/** The requests about files of a page in one file, for its carrier. A tab that is loaded anew comes back to what it had open. */
export function ownRequests({ examples, documents, game }) {
  const files = new PageFiles(examples);
  const about = { name: null, path: null, text: null, digest: null, isImage: false, start: 'one file', folder: 'this browser', isLoose: true, settings: {} };
  return {
    about: async () => ({ ...about, picks: files.picks }),
    files: async () => ({ folder: about.folder, files: files.list() }),
    read: (body) => files.read(body),
    save: (body) => files.save(body),
    pick: () => files.pick(),
    choose: ({ name }) => files.choose(name),
    game,
    text: async ({ name }) => ({ text: examples[name] ?? documents[name] ?? null }),
  };
}
