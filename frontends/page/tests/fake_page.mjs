// The documents of the page without a browser: a stand-in for its elements, its storages, its database and its files.

import './older_node.mjs';
import { FakeDatabase } from './fake_database.mjs';

const { setTimeout: wait } = globalThis;
const LONG_MILLISECONDS = 5000;
/** What the page does again after a longer time than this is done ten times sooner. */
const AGAIN_MILLISECONDS = 1000;

class FakeElement extends EventTarget {
  children = [];
  dataset = {};
  textContent = '';
  parent = null;

  append(...children) {
    for (const child of children) if (child instanceof FakeElement) child.parent = this;
    this.children.push(...children);
  }

  replaceChildren(...children) {
    this.children = children;
  }

  remove() {
    if (this.parent !== null) this.parent.children = this.parent.children.filter((one) => one !== this);
  }

  querySelectorAll() {
    return [...this.children];
  }

  get firstChild() {
    return this.children[0] ?? null;
  }

  get lastChild() {
    return this.children.at(-1) ?? null;
  }

  click() {
    this.dispatchEvent(new Event('click'));
  }
}

/** A storage whose entries are its own properties, as a browser's are. */
class FakeStorage {
  getItem(name) {
    return Object.hasOwn(this, name) ? this[name] : null;
  }

  setItem(name, value) {
    if (FakeStorage.isFull) throw new Error('no room');
    this[name] = String(value);
  }

  removeItem(name) {
    delete this[name];
  }
}
FakeStorage.isFull = false;

export const database = new FakeDatabase();
const elements = new Map();
const files = new Map();
/** How often the page was loaded: what an earlier load has begun does nothing more. */
let load = 0;
let events = new EventTarget();
/** So many times shorter the page waits for what may never come. */
let hurry = 1;

function byId(id) {
  if (!elements.has(id)) elements.set(id, new FakeElement());
  return elements.get(id);
}

Object.assign(globalThis, {
  indexedDB: database,
  Text: class {},
  BroadcastChannel: undefined,
  localStorage: new FakeStorage(),
  sessionStorage: new FakeStorage(),
  setInterval: () => 0,
  addEventListener: (name, act) => events.addEventListener(name, act),
  setTimeout: (act, milliseconds) => {
    const begun = load;
    const isLong = milliseconds > LONG_MILLISECONDS;
    const timer = wait(() => {
      if (begun === load) act();
    }, isLong ? milliseconds / hurry : milliseconds > AGAIN_MILLISECONDS ? milliseconds / 10 : milliseconds);
    // no test waits for what an earlier one waited for
    if (isLong && hurry === 1) timer.unref();
    return timer;
  },
  document: { hidden: true, title: '', getElementById: byId, createElement: () => new FakeElement(), addEventListener() {} },
});

/** The browser's own storage: whether it keeps all until it is asked to delete it, and how often it was asked to. */
export const storage = { isLasting: false, grants: true, asked: 0, persisted: async () => storage.isLasting, persist: async () => {
  storage.asked += 1;
  storage.isLasting = storage.grants;
  return storage.isLasting;
} };
// a getter in newer versions of node
Object.defineProperty(globalThis, 'navigator', { value: { storage }, configurable: true });

const { carryBy } = await import('../static/bridge.mjs');
const { Documents } = await import('../static/documents.mjs');
const { Model } = await import('../static/model.mjs');

const found = (name) => ({ name, path: `/${name}`, text: files.get(name) ?? null, digest: files.has(name) ? `digest of ${files.get(name)}` : null });

carryBy(async (name, body) => {
  if (name === 'read') return found(body.name);
  if (name === 'save') {
    files.set(body.name, body.text);
    return { saved: true, ...found(body.name), text: null };
  }
  throw new Error(`no ${name} here`);
});

/** An author's edits of a model. */
class Hand {
  constructor(model) {
    this.model = model;
  }

  get text() {
    return this.model.text;
  }

  become(text) {
    this.model.textHistory.record(this.text, text, { selectionBefore: [0, 0], selectionAfter: [0, 0], time: 0, isTyped: false });
    this.model.setText(text);
  }

  replace(start, end, text) {
    this.become(this.text.slice(0, start) + text + this.text.slice(end));
  }

  undo() {
    const done = this.model.textHistory.undo(this.text);
    if (done !== null) this.model.setText(done.text);
  }
}

/** A browser that keeps nothing yet, and a folder with these files. */
export function fresh(contents) {
  load += 1;
  hurry = 1;
  events = new EventTarget();
  database.reload();
  database.clear();
  for (const storage of [localStorage, sessionStorage]) for (const name of Object.keys(storage)) storage.removeItem(name);
  files.clear();
  for (const [name, text] of Object.entries(contents)) files.set(name, text);
  byId('notices').replaceChildren();
  FakeStorage.isFull = false;
  Object.assign(storage, { isLasting: false, grants: true, asked: 0 });
}

/** The page on a file of the folder. */
export async function page(name) {
  const model = new Model();
  const editor = new Hand(model);
  const documents = new Documents({ ...found(name), isImage: false, start: 'a test' }, { model, editor, askName: async () => ({ name: 'saved.asm' }), optionsFor: ({ kept }) => kept ?? {} });
  await documents.begin();
  return { model, editor, documents, openNamed: (other) => documents.openFile(found(other)) };
}

/** The page is loaded anew; `isWritten` says whether what the database writes now is written still. */
export async function reload(name, isWritten = false) {
  events.dispatchEvent(new Event('pagehide'));
  load += 1;
  events = new EventTarget();
  database.reload(isWritten);
  byId('notices').replaceChildren();
  return page(name);
}

/** Another window, beside the one that there is. */
export const otherWindow = page;

/** The page waits a hundredth of its time for what may never come. */
export function hurryUp() {
  hurry = 100;
}

/** Whether the window asks before it is closed. */
export const asksToLeave = () => !events.dispatchEvent(new Event('beforeunload', { cancelable: true }));

export const fillStorage = (isFull = true) => {
  FakeStorage.isFull = isFull;
};

/** What is said beside the document's name. */
export function stateOf({ documents }) {
  documents.tellState();
  return byId('file-state').textContent;
}

export const notices = () => byId('notices').children.map((row) => row.children[0].textContent);

/** Presses a button of a notice. */
export function press(label) {
  for (const row of byId('notices').children) for (const one of row.children) if (one.textContent === label) return one.click();
  throw new Error(`no button ${label}: ${notices()}`);
}

/** The record that is kept under the name of a file, or undefined. */
export const keptOf = (name) => database.rows('documents').find((one) => one.key === `/${name}`);

export async function until(condition, what = String(condition)) {
  for (let left = 400; left > 0; left -= 1) {
    if (await condition()) return;
    await pause(10);
  }
  throw new Error(`never: ${what}`);
}

export const pause = (milliseconds) => new Promise((done) => wait(done, milliseconds));
