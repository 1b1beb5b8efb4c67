// Saving: the file of the title, or one under another name, where it is still the one that is known.

import { request } from './bridge.mjs';
import { asSource, sourceName, withForm } from './document_kinds.mjs';
import { notice, takeAway } from './notices.mjs';
import { writeFile } from './text_form.mjs';

export class FileSaving {
  #documents;
  #model;
  #store;
  #open;
  #picks;
  #askName;

  /** `open` is the open document, `picks` whether the browser has file access of its own; `askName(name)` asks under which name to save. */
  constructor(documents, { model, store, open, picks, askName }) {
    this.#documents = documents;
    this.#model = model;
    this.#store = store;
    this.#open = open;
    this.#picks = picks;
    this.#askName = askName;
  }

  /** Writes the file of the title; where there is none, asks for its name. */
  save() {
    const { isFile, name, key, digest } = this.#open.is;
    return isFile ? this.#write({ name, key }, this.#open.isThere ? digest : null) : this.saveAs();
  }

  async saveAs() {
    const { name: own, key, isFile, digest } = this.#open.is;
    const asked = await this.#askName(isFile ? own : sourceName(own));
    if (asked === null) return;
    const isOwn = isFile && asked.name === own && (asked.key === undefined || asked.key === key);
    const name = isOwn || this.#picks ? asked.name : asSource(asked.name);
    await this.#write({ name, key: asked.key ?? (this.#picks ? undefined : key) }, isOwn ? digest : null);
  }

  /** Writes a file, where it is still the one that is known. */
  async #write({ name, key }, known) {
    const { document: number, text, form } = this.#model;
    try {
      const reply = await request('save', { name, key, text: writeFile(text, form), known });
      // what is saved meanwhile is of another document
      if (number !== this.#model.document) return;
      if (reply.saved) await this.#saved(text, reply);
      else this.#askToOverwrite(reply);
    } catch (fault) {
      const kept = this.#store.isFull ? 'Only this window has the text.' : 'Nothing is lost: the text is kept in this browser.';
      notice('save', `It wasn't saved: ${fault.message}. ${kept}`, { bad: true });
    }
  }

  async #saved(text, file) {
    const before = this.#open.is;
    const isMoved = file.path !== before.key;
    const kept = isMoved ? await this.#store.read(file.path).catch(() => null) : null;
    if (before !== this.#open.is) return;
    const { key: left } = this.#store;
    // what the document before has is kept under its own key
    if (isMoved) this.#store.keep();
    const { savedText } = this.#open;
    if (savedText !== null && savedText !== text && !isMoved) this.#documents.putAside({ text: savedText, form: this.#model.form }, 'in the file before you saved', 'save');
    if (kept !== null && kept.text !== text) this.#documents.keepEarlier({ text: kept.text, form: kept.form, name: file.name, key: file.path, isFile: true, why: 'kept in the browser before you saved over it', kind: 'text' });
    this.#open.saved(text, file);
    if (isMoved) this.#documents.use(file.path, kept);
    for (const told of isMoved ? ['save', 'kept', 'disk', 'unread'] : ['save', 'kept', 'disk']) takeAway(told);
    this.#documents.tellState();
    this.#store.touch();
    await this.#store.keep();
    // what was in no file is in this one now
    const isElsewhere = !before.isFile || left !== before.key;
    if (isMoved && isElsewhere && left !== null && this.#store.isWritten(file.path)) await this.#store.remove(left).catch(() => {});
  }

  #askToOverwrite({ name, path, text, digest }) {
    const number = this.#model.document;
    const overwrite = () => {
      // asked of another document by now
      if (number !== this.#model.document) return undefined;
      if (text !== null) this.#documents.keepEarlier({ ...withForm(text), name, key: path, isFile: true, why: 'in the file before it was written over', kind: 'text' });
      return this.#write({ name, key: path }, digest);
    };
    const told = path === this.#open.is.key ? `${name} was changed by another program since you opened it.` : `The file ${name} already exists.`;
    notice('save', `${told} Your text wasn't saved.`, { bad: true, choices: [['Write mine over it', overwrite], ['Leave it', () => {}]] });
  }
}
