// The author's document: which one is open, what the browser kept of it, and other documents and texts in its place.

import { elsewhere, fileDocument, imageKey, newKey, UNTITLED } from './document_kinds.mjs';
import { EarlierTexts } from './earlier_texts.mjs';
import { firstDocument, foundDocument, listOf } from './found_document.mjs';
import { FileSaving } from './file_saving.mjs';
import { FileWatch } from './file_watch.mjs';
import { KeyHistory } from './key_history.mjs';
import { KeyScript } from './key_script.mjs';
import { LastingStorage } from './lasting_storage.mjs';
import { notice, takeAllAway, takeAway } from './notices.mjs';
import { OpenDocument } from './open_document.mjs';
import { tellFull, tellUnread } from './page_faults.mjs';
import { Store, tabDocument } from './store.mjs';
import { TextHistory } from './text_history.mjs';
import { digestOf, readFile } from './text_form.mjs';
import { Windows } from './windows.mjs';

export class Documents extends EventTarget {
  #about;
  #model;
  #editor;
  #store;
  #earlier;
  #windows = new Windows();
  #lasting = new LastingStorage();
  #open;
  #saving;
  #optionsFor;
  /** Whether the document is the one that the page was opened on, whose settings the command line may say. */
  #isFirst = true;
  /** The number of the last opening: one that takes long gives way to the next. */
  #opening = 0;

  /**
   * `about` is what the page was opened on; `askName(name)` asks under which name to save; `optionsFor({ kept, isFirst, isNew })` are
   * the settings of a document by what the browser kept of it.
   */
  constructor(about, { model, editor, askName, optionsFor }) {
    super();
    this.#about = about;
    this.#model = model;
    this.#editor = editor;
    this.#optionsFor = optionsFor;
    this.#open = new OpenDocument(model, about.start);
    this.#earlier = new EarlierTexts(() => this.#tellFull());
    this.#store = new Store(model, { about: () => this.#open.record });
    this.#store.addEventListener('full', () => this.#tellFull());
    this.#store.addEventListener('kept', () => {
      this.#windows.kept();
      this.#earlier.keep();
      if (model.isEdited) this.#lasting.ask();
    });
    this.#lasting.addEventListener('change', () => {
      if (!this.#isFirst) this.tellState();
    });
    this.#store.addEventListener('other', async () => {
      await this.#earlier.read();
      this.#offerEarlier('Another window has changed this text.');
    });
    this.#windows.addEventListener('other', () => notice('window', 'Another window has this document open too. Each window writes over the text of the other, which you then find under Earlier texts.'));
    this.#windows.addEventListener('kept', () => this.#tellOther());
    this.#saving = new FileSaving(this, { model, store: this.#store, open: this.#open, picks: about.picks === true, askName });
    new FileWatch(this, { model, editor, open: this.#open });
  }

  get name() {
    return this.#open.is.name;
  }

  get key() {
    return this.#open.is.key;
  }

  /** Writes the file of the title; where there is none, asks for its name. */
  save() {
    return this.#saving.save();
  }

  saveAs() {
    return this.#saving.saveAs();
  }

  /** All documents that the browser keeps, the newest first (store.mjs). */
  kept() {
    return this.#store.list();
  }

  rename(key, name) {
    return this.#store.rename(key, name);
  }

  /** The texts that were put aside, the newest last. */
  get earlier() {
    return this.#earlier.all;
  }

  /** Opens the document that the tab had, or that of the bridge. Returns what the browser kept of it, or null. */
  async begin() {
    await this.#store.begin();
    const tab = tabDocument.read(this.#about.start);
    const { isImage, path } = this.#about;
    const opened = await this.#start(tab === null || tab.key === (isImage ? imageKey(path) : path) ? await firstDocument(this.#about, this.#store) : await foundDocument(tab, this.#store));
    await this.#earlier.read();
    const isNew = (entry) => entry.key === this.key && entry.kind !== 'save' && entry.told !== true;
    if (this.earlier.some(isNew)) this.#offerEarlier('');
    return opened;
  }

  /** Reads what the browser keeps of a document that is to be opened: all that was done here is in it. */
  async #readKept(key) {
    try {
      this.#store.keep();
      const { changes } = this.#store;
      const kept = await this.#store.read(key);
      // what was changed meanwhile of the same document is newer, and may be written already
      return { kept: key === this.#store.key && this.#store.changes !== changes ? this.#store.current : kept, fault: null };
    } catch (fault) {
      return { kept: null, fault };
    }
  }

  /**
   * Shows a document with what the browser kept of it, which is returned; null also where another one was opened meanwhile. `why` is
   * said where the text before isn't in a file.
   */
  async #start(opened, why = null) {
    this.#opening += 1;
    const opening = this.#opening;
    const { key, name, isFile, file, digest } = opened;
    const { kept, fault } = await this.#readKept(key);
    const isKept = kept !== null && kept.text !== file?.text;
    const isReplaced = isKept && file !== null && (digest === null || kept.known !== digest);
    // it is written before another text is kept in its place
    if (isReplaced) await this.#earlier.put({ text: kept.text, form: kept.form, key, name, isFile, why: isFile ? 'the file was changed since' : 'opened anew', kind: 'text' });
    if (opening !== this.#opening) return null;
    const isLost = why !== null && this.#open.isUnsaved;
    if (isLost) this.putAside(this.#model, 'not saved when another file was opened');
    // what was changed while the other document was read belongs to this one
    this.#store.keep();
    this.#open.begin(opened, kept);
    if (fault === null) this.#store.use(key, kept);
    else this.#store.useSubstitute(newKey());
    takeAllAway();
    if (fault !== null) tellUnread(name, fault, { again: () => this.openKept(opened), writeOver: () => this.#store.writeOver(key) });
    if (file?.hasStrayCr) notice('ends', 'This file has a CR without LF, or mixed line ends. The page shows each CR as the end of a line, and saves it as LF.');
    if (isReplaced) {
      this.#take({ ...kept, ...file, form: undefined, textHistory: undefined, breakLines: [] });
      this.#offerEarlier(`The text is that of ${name}.`);
    } else if (isKept) {
      this.#take(kept);
      if (file !== null) this.#tellKept(file);
    } else {
      this.#take({ ...(kept ?? {}), ...(file ?? readFile(kept?.text ?? '')), form: file === null ? kept?.form : undefined });
    }
    this.#isFirst = false;
    this.#store.opened();
    this.#windows.use(key);
    if (isLost) this.#offerEarlier(why);
    return kept;
  }

  /** @param {any} contents what a document has */
  #take(contents) {
    const { text, form, encoding, lineEnd, options: kept, look, keys = new KeyScript(), step = 0, played = 0, breakLines = [], textHistory = new TextHistory(), keyHistory = new KeyHistory() } = contents;
    const options = this.#optionsFor({ kept, isFirst: this.#isFirst, isNew: text === '' && this.#open.is.file === null });
    this.#model.startWith({ text, form: form ?? { encoding, lineEnd }, keys, step, played, breakLines, textHistory, keyHistory, options, look });
    this.tellState();
  }

  #tellKept(file) {
    const { isFile, name } = this.#open.is;
    const origin = isFile ? 'text of the file' : /\.(?:asm|s|txt)$/i.test(name) ? 'opened text' : 'source of the image';
    const takeFile = () => this.replace(file.text, file, `The text is now the ${origin}.`);
    notice('kept', `The browser kept this text, and it isn't saved in ${isFile ? 'the' : 'a'} file yet.`, {
      choices: [['Keep this text', () => {}], [`Take the ${origin}`, takeFile]],
    });
  }

  // Other documents and texts -------------------------------------------------------------------------------------------------

  /** Opens another document in place of this one, whose text is kept. */
  async open(opened, why) {
    const kept = await this.#start(opened, why);
    this.dispatchEvent(new Event('open'));
    return kept;
  }

  openFile(found) {
    return this.open(fileDocument(found), `${found.name} is open now.`);
  }

  /** Opens a document that the browser keeps. */
  async openKept(row) {
    return this.open(await foundDocument(row, this.#store), `${row.name} is open now.`);
  }

  /** Whether this is a new document without a text. */
  get isBlank() {
    return this.#model.text === '' && this.#open.is.file === null;
  }

  /** A first text: of a file that isn't there yet, or of a document of that name. */
  async startFrom(name, byteString) {
    if (!this.#open.is.isFile || !this.isBlank) await this.openText(name, byteString);
    else this.#editor.replace(0, 0, readFile(byteString).text);
  }

  /** A text that was handed to the page: one that it had before, of the same name and bytes, is the same document; any other is a new one. */
  async openText(name, byteString) {
    const digest = digestOf(byteString);
    const before = (await listOf(this.#store)).find((one) => one.name === name && !one.isFile && one.known === digest);
    await this.open(elsewhere({ key: before?.key, name, text: byteString, digest }), `${name} is open now. Save asks for a name.`);
  }

  /** Another text takes the place of the author's, as an edit that can be undone. */
  replace(text, { encoding, lineEnd }, why) {
    this.putAside(this.#model, 'another text took its place');
    this.#editor.replace(0, this.#editor.text.length, text);
    this.#model.setText(text, { encoding, lineEnd });
    this.#offerEarlier(why);
  }

  /** Puts a text of the open document aside. */
  putAside({ text, form }, why, kind = 'text') {
    const { key, name, isFile } = this.#open.is;
    this.keepEarlier({ text, form, key, name, isFile, why, kind });
  }

  /** Puts a text aside, with the document that it belongs to. */
  keepEarlier(entry) {
    this.#earlier.put(entry);
  }

  /** The work is kept under this key from now on; `kept` is what the browser kept of it, or null. */
  use(key, kept) {
    this.#store.use(key, kept);
    this.#windows.use(key);
  }

  #offerEarlier(why) {
    this.#earlier.offer(why, this.key, (place) => this.takeBack(place));
  }

  /** Takes an earlier text back, into its own document. */
  async takeBack(place) {
    const { text, form, name = UNTITLED, key, isFile } = this.#earlier.take(place);
    takeAway('aside');
    if (key !== this.key && key !== undefined) await this.open(await foundDocument({ key, name, isFile }, this.#store), `${name} is open again.`);
    if (text !== this.#model.text) this.replace(text, form, 'The earlier text is back.');
  }

  drop(place) {
    this.#earlier.drop(place);
  }

  /** Deletes a document that the browser keeps, with its earlier texts. */
  async remove(key) {
    await this.#earlier.forget(key);
    await this.#store.remove(key);
  }

  /** Another window has kept this document: its text can be taken. */
  async #tellOther() {
    const kept = await this.#store.read(this.key).catch(() => null);
    if (kept === null || kept.text === this.#model.text) return;
    notice('window', 'Another window has changed this text.', { choices: [['Take its text', () => this.replace(kept.text, kept.form, 'The text is now that of the other window.')], ['Keep mine', () => {}]] });
  }

  // What is said of it --------------------------------------------------------------------------------------------------------

  tellState() {
    this.#open.tellState({ isFull: this.#store.isFull, isLasting: this.#lasting.isLasting });
  }

  #tellFull() {
    this.tellState();
    tellFull(this.#store.isFull || this.#earlier.isFull);
  }
}
