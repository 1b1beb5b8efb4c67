// The document that is open: what it is, how its text stands to its file, and what is said of that beside its name.

import { elsewhere, fileDocument, stateText, stateTitle, UNTITLED } from './document_kinds.mjs';
import { byId, setText, setTitle } from './dom.mjs';
import { tabDocument } from './store.mjs';

export class OpenDocument {
  #model;
  #start;
  #is = elsewhere({ name: UNTITLED });

  /** The text of the file when it was read or saved last, or null. */
  savedText = null;
  /** The digest of the file's text that the author was told of last. */
  toldDigest = null;
  /** Whether the file was there when it was looked at last. */
  isThere = true;

  /** `start` is the start of the bridge, to which a reload of the tab comes back. */
  constructor(model, start) {
    this.#model = model;
    this.#start = start;
  }

  /** `key`, `name`, `isFile`, `digest` and `file` (document_kinds.mjs). */
  get is() {
    return this.#is;
  }

  /** Another document; `kept` is what the browser kept of it, or null. */
  begin(opened, kept) {
    this.#is = opened;
    const { isFile, file, digest, isUnread = false } = opened;
    this.savedText = isFile && file !== null ? file.text : isUnread && kept?.isSaved ? kept.text : null;
    this.toldDigest = digest;
    this.isThere = file !== null || isUnread || !isFile;
    this.#show();
  }

  /** The text was written to a file, which is the document from now on. */
  saved(text, { name, path, digest }) {
    this.#is = { key: path, name, isFile: true, digest, file: { text, ...this.#model.form } };
    this.savedText = text;
    this.toldDigest = digest;
    this.isThere = true;
    this.#show();
  }

  /** The file was read again, and its text is to be that of the document. */
  follow(found) {
    this.#is = fileDocument(found);
    this.savedText = this.#is.file.text;
  }

  /** Whether the file has the text, as far as it is known. */
  get isSaved() {
    return this.#is.isFile && this.isThere && this.savedText === this.#model.text;
  }

  /** Whether the text is neither in the file nor what was opened. */
  get isUnsaved() {
    const { text } = this.#model;
    return text !== this.savedText && text !== this.#is.file?.text;
  }

  /** What the browser keeps of it beside the model's part. */
  get record() {
    const { key, name, isFile, digest } = this.#is;
    return { key, name, isFile, known: digest, isSaved: this.isSaved };
  }

  /** `isFull` and `isLasting` say how the browser keeps it. */
  tellState({ isFull, isLasting }) {
    const isGone = !this.isThere && this.savedText !== null;
    setText(byId('file-state'), stateText({ isFile: this.#is.isFile, isGone, isSaved: this.isSaved, isFull, isLasting }));
    setTitle(byId('file-state'), isFull ? '' : stateTitle(isLasting));
  }

  #show() {
    const { key, name, isFile } = this.#is;
    tabDocument.write({ start: this.#start, key, name, isFile });
    byId('file-name').textContent = name;
    document.title = `${name} – chipbench`;
    byId('save').textContent = isFile ? 'Save' : 'Save …';
  }
}
