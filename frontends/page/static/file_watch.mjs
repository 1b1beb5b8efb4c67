// The file of the open document, as other programs change it.

import { request } from './bridge.mjs';
import { notice, takeAway } from './notices.mjs';

/** The milliseconds between two looks at a file, because another program may save it. */
const LOOK_MILLISECONDS = 1500;

export class FileWatch {
  #documents;
  #model;
  #editor;
  #open;
  /** Whether the file is being looked at. */
  #isLooking = false;

  constructor(documents, { model, editor, open }) {
    this.#documents = documents;
    this.#model = model;
    this.#editor = editor;
    this.#open = open;
    addEventListener('focus', () => this.#look());
    setInterval(() => {
      if (!document.hidden) this.#look();
    }, LOOK_MILLISECONDS);
  }

  /** Takes a file that another program changed, where nothing is unsaved here; else tells of it, once for each of its texts. */
  async #look() {
    if (!this.#open.is.isFile || this.#isLooking) return;
    this.#isLooking = true;
    const before = this.#open.is;
    const found = await request('read', { name: before.name, key: before.key }).catch(() => null);
    this.#isLooking = false;
    // what was read before a save came late isn't what stands there now
    if (found === null || before !== this.#open.is || found.path !== before.key) return;
    this.#setThere(found.text !== null);
    if (found.digest === this.#open.toldDigest || found.text === null) return;
    this.#open.toldDigest = found.digest;
    if (this.#model.text === this.#open.savedText) this.#follow(found);
    else this.#offer(found);
  }

  #setThere(isThere) {
    if (isThere === this.#open.isThere) return;
    this.#open.isThere = isThere;
    this.#documents.tellState();
    if (!isThere) notice('disk', `${this.#open.is.name} was deleted or moved by another program. Save writes it again.`);
  }

  #offer(found) {
    const take = () => {
      this.#open.follow(found);
      this.#documents.replace(this.#open.savedText, this.#open.is.file, 'The text is now that of the file.');
      this.#documents.tellState();
    };
    notice('disk', `${found.name} was changed by another program.`, { choices: [['Take its text', take], ['Keep mine', () => {}]] });
  }

  /** The text becomes that of the file, as an edit that can be undone. */
  #follow(found) {
    this.#documents.putAside(this.#model, 'in the file before another program changed it', 'save');
    this.#open.follow(found);
    const { text, encoding, lineEnd } = this.#open.is.file;
    this.#editor.become(text);
    this.#model.setText(text, { encoding, lineEnd });
    this.#documents.tellState();
    takeAway('disk');
    notice('followed', `${found.name} was saved by another program, and the page now shows its text. Undo brings your text back.`);
  }
}
