// The page of the documents that this browser keeps: to open, to name and to delete them.

import { byId, element, grouped } from './dom.mjs';
import { notice } from './notices.mjs';

export class DocumentList {
  #documents;
  #dialog = byId('documents');
  #rows = byId('document-rows');

  constructor(documents) {
    this.#documents = documents;
    byId('show-documents').addEventListener('click', () => this.#show());
  }

  async #show() {
    await this.#draw();
    if (!this.#dialog.open) this.#dialog.showModal();
  }

  async #draw() {
    let none = 'None.';
    const kept = await this.#documents.kept().catch((fault) => {
      none = `They can't be read: ${fault.message}.`;
      return [];
    });
    const rows = kept.filter(({ isFile, isEmpty }) => isFile || !isEmpty);
    this.#rows.replaceChildren(...(rows.length > 0 ? rows.map((row) => this.#row(row)) : [element('p', { textContent: none })]));
    const size = rows.reduce((sum, row) => sum + row.size, 0);
    byId('document-sum').textContent = `${grouped(rows.length)} ${rows.length === 1 ? 'document' : 'documents'}, ${grouped(Math.ceil(size / 1000))} KB`;
  }

  #row(row) {
    const { key, name, isFile, time, size } = row;
    const isOpen = key === this.#documents.key;
    const where = isFile ? (key.startsWith('/') ? key : 'a file') : 'in no file';
    const about = `${new Date(time).toLocaleString()}, ${grouped(Math.ceil(size / 1000))} KB, ${where}${isOpen ? ', open now' : ''}`;
    const title = element('p', {}, element('strong', { textContent: name }), element('span', { className: 'hint', textContent: ` ${about}` }));
    const open = this.#button('Open', name, async () => {
      this.#dialog.close();
      await this.#documents.openKept(row);
    });
    const rename = this.#button('Rename', name, () => this.#rename(title, row));
    const remove = this.#button('Delete', name, async () => {
      await this.#documents.remove(key);
      await this.#draw();
    });
    open.disabled = isOpen;
    // the name of a file is the file's
    rename.hidden = isFile || isOpen;
    remove.disabled = isOpen;
    return element('div', { className: 'earlier-row' }, title, element('span', { className: 'buttons' }, open, rename, remove));
  }

  #button(text, name, action) {
    const made = element('button', { type: 'button', textContent: text });
    made.setAttribute('aria-label', `${text}: ${name}`);
    made.addEventListener('click', () => Promise.resolve(action()).catch((fault) => notice('upload', `${name}: ${fault.message}.`, { bad: true })));
    return made;
  }

  /** Puts a field in the place of the name; Enter takes it. */
  #rename(title, { key, name }) {
    const field = element('input', { value: name, maxLength: 200 });
    field.setAttribute('aria-label', `Another name for ${name}`);
    field.addEventListener('keydown', (event) => {
      if (event.key !== 'Enter') return;
      event.preventDefault();
      field.blur();
    });
    field.addEventListener('change', async () => {
      if (field.value.trim() !== '') await this.#documents.rename(key, field.value.trim());
      await this.#draw();
    });
    title.replaceChildren(field);
    field.select();
    field.focus();
  }
}
