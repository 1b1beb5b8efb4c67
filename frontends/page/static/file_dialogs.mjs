// The dialogs about files: to open one, to save under a name, earlier texts; and downloads.

import { readBytes, refusal } from './answers.mjs';
import { request } from './bridge.mjs';
import { byId, element, grouped } from './dom.mjs';
import { download, readByteString } from './files.mjs';
import { readGame, writeGame } from './game_file.mjs';
import { sourceOf } from './image_source.mjs';
import { readKeys, writeKeys } from './key_script.mjs';
import { notice, takeAway } from './notices.mjs';
import { writeFile } from './text_form.mjs';

const LARGEST_FILE = 2_000_000;

/** Asks under which name to save (`name`); null where the author gives none. */
export function askName(name) {
  const dialog = byId('save-as');
  const field = dialog.querySelector('[name=name]');
  field.value = name;
  dialog.returnValue = '';
  dialog.showModal();
  field.select();
  return new Promise((done) => {
    dialog.addEventListener('close', () => done(dialog.returnValue === 'save' && field.value !== '' ? { name: field.value } : null), { once: true });
  });
}

/** Has the author choose a file to save to by the browser's own file access (`name` and `key`); null where none is chosen. */
export async function chooseName(name) {
  const chosen = await request('choose', { name });
  return chosen.name === null ? null : chosen;
}

export class FileDialogs {
  #about;
  #documents;
  #model;
  #editor;
  #workbench;

  constructor(about, { documents, model, editor, workbench }) {
    this.#about = about;
    this.#documents = documents;
    this.#model = model;
    this.#editor = editor;
    this.#workbench = workbench;
    for (const place of document.querySelectorAll('.folder')) place.textContent = about.folder;
    // a page without a bridge has no folder
    for (const place of document.querySelectorAll('.with-folder')) place.hidden = about.isLoose === true;
    for (const place of document.querySelectorAll('.without-folder')) place.hidden = about.isLoose !== true;
    this.#listen();
  }

  #listen() {
    byId('save').addEventListener('click', () => this.#documents.save());
    byId('save-as-button').addEventListener('click', () => this.#documents.saveAs());
    byId('upload').addEventListener('click', () => this.#showOpen());
    byId('upload-elsewhere').addEventListener('click', () => (this.#about.picks ? this.#pick() : byId('upload-file').click()));
    byId('show-earlier').addEventListener('click', () => this.#showEarlier());
    byId('download-source').addEventListener('click', () => this.#download('asm', writeFile(this.#model.text, this.#model.form)));
    byId('download-keys').addEventListener('click', () => this.#download('keys', writeKeys(this.#model.keys)));
    byId('download-game').addEventListener('click', () => this.#download('game.asm', writeGame(this.#model)));
    byId('download-image').addEventListener('click', () => this.#downloadImage());
    byId('upload-file').addEventListener('change', ({ target }) => {
      this.#openElsewhere(target.files[0]);
      target.value = '';
    });
    const holdsFiles = (event) => event.dataTransfer.types.includes('Files');
    document.addEventListener('dragover', (event) => {
      if (holdsFiles(event)) event.preventDefault();
    });
    document.addEventListener('drop', (event) => {
      if (!holdsFiles(event)) return;
      event.preventDefault();
      this.#openElsewhere(event.dataTransfer.files[0]);
    });
  }

  // Opening -------------------------------------------------------------------------------------------------------------------

  async #showOpen() {
    const list = byId('open-files');
    list.replaceChildren();
    byId('open').showModal();
    try {
      const { files } = await request('files');
      const rows = files.map(({ name, size }) => this.#fileButton(name, size));
      list.replaceChildren(...(rows.length > 0 ? rows : [element('p', { textContent: 'This folder has no source, image or script of keys.' })]));
    } catch (fault) {
      list.replaceChildren(element('p', { textContent: `The folder can't be read: ${fault.message}.` }));
    }
  }

  #fileButton(name, size) {
    const button = element('button', { type: 'button' }, name, element('span', { className: 'hint', textContent: `${grouped(size)} bytes` }));
    button.addEventListener('click', () => {
      byId('open').close();
      this.#openNamed({ name });
    });
    return button;
  }

  /** A file of the folder, which is saved there again. */
  async #openNamed({ name, key = undefined }) {
    await this.#try(name, async () => {
      const found = await request('read', { name, key });
      if (found.text === null) throw new Error('the file has gone');
      if (kindOf(name) === 'source' && !this.#holdsGame(found.text)) await this.#documents.openFile(found);
      else await this.#openContent(name, found.text);
    });
  }

  /** A file that the author chooses by the browser's own file access: it is saved there again. */
  async #pick() {
    byId('open').close();
    await this.#try('The file', async () => {
      const picked = await request('pick');
      if (picked.name !== null) await this.#openNamed(picked);
    });
  }

  /** A file that the author chose, wherever it lies; saving asks for a name. */
  async #openElsewhere(file) {
    byId('open').close();
    if (file === undefined) return;
    await this.#try(file.name, async () => {
      if (file.size > LARGEST_FILE) throw new Error('it is too long');
      await this.#openContent(file.name, await readByteString(file));
    });
  }

  async #try(name, action) {
    takeAway('upload');
    try {
      await action();
    } catch (fault) {
      notice('upload', `${name} can't be opened: ${fault.message}. Nothing was changed.`, { bad: true });
    }
  }

  #holdsGame(content) {
    return readGame(content) !== null;
  }

  /** A source, a script of keys, an image, or a source with its keys. */
  async #openContent(name, content) {
    const kind = kindOf(name);
    if (kind === 'keys') return this.#openKeys(content);
    const source = kind === 'image' ? await sourceOf(content) : content;
    const game = readGame(source);
    if (game !== null) await this.#checkKeys(game.keys);
    await this.#documents.openText(name, game?.source ?? source);
    if (game !== null) this.#takeGame(game);
  }

  #takeGame({ keys, options, look, breakLines, step }) {
    const known = Object.fromEntries(Object.entries(options).filter(([name]) => this.#about.options.includes(name)));
    this.#model.setOptions({ rate: '10', ...known });
    this.#model.setLook(look);
    this.#editor.breakpoints.set(breakLines);
    this.#model.setKeys(readKeys(keys));
    this.#model.setStep(step);
  }

  async #openKeys(content) {
    await this.#checkKeys(content);
    this.#model.setKeys(readKeys(content));
  }

  /** Which scripts of keys there are the program says. */
  async #checkKeys(text) {
    const { refused } = await request('keys', { text });
    if (refused !== null) throw new Error(`line ${refused.line} of the keys: ${refused.why}`);
  }

  // Earlier texts -------------------------------------------------------------------------------------------------------------

  #showEarlier() {
    const { earlier } = this.#documents;
    const rows = earlier.map((entry, place) => this.#earlierRow(entry, place)).reverse();
    byId('earlier-texts').replaceChildren(...(rows.length > 0 ? rows : [element('p', { textContent: 'None.' })]));
    if (!byId('earlier').open) byId('earlier').showModal();
  }

  #earlierRow({ name, time, why, text }, place) {
    const when = Number.isFinite(time) ? new Date(time).toLocaleString() : '';
    const lines = text.split('\n');
    const about = element('p', {}, element('strong', { textContent: name ?? '' }), ` ${when}: ${why ?? ''}, ${grouped(lines.length)} lines`);
    const first = element('code', { textContent: lines.find((line) => line.trim() !== '') ?? '' });
    const button = (label, action) => {
      const made = element('button', { type: 'button', textContent: label });
      made.setAttribute('aria-label', `${label}: ${name ?? ''}, ${when}`);
      made.addEventListener('click', action);
      return made;
    };
    const take = button('Take back', () => {
      byId('earlier').close();
      this.#documents.takeBack(place);
    });
    const drop = button('Drop', () => {
      this.#documents.drop(place);
      this.#showEarlier();
    });
    return element('div', { className: 'earlier-row' }, about, first, element('span', { className: 'buttons' }, take, drop));
  }

  // Downloads -----------------------------------------------------------------------------------------------------------------

  #download(kind, byteString) {
    download(`${this.#documents.name.replace(/\.[^.]*$/, '')}.${kind}`, byteString);
  }

  async #downloadImage() {
    const { wanted } = this.#model;
    const [image] = await this.#workbench.answers(wanted, ['image']);
    // another document is open by now
    if (wanted.document !== this.#model.document) return;
    takeAway('image');
    if (refusal(image) !== null) notice('image', 'There is no image, because a line has a fault.');
    else this.#download('ch8', String.fromCharCode(...readBytes(image)));
  }
}

function kindOf(name) {
  if (/\.keys$/i.test(name)) return 'keys';
  return /\.(ch8|rom|bin)$/i.test(name) ? 'image' : 'source';
}
