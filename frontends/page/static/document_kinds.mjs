// The documents that there are: files that are written in their places, and texts that are in no such file.

import { readFile } from './text_form.mjs';

export const UNTITLED = 'untitled';

/** A key of its own, for a document that has no place in a file system. */
export const newKey = () => `own ${Date.now()} ${Math.random().toString(36).slice(2)}`;

/**
 * A document: its key, under which the browser keeps it, its name, whether it is a file that is written in its place, and then the
 * digest and the text of that file as they were read last; the file is null where it isn't there. The key of such a file is its path.
 */
export function fileDocument({ name, path, text, digest }) {
  return { key: path, name, isFile: true, digest, file: text === null ? null : readFile(text) };
}

/** A text that is in no file that can be written. */
export const elsewhere = ({ key = newKey(), name, text = null, digest = null }) => ({ key, name, isFile: false, digest, file: text === null ? null : readFile(text) });

/** The key of the source of an image that the bridge was started on. */
export const imageKey = (path) => `image ${path}`;

/** A name as a source has one, so that Open lists the file. */
export const asSource = (name) => (/\.(asm|s|txt)$/i.test(name) ? name : `${name}.asm`);

/** The name under which a document that is in no file is saved, where the author gives no other. */
export function sourceName(name) {
  if (name === UNTITLED) return 'game.asm';
  return /\.(asm|s|txt)$/i.test(name) ? name : `${name.replace(/\.[^.]*$/, '')}.asm`;
}

/** The text of a file's bytes, with its form. */
export function withForm(byteString) {
  const { text, encoding, lineEnd } = readFile(byteString);
  return { text, form: { encoding, lineEnd } };
}

/**
 * What is said beside a document's name: whether a file has its text, and else whether the browser keeps it. `isLasting` is false where the
 * browser may delete what it keeps.
 */
export function stateText({ isFile, isGone, isSaved, isFull, isLasting = null }) {
  const kept = isFull ? 'NOT kept: this browser has no room' : `kept in this browser${isLasting === false ? ' for now' : ''}`;
  const where = !isFile ? 'not in a file' : isGone ? 'the file is gone' : 'not saved';
  return isSaved ? 'saved' : `${where}; ${kept}`;
}

/** The longer text of the same. */
export function stateTitle(isLasting) {
  if (isLasting === null) return '';
  return isLasting ? 'This browser keeps your texts until you delete them.' : 'This browser may delete your texts when the disk is nearly full. Save or download any text that you need to keep.';
}
