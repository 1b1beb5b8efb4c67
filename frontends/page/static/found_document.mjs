// Which document is opened: the one that the page was opened on, or one that the browser keeps.

import { request } from './bridge.mjs';
import { elsewhere, fileDocument, imageKey, UNTITLED } from './document_kinds.mjs';
import { sourceOf } from './image_source.mjs';
import { notice } from './notices.mjs';

/** The document that the page was opened on; otherwise the last text that was in no file. */
export async function firstDocument(about, store) {
  const { isImage, name, path, text, digest } = about;
  try {
    if (isImage) return elsewhere({ key: imageKey(path), name, text: await sourceOf(text), digest });
  } catch (fault) {
    setTimeout(() => notice('upload', `${name} can't be opened: ${fault.message}.`, { bad: true }));
  }
  if (name !== null && !isImage) return fileDocument(about);
  const last = (await listOf(store)).find((one) => one.name === UNTITLED && !one.isFile);
  return elsewhere({ key: last?.key, name: UNTITLED });
}

/** A document that the browser keeps, with its file where that can be read. */
export async function foundDocument({ key, name, isFile }, store) {
  const known = (await store.read(key).catch(() => null))?.known ?? null;
  if (!isFile) return elsewhere({ key, name, digest: known });
  const found = await request('read', { name, key }).catch(() => null);
  if (found?.path === key) return fileDocument(found);
  // a file that the browser has to be asked for again, or that is a download, is written as before; one of another folder isn't reached
  const isOfBrowser = /^(?:handle|own) /.test(key);
  return isOfBrowser ? { key, name, isFile: true, digest: known, file: null, isUnread: true } : elsewhere({ key, name, digest: known });
}

/** What the browser keeps; nothing, and the author is told so, where that can't be read. */
export function listOf(store) {
  return store.list().catch((fault) => {
    setTimeout(() => notice('unread', `The texts that this browser keeps can't be read: ${fault.message}. They stay as they are.`, { bad: true }));
    return [];
  });
}
