// Downloads, and reading files that the author chooses.

import { element } from './dom.mjs';
import { toBytes } from './text_form.mjs';

/** Hands bytes, or a byte string, to the browser as a file. */
export function download(name, content) {
  const bytes = typeof content === 'string' ? toBytes(content) : content;
  const address = URL.createObjectURL(new Blob([bytes], { type: 'application/octet-stream' }));
  element('a', { href: address, download: name }).click();
  setTimeout(() => URL.revokeObjectURL(address), 10_000);
}

/** A file as a byte string. */
export async function readByteString(file) {
  const bytes = new Uint8Array(await file.arrayBuffer());
  let text = '';
  for (let start = 0; start < bytes.length; start += 0x4000) text += String.fromCharCode(...bytes.subarray(start, start + 0x4000));
  return text;
}
