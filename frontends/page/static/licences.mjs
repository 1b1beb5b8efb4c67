// The licences at the end of the help. The page in one file contains their text; else it is asked for when they are opened.

import { request } from './bridge.mjs';
import { byId } from './dom.mjs';

export async function showLicences() {
  const place = byId('licences-text');
  if (place.textContent !== '') return;
  const { text } = await request('text', { name: 'THIRD-PARTY' }).catch(() => ({ text: null }));
  place.textContent = text ?? 'The file THIRD-PARTY of chipbench contains the licences. It is missing here.';
}
