// The dialog that explains a code. A document that its page names can be opened in it, at the place that tells of the code.

import { request } from './bridge.mjs';
import { byId, element } from './dom.mjs';

const NAMED = /docs\/([A-Z]+\.md)/;

/** Shows a text under a title; each document that it names is a button. */
export function showExplanation(title, text) {
  byId('explanation-title').textContent = title;
  const parts = text.split(/(docs\/[A-Z]+\.md)/);
  byId('explanation-text').replaceChildren(...parts.map((part) => (NAMED.test(part) ? documentButton(part, title) : part)));
  if (!byId('explanation').open) byId('explanation').showModal();
}

function documentButton(path, code) {
  const button = element('button', { type: 'button', className: 'link', textContent: path, title: 'Opens this document here' });
  button.addEventListener('click', async () => {
    const { text } = await request('text', { name: NAMED.exec(path)[1] }).catch(() => ({ text: null }));
    if (text === null) button.replaceWith(`${path} (not installed here)`);
    else showDocument(path, text, code);
  });
  return button;
}

/** The document as it is written, from the row of its table on that has the code. */
function showDocument(path, text, code) {
  const lines = text.split('\n');
  const place = lines.findIndex((line) => line.startsWith(`| ${code} `));
  const row = element('mark', { textContent: lines[place] ?? '' });
  byId('explanation-title').textContent = path;
  byId('explanation-text').replaceChildren(...(place < 0 ? [text] : [`${lines.slice(0, place).join('\n')}\n`, row, `\n${lines.slice(place + 1).join('\n')}`]));
  if (place >= 0) row.scrollIntoView({ block: 'center' });
}
