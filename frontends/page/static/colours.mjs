// A line of the source in the colours of its tokens.

import { element } from './dom.mjs';
import { tokensOf } from './language.mjs';

/** A row with the text of a line, of the same width as the text. */
export function coloured(line) {
  const row = element('div');
  let end = 0;
  for (const { kind, text, start } of tokensOf(line)) {
    if (start > end) row.append(line.slice(end, start));
    if (kind === 'sign' || kind === 'name') row.append(text);
    else row.append(element('span', { className: kind, textContent: text }));
    end = start + text.length;
  }
  if (end < line.length) row.append(line.slice(end));
  return row;
}
