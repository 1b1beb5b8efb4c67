// What the author has to know or to choose, in one line over the page. The newest is seen; an older one that still has to be
// answered comes back once that is closed.

import { byId, element } from './dom.mjs';

/** The milliseconds after which a notice that asks nothing goes away. */
const TOLD_MILLISECONDS = 12_000;

const place = byId('notices');

/**
 * Shows a notice in place of one with the same name. `choices` are pairs of a text and what it does; each takes the notice
 * away. Without choices it can be closed.
 */
export function notice(name, text, { bad = false, choices = [] } = {}) {
  takeAway(name);
  const row = element('div', { className: bad ? 'notice bad' : 'notice' }, element('p', { textContent: text }));
  row.dataset.name = name;
  for (const [label, action] of choices.length > 0 ? choices : [['Close', () => {}]]) {
    const button = element('button', { type: 'button', textContent: label });
    button.addEventListener('click', () => {
      remove(row);
      action();
    });
    row.append(button);
  }
  row.append(element('span', { className: 'count' }));
  place.append(row);
  count();
  if (!bad && choices.length === 0) setTimeout(() => remove(row), TOLD_MILLISECONDS);
}

export function takeAway(name) {
  for (const row of place.querySelectorAll('.notice')) if (row.dataset.name === name) remove(row);
}

/** Notices that are told of the page, and not of a document. */
const OF_THE_PAGE = ['full', 'fault', 'ended'];

/** Another document is open: what was told of the one before goes. */
export function takeAllAway() {
  for (const row of place.querySelectorAll('.notice')) if (!OF_THE_PAGE.includes(row.dataset.name)) remove(row);
}

function remove(row) {
  row.remove();
  count();
}

/** Says on the newest how many there are. */
function count() {
  const rows = [...place.children];
  rows.forEach((row) => {
    row.lastChild.textContent = rows.length > 1 ? `1 of ${rows.length}` : '';
  });
}
