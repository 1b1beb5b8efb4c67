// The page in one file that plays a game: its template with what is of that game.

import { machineText } from './quirks.mjs';
import { toByteString } from './text_form.mjs';

/** The source is a text in which each character stands for one byte; the module is the session's, as bytes. */
export function gamePage(template, { title, source, options, tape, look, module }) {
  const { rate = '10', profile = 'schip', quirks = '' } = options;
  const game = { source, rate: Number(rate), profile, quirks, tape, arrows: look.arrows, letters: look.letters };
  const escaped = (text) => text.replace(/[&<>"']/g, (character) => `&#${character.charCodeAt(0)};`);
  const parts = {
    TITLE: escaped(title),
    SETTINGS: escaped(`Profile ${machineText(options)}, rate ${rate}`),
    GAME: JSON.stringify(game).replace(/</g, '\\u003c'),
    MODULE: btoa(toByteString(module)),
  };
  return template.replace(/@(TITLE|SETTINGS|GAME|MODULE)@/g, (_, name) => parts[name]);
}
