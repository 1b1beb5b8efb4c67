// A source with its keys, settings, look, breakpoints and step as one file: the source, and comments at its end, so that it
// assembles as it is.

import { writeKeys } from './key_script.mjs';
import { lookOf, USUAL_LOOK } from './look.mjs';
import { writeFile } from './text_form.mjs';

const HEAD = '; chipbench: the keys, settings and step of this game';
/** A longer value goes on in the next lines, since a line has at most 200 bytes. */
const VALUE_CHARACTERS = 150;
const OPTION = /^; --(\w+)(\+?)=([\w=,+-]+)$/;
const STEP = /^; step (\d{1,9})$/;
const SCREEN = /^; screen (\w+)$/;
const ARROWS = /^; arrows ([0-9a-f]{4})( and W A S D)?$/;
const BREAKPOINTS = /^; breakpoints((?: \d{1,4})+)$/;
const BREAKPOINTS_A_LINE = 25;

/** The bytes of such a file. */
export function writeGame({ text, form, keys, options, look = USUAL_LOOK, breakLines = [], step }) {
  const settings = Object.entries(options).flatMap(([name, value]) => optionLines(name, value));
  const events = writeKeys(keys).split('\n').slice(0, -1).map((event) => `; ${event}`);
  const source = text === '' || text.endsWith('\n') ? text : `${text}\n`;
  return writeFile(`${source}${[HEAD, ...settings, ...lookLines(look), ...breakpointLines(breakLines), `; step ${step}`, ...events].join('\n')}\n`, form);
}

function optionLines(name, value) {
  const parts = value.match(new RegExp(`.{1,${VALUE_CHARACTERS}}`, 'g')) ?? [];
  return parts.map((part, place) => `; --${name}${place > 0 ? '+' : ''}=${part}`);
}

function lookLines({ screen, arrows, letters }) {
  const lines = screen === USUAL_LOOK.screen ? [] : [`; screen ${screen}`];
  return arrows === '' ? lines : [...lines, `; arrows ${arrows}${letters ? ' and W A S D' : ''}`];
}

function breakpointLines(lines) {
  const count = Math.ceil(lines.length / BREAKPOINTS_A_LINE);
  return Array.from({ length: count }, (_, part) => `; breakpoints ${lines.slice(part * BREAKPOINTS_A_LINE, (part + 1) * BREAKPOINTS_A_LINE).join(' ')}`);
}

/** The source, keys, settings, look, breakpoints and step of such a file, or null where it is another. */
export function readGame(content) {
  const text = content.replace(/\r\n/g, '\n');
  const place = text.lastIndexOf(`\n${HEAD}\n`);
  if (place < 0) return null;
  const game = { source: text.slice(0, place + 1), keys: '', options: {}, look: {}, breakLines: [], step: 0 };
  for (const line of text.slice(place + HEAD.length + 2).split('\n').filter((rest) => rest !== '')) {
    if (!readLine(game, line)) return null;
  }
  return { ...game, look: lookOf(game.look) };
}

/** Takes one line of the comments into the game. Returns whether it is one of them. */
function readLine(game, line) {
  const [option, step, screen, arrows, breakpoints] = [OPTION, STEP, SCREEN, ARROWS, BREAKPOINTS].map((form) => form.exec(line));
  if (option !== null) game.options[option[1]] = (option[2] === '+' ? (game.options[option[1]] ?? '') : '') + option[3];
  else if (step !== null) game.step = Number(step[1]);
  else if (screen !== null) game.look.screen = screen[1];
  else if (arrows !== null) Object.assign(game.look, { arrows: arrows[1], letters: arrows[2] !== undefined });
  else if (breakpoints !== null) game.breakLines.push(...breakpoints[1].trim().split(' ').map(Number));
  else if (line.startsWith('; ')) game.keys += `${line.slice(2)}\n`;
  else return false;
  return true;
}
