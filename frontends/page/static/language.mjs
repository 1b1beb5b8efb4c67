// The words of the language, to colour, to complete and to explain what is written. What a line means, and whether it is right, the
// program says.

import { DIRECTIVES, INSTRUCTIONS, PARTS } from './language_table.mjs';
import { propertyStart, propertyTokens } from './property_line.mjs';
import { quirksOf } from './quirks.mjs';
import { QUIRKS } from './quirk_table.mjs';

const mnemonicOf = ({ forms }) => forms[0].split(' ')[0];

export const MNEMONICS = [...new Set(INSTRUCTIONS.map(mnemonicOf))];
export const REGISTERS = [...Array.from({ length: 16 }, (_, number) => `V${number.toString(16).toUpperCase()}`), ...PARTS];
export { DIRECTIVES };

/** @type {(word: string, kind: string) => [string, string]} */
const pair = (word, kind) => [word, kind];
const KIND_ROWS = [
  ...MNEMONICS.map((word) => pair(word, 'mnemonic')),
  ...Object.keys(DIRECTIVES).map((word) => pair(word, 'directive')),
  ...REGISTERS.map((word) => pair(word, 'register')),
];
const KINDS = new Map(KIND_ROWS);

const TOKEN = /(?<comment>;.*)|(?<text>'[^']*'?|"[^"]*"?)|(?<number>[0-9#@$][A-Za-z0-9_.]*)|(?<word>[A-Za-z_][A-Za-z0-9_]*)|(?<sign>[^\s])/g;

/** The tokens of a line, each with its kind, its text and where it begins. A bad token has the kind of what it begins like. */
export function tokensOf(line) {
  if (propertyStart(line) !== null) return propertyTokens(line);
  const tokens = [];
  for (const found of line.matchAll(TOKEN)) {
    const { comment, text, number, word } = found.groups;
    const kind = comment !== undefined ? 'comment' : text !== undefined ? 'text' : number !== undefined ? 'number' : word !== undefined ? 'name' : 'sign';
    tokens.push({ kind: word === undefined ? kind : (KINDS.get(word.toUpperCase()) ?? 'name'), text: found[0], start: found.index });
  }
  return tokens;
}

/** Quirks whose texts tell the whole effect of an instruction; the others tell what follows its first clause. */
const WHOLE = ['shift', 'jump'];
const QUIRK_TEXT = /^((?:[0-9A-F][0-9A-FXYNK]{3}(?:, )?)+):? (.*)$/;

/** The row of the instruction that a word of the image is, `6a02` for one, on a machine with these options, or null. The form with the most digits of its own is meant. */
export function rowOfWord(code, options = {}) {
  const fits = ({ word }) => [...word].every((digit, place) => 'XYNK'.includes(digit) || digit.toLowerCase() === code[place]);
  const own = ({ word }) => [...word].filter((digit) => !'XYNK'.includes(digit)).length;
  const [found] = INSTRUCTIONS.filter(fits).sort((one, other) => own(other) - own(one));
  return found === undefined ? null : rowOf(found, options);
}

function rowOf(instruction, options) {
  return `${instruction.forms.at(-1)}  (${instruction.word}): ${effectOf(instruction, quirksOf(options))}`;
}

/** What an instruction does on a machine with these quirks: the table has the effects under `schip`, and the quirks what differs. */
export function effectOf({ word, effect, stops, isSuper }, quirks) {
  if (isSuper && quirks.instructions === 'base') return 'not an instruction of this machine, S2';
  const depends = Object.keys(QUIRKS).filter((name) => name !== 'instructions').flatMap((name) => {
    const [, words, text] = QUIRK_TEXT.exec(QUIRKS[name][quirks[name]]);
    if (name === 'dxy0' && word === 'DXYN') return [{ name, text: `n = 0 ${text}` }];
    return words.split(', ').includes(word) ? [{ name, text }] : [];
  });
  const has = (names) => depends.some(({ name }) => names.includes(name));
  const direction = /\b(?:right|left)\b/.exec(effect)?.[0];
  if (has(['shift'])) depends[0].text = depends[0].text.replace('moved by', `moved ${direction} by`);
  const isWhole = has(WHOLE);
  const first = depends.length === 0 ? effect : effect.split(';')[0];
  // which columns and rows those are the quirk tells
  const begin = has(['scroll']) ? first.replace(' stored', '') : first;
  const may = stops === '' ? [] : [`${effect === '' ? 'stops' : 'may stop'} with ${stops}`];
  return [...(isWhole || begin === '' ? [] : [begin]), ...depends.map(({ text }) => text), ...may].join('; ');
}

/** What a word of the language does on a machine with these options, a row of text for each of its forms; empty for other words. */
export function rowsOf(word, options = {}) {
  const wanted = word.toUpperCase();
  if (Object.hasOwn(DIRECTIVES, wanted)) {
    const { forms, effect } = DIRECTIVES[wanted];
    return [`${forms.join(', ') || wanted}: ${effect}`];
  }
  return INSTRUCTIONS.filter((instruction) => mnemonicOf(instruction) === wanted).map((instruction) => rowOf(instruction, options));
}
