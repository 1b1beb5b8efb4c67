// The lines `;!` of a source, which state properties of a game (docs/LANGUAGE.md): to colour, to complete, and to show the values
// that one names. What such a line says, and whether it holds, the program says.

import { readNumber } from './numbers.mjs';

const KINDS = ['always', 'never', 'ever', 'can'];
const OTHERS = ['here', 'at', 'and', 'or'];
const ITEMS = new Map([
  ['I', 'the address register'],
  ['PC', 'the address of the next instruction'],
  ['DT', 'the delay timer'],
  ['DEPTH', 'the depth of the call stack'],
  ['HIGH', '1 in the high size, else 0'],
  ['KEYS', '1 if the next instruction reads keys, else 0'],
  ['PIXEL', 'PIXEL(x, y): 1 if the pixel is lit, else 0'],
]);
const ABOUT = new Map([
  ['always', 'holds before every step'],
  ['never', 'never holds before a step'],
  ['ever', 'some player can reach it'],
  ['can', 'a player can always still reach it'],
  ['here', 'when pc is at the next statement'],
  ['at', 'at NAME: when pc is at that address'],
  ['and', 'every comparison holds'],
  ['or', 'at least one comparison holds'],
]);
const REGISTER = /^V[0-9A-F]$/i;
const FIRST_WORD = /^\s*;!\s*\w*$/;
const AFTER_AT = /\bat\s+\w*$/i;
const IN_BRACKETS = /[[(][^\])]*$/;
const TOKEN = /(?<comment>;.*)|(?<number>[0-9#@$][A-Za-z0-9_.]*)|(?<word>[A-Za-z_][A-Za-z0-9_]*)|(?<sign>[^\s])/g;
const NAMED = /\[([^\]]*)\]|PIXEL\s*\(([^,)]*),([^)]*)\)|\b(V[0-9A-F]|I|PC|DT|DEPTH|HIGH)\b/gi;
const HEAD = /^\s*;!/;

/** Where the text of a property begins in a line, or null where the line states none. */
export function propertyStart(line) {
  const found = HEAD.exec(line);
  return found === null ? null : found[0].length;
}

/** The tokens of such a line, as those of other lines (language.mjs). */
export function propertyTokens(line) {
  const start = propertyStart(line);
  const tokens = [{ kind: 'directive', text: ';!', start: start - 2 }];
  for (const found of line.slice(start).matchAll(TOKEN)) {
    const { comment, number, word } = found.groups;
    const kind = comment !== undefined ? 'comment' : number !== undefined ? 'number' : word !== undefined ? kindOf(word) : 'sign';
    tokens.push({ kind, text: found[0], start: start + found.index });
  }
  return tokens;
}

function kindOf(word) {
  if ([...KINDS, ...OTHERS].includes(word.toLowerCase())) return 'mnemonic';
  return ITEMS.has(word.toUpperCase()) || REGISTER.test(word) ? 'register' : 'name';
}

/** What may stand in such a line: rows of a word and what is told of it. After `at` and in brackets stand names alone. */
export function propertyWords(before, names) {
  if (AFTER_AT.test(before) || IN_BRACKETS.test(before)) return names;
  const isFirst = FIRST_WORD.test(before);
  const words = isFirst ? KINDS : OTHERS;
  const registers = Array.from({ length: 16 }, (_, number) => [`V${number.toString(16).toUpperCase()}`, 'register']);
  return [...words.map((word) => [word, ABOUT.get(word)]), ...ITEMS, ...registers, ...(isFirst ? [] : names)];
}

/** The values of what a property names, at a machine: rows of a name and its value. What isn't a number or a name is left out. */
export function namedValues(property, machine, symbols) {
  const values = new Map();
  for (const [text, address, x, y, word] of property.matchAll(NAMED)) {
    const value = valueOf(machine, symbols, { address, x, y, word });
    if (value !== null) values.set(text.replace(/\s+/g, '').toUpperCase(), value);
  }
  return [...values];
}

function valueOf({ registers, memory, screen }, symbols, { address, x, y, word }) {
  if (word !== undefined) {
    const name = word.toUpperCase();
    if (REGISTER.test(name)) return registers.v[parseInt(name[1], 16)];
    return { I: registers.i, PC: registers.pc, DT: registers.dt, DEPTH: registers.stack.length, HIGH: screen.size === 'high' ? 1 : 0 }[name];
  }
  if (address !== undefined) return memory[readNumber(address.trim(), symbols)] ?? null;
  const [column, row] = [readNumber(x.trim(), symbols), readNumber(y.trim(), symbols)];
  if (column === null || row === null) return null;
  const scale = screen.size === 'high' ? 1 : 2;
  const lit = screen.rows.find((one) => one.row === row * scale);
  return lit === undefined ? 0 : Number((BigInt(`0x${lit.digits}`) >> BigInt(127 - column * scale)) & 1n);
}
