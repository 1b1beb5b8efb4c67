// What may be written in place of a fault, by what the program says of it. Whether it is right, the program says too.

import { tokensOf } from './language.mjs';

/** A sign that some editors put before a text, and that nobody sees. */
export const BYTE_ORDER_MARK = '\ufeff';

/** What a sentence of help offers, of its line and of the place of the fault there; null where that is nothing. */
/** @type {[RegExp, (found: any, place: any, line: string) => any][]} */
const OFFERS = [
  [/^did you mean (\w+)\?$/, written],
  [/^\w+ is written (\w+) here$/, written],
  [/: (#[0-9A-Fa-f]+)$/, written],
  [/^a comma is missing/, (_, { end }) => ({ title: 'Put a comma', start: end, end, text: ',' })],
  [/^a comma is missing/, (_, { start }, line) => commas(line, start)],
  [/^a comment begins with/, (_, at, line) => single(line, '/', ';')],
  [/^a shift is one sign/, (_, at, line) => single(line, '<', '<') ?? single(line, '>', '>')],
];

/** The fixes to try for a fault: of its line, its place there, its code, and the sentences of help. */
export function fixesOf(line, { start, end, code, help }) {
  const fixes = help
    .flatMap((sentence) => OFFERS.map(([form, offer]) => (form.test(sentence) ? offer(form.exec(sentence), { start, end }, line) : null)))
    .filter((fix) => fix !== null);
  const part = line.slice(start, end);
  if (line.startsWith(BYTE_ORDER_MARK)) fixes.push({ title: 'Remove the byte order mark', start: 0, end: 1, text: '' });
  if (code === 'F2') fixes.push({ title: 'Close the text', start: line.trimEnd().length, end: line.length, text: line.slice(start, start + 1) });
  if (code === 'F3' && line.trim() === part) fixes.push({ title: `Make ${part} a label`, start: end, end, text: ':' });
  return fixes;
}

/** A word or a number in the place of the fault, in lower case where that is. */
function written([, word], { start, end }, line) {
  const part = line.slice(start, end);
  return { title: `Write ${word}`, start, end, text: part !== '' && part === part.toLowerCase() ? word.toLowerCase() : word };
}

/** Commas between all operands that blanks part, from a place on; null where that is one comma. */
function commas(line, from) {
  const operands = tokensOf(line).filter(({ kind, start }) => kind !== 'comment' && start >= from);
  const ends = operands.map(({ start, text }) => start + text.length);
  const parted = ends.filter((end, place) => {
    const next = operands[place + 1];
    return next !== undefined && next.start > end && operands[place].kind !== 'sign' && next.kind !== 'sign';
  });
  if (parted.length < 2) return null;
  const text = parted.reduceRight((made, end) => `${made.slice(0, end)},${made.slice(end)}`, line);
  const [first, last] = [parted[0], parted.at(-1)];
  return { title: 'Put commas', start: first, end: last, text: text.slice(first, last + parted.length) };
}

/** One sign where two of them stand side by side, as other languages write a comment or a shift; null where there are no two. */
function single(line, sign, wanted) {
  const tokens = tokensOf(line);
  const found = tokens.find(({ text, start }, place) => text === sign && tokens[place + 1]?.text === sign && tokens[place + 1].start === start + 1);
  return found === undefined ? null : { title: `Write ${wanted}`, start: found.start, end: found.start + 2, text: wanted };
}

/** A line with a fix made. */
export const fixed = (line, { start, end, text }) => line.slice(0, start) + text + line.slice(end);
