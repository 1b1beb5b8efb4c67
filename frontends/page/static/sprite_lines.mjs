// A sprite in the source: the bytes of a DB line, and of the DB lines that follow it.

const COLUMNS = 8;
export const MOST_ROWS = 16;

/** A row of a sprite as the language writes it: `$1..1` with a full stop for a dark pixel. */
export const rowText = (byte) => `$${byte.toString(2).padStart(COLUMNS, '0').replaceAll('0', '.')}`;

/** The bytes of a DB line, where it holds numbers alone, with what stands before them; else null. */
export function readSpriteLine(line) {
  const found = /^(?<before>\s*(?:\w+:)?\s*DB\s+)(?<operands>[^;]*?)\s*(?<after>;.*)?$/i.exec(line);
  if (found === null) return null;
  const bytes = found.groups.operands.split(',').map((operand) => byteOf(operand.trim()));
  return bytes.includes(null) ? null : { before: found.groups.before, bytes, after: found.groups.after ?? '' };
}

function byteOf(operand) {
  /** @type {[RegExp, number][]} */
  const forms = [[/^\$([01.]{1,8})$/, 2], [/^#([0-9a-f]{1,2})$/i, 16], [/^([0-9]{1,3})$/, 10], [/^@([0-7]{1,3})$/, 8]];
  for (const [form, base] of forms) {
    const found = form.exec(operand);
    const value = found === null ? NaN : parseInt(found[1].replaceAll('.', '0'), base);
    if (value <= 255) return value;
  }
  return null;
}

/**
 * The sprite that begins in a line: its bytes, at most sixteen, and the lines that they are from. A line that has a label of its own
 * is another sprite. Null where the line is no DB of bytes.
 */
export function readSprite(lines, first) {
  const found = [];
  let count = 0;
  for (let line = first; line <= lines.length; line += 1) {
    const read = readSpriteLine(lines[line - 1]);
    const isNext = read !== null && (line === first || !/^\s*\w+:/.test(read.before));
    if (!isNext || count + read.bytes.length > MOST_ROWS) break;
    found.push(read);
    count += read.bytes.length;
  }
  return found.length === 0 ? null : { bytes: found.flatMap(({ bytes }) => bytes), lines: found };
}

/** The lines of a sprite with other bytes: each keeps as many as it had, and the last takes what is left. */
export function writeSprite(lines, bytes) {
  let start = 0;
  return lines.flatMap(({ before, bytes: had, after }, place) => {
    const part = bytes.slice(start, place === lines.length - 1 ? undefined : start + had.length);
    start += part.length;
    return part.length === 0 ? [] : [`${before}${part.map(rowText).join(', ')}${after && `  ${after}`}`];
  });
}
