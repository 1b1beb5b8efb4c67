// Columns of a line, with a tab stop at every eighth.

export const TAB = 8;

/** The column, from 0, at which the character of that place stands. */
export function columnOf(line, place) {
  return widthOf(line.slice(0, place));
}

/** How many columns a line takes. */
export function widthOf(line) {
  if (!line.includes('\t')) return line.length;
  let width = 0;
  for (const character of line) width += character === '\t' ? TAB - (width % TAB) : 1;
  return width;
}

/** The place of the character at a column. */
export function placeOf(line, column) {
  let width = 0;
  for (let place = 0; place < line.length; place += 1) {
    width += line[place] === '\t' ? TAB - (width % TAB) : 1;
    if (width > column) return place;
  }
  return line.length;
}

/** The indent of the line after one: a label takes the place of the indent, so its statement counts. */
export function indentAfter(line) {
  const indent = /^[ \t]*/.exec(line)[0];
  return indent || (/^\w+:[ \t]*/.exec(line)?.[0].replace(/\S/g, ' ').padEnd(TAB) ?? '');
}

/** How many spaces before the cursor are an indent, where nothing else stands before it; else 0. */
export function outdentLength(before) {
  if (before.length < 2 || before.trim() !== '' || before.includes('\t')) return 0;
  return before.length - TAB * Math.floor((before.length - 1) / TAB);
}
