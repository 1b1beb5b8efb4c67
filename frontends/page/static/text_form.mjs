// A source as bytes, as the text in the editor, and as the lines that the program is given.
//
// Bytes travel as strings in which each character stands for one byte ('byte strings').

/** The most bytes of a line, and the most lines, that a source may have (docs/FORMATS.md: O1, O2). */
export const LINE_BYTES = 200;
export const MOST_LINES = 4000;

const encoder = new TextEncoder();

function isUtf8(bytes) {
  try {
    new TextDecoder('utf-8', { fatal: true }).decode(bytes);
    return true;
  } catch {
    return false;
  }
}

export function toBytes(byteString) {
  // a loop takes a tenth of the time of `Uint8Array.from`, which goes over a text by an iterator
  const bytes = new Uint8Array(byteString.length);
  for (let place = 0; place < byteString.length; place += 1) bytes[place] = byteString.charCodeAt(place);
  return bytes;
}

export function toByteString(bytes) {
  let text = '';
  for (let start = 0; start < bytes.length; start += 0x4000) {
    text += String.fromCharCode.apply(null, bytes.subarray(start, start + 0x4000));
  }
  return text;
}

/**
 * How a file's bytes are shown: `encoding` utf-8, or latin-1 where they are not UTF-8; `lineEnd` CR LF where each line ends so;
 * `hasStrayCr` where a CR stood elsewhere, which an editor shows as the end of a line.
 */
export function readFile(byteString) {
  const bytes = toBytes(byteString);
  const encoding = isUtf8(bytes) ? 'utf-8' : 'latin-1';
  const text = encoding === 'utf-8' ? new TextDecoder('utf-8', { ignoreBOM: true }).decode(bytes) : byteString;
  const ends = text.split('\n').length - 1;
  const pairs = text.split('\r\n').length - 1;
  const lineEnd = pairs > 0 && pairs === ends ? '\r\n' : '\n';
  const hasStrayCr = text.split('\r').length - 1 !== (lineEnd === '\r\n' ? pairs : 0);
  return { text: text.replace(/\r\n?/g, '\n'), encoding, lineEnd, hasStrayCr };
}

/** The bytes of an editor's text, as a byte string. A character that latin-1 lacks becomes `?`. */
export function encodeText(text, encoding) {
  if (encoding === 'latin-1') return text.replace(/[^\u0000-\u00ff]/gu, '?');
  return /^[\u0000-\u007f]*$/.test(text) ? text : toByteString(encoder.encode(text));
}

/** The text of a byte string, as `encodeText` took it. */
export function decodeText(byteString, encoding) {
  if (encoding === 'latin-1' || /^[\u0000-\u007f]*$/.test(byteString)) return byteString;
  return new TextDecoder('utf-8').decode(toBytes(byteString));
}

/** The bytes of the file that an editor's text is saved as. */
export function writeFile(text, { encoding, lineEnd }) {
  return encodeText(lineEnd === '\n' ? text : text.replace(/\n/g, lineEnd), encoding);
}

/**
 * The lines of an editor's text as bytes, and the code of each for which no program opens the text (`refused`): it is too long, or
 * past the last line that there may be. Such a text has no listing and no run.
 */
export function programLines(text, encoding) {
  const texts = text.split('\n');
  if (texts[texts.length - 1] === '') texts.pop();
  const isPlain = /^[\u0000-\u007f]*$/.test(text);
  const lines = isPlain ? texts : texts.map((line) => encodeText(line, encoding));
  const refused = new Map();
  lines.forEach((line, place) => {
    if (place >= MOST_LINES) refused.set(place + 1, 'O2');
    else if (line.length > LINE_BYTES) refused.set(place + 1, 'O1');
  });
  return { lines, refused };
}

/** What tells one byte string from another, such as one text of a file from the next: two sums and the length. */
export function digestOf(byteString) {
  let [one, other] = [0x811c9dc5, 7];
  for (let place = 0; place < byteString.length; place += 1) {
    const byte = byteString.charCodeAt(place);
    one = Math.imul(one ^ byte, 0x01000193);
    other = (Math.imul(other, 31) + byte) | 0;
  }
  return `${byteString.length} ${one >>> 0} ${other >>> 0}`;
}
