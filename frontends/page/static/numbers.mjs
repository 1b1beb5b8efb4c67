// Numbers as an author writes them.

/** A number from `1f` after `#` or `0x`, decimal digits, or a name of the source; null for any other text. */
export function readNumber(text, symbols = []) {
  const written = text.trim();
  if (/^(#|0x)[0-9a-f]{1,7}$/i.test(written)) return parseInt(written.replace(/^(#|0x)/i, ''), 16);
  if (/^\d{1,9}$/.test(written)) return Number(written);
  const symbol = symbols.find(({ name }) => name === written.toUpperCase());
  return symbol === undefined ? null : symbol.value;
}
