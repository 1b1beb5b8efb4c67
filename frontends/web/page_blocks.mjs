// The bytes of a block of the page in one file, in the two forms that `page` writes.

/** An alphabet in which each byte is the character of its number. */
const BYTES = String.fromCharCode(...Array(256).keys());

/** The bytes of a text in which each character stands for one: its place in the alphabet. */
export function spelt(text, alphabet) {
  const places = new Uint8Array(2 * alphabet.length);
  for (let byte = 0; byte < alphabet.length; byte += 1) places[alphabet.charCodeAt(byte)] = byte;
  const bytes = new Uint8Array(text.length);
  for (let at = 0; at < text.length; at += 1) bytes[at] = places[text.charCodeAt(at)];
  return bytes;
}

/** The bytes of a deflated text in base64. */
export async function inflated(text) {
  if (typeof DecompressionStream === 'undefined') throw new Error('this browser is too old for this page, which needs one from the middle of 2023 or later');
  const bytes = new Blob([spelt(atob(text), BYTES)]).stream().pipeThrough(new DecompressionStream('deflate'));
  return new Uint8Array(await new Response(bytes).arrayBuffer());
}
