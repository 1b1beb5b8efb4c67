// Places of a text in another one.

/** Where `wanted` stands in a text, in order; upper and lower case are the same unless `isExact`. */
export function placesOf(text, wanted, isExact = false) {
  if (wanted === '') return [];
  // the lower case of some letters has another length: places are those of the text itself
  const fold = (part) => (isExact ? part : part.replace(/[A-Z]/g, (letter) => letter.toLowerCase()));
  const [folded, sought] = [fold(text), fold(wanted)];
  const places = [];
  for (let at = folded.indexOf(sought); at >= 0; at = folded.indexOf(sought, at + sought.length)) places.push(at);
  return places;
}

/** The number of the place after a cursor, or of the last one before it; round the end. -1 where there are none. */
export function placeFrom(places, cursor, forward) {
  if (places.length === 0) return -1;
  if (forward) return Math.max(0, places.findIndex((place) => place >= cursor));
  const found = places.findLastIndex((place) => place < cursor);
  return found < 0 ? places.length - 1 : found;
}

/** A text with all places of `wanted` replaced. */
export function replacedAll(text, wanted, by, isExact = false) {
  let [made, end] = ['', 0];
  for (const at of placesOf(text, wanted, isExact)) {
    made += text.slice(end, at) + by;
    end = at + wanted.length;
  }
  return made + text.slice(end);
}
