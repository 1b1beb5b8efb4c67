// Which line of the source stands at an address, by the listing.

/** The lines that have bytes, with the addresses from `start` to before `end`. */
export class SourceMap {
  #spans;

  /** Of the listing's lines, and the number of bytes in the image. */
  constructor(listing = [], imageLength = 0, imageStart = 512) {
    this.#spans = [];
    // a line with bytes ends where the next active line begins
    let end = imageStart + imageLength;
    for (let place = listing.length - 1; place >= 0; place -= 1) {
      const { address, field } = listing[place];
      if (address === null) continue;
      if (/^[0-9a-f]/.test(field)) this.#spans.push({ start: address, end, line: place + 1 });
      end = address;
    }
    this.#spans.reverse();
  }

  /** The number of the line at an address, or null. */
  lineAt(address) {
    let low = 0;
    let high = this.#spans.length;
    while (low < high) {
      const middle = (low + high) >> 1;
      if (this.#spans[middle].end <= address) low = middle + 1;
      else high = middle;
    }
    const span = this.#spans[low];
    return span !== undefined && span.start <= address ? span.line : null;
  }
}
