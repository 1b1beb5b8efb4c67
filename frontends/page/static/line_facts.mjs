// What is known of the lines of the source: their listing, their faults, which are executed, and where pc is.

import { codeText } from './codes.mjs';

export class LineFacts extends EventTarget {
  #faults = new Map();
  /** Where the faults lie and what the program says of them, by line, with the text of the line; other faulty lines show their code alone. */
  #places = new Map();
  #covered = new Map();

  /** For each line its address and its bytes, as the program answered last. */
  listing = [];
  /** The line that pc is at, or null. */
  here = null;

  /** The lines of the source. */
  get lines() {
    return [];
  }

  /** The facts about the lines have changed. */
  factsChanged() {}

  /** pc is at another line. */
  hereChanged() {}

  /** The lines with a fault, in order. */
  get faultLines() {
    return [...this.#faults.keys()].sort((one, other) => one - other);
  }

  /** The code of a line's fault, or null. */
  faultAt(line) {
    return this.#faults.get(line) ?? null;
  }

  /** The text about the fault of a line. */
  faultText(line) {
    return this.faultPlace(line)?.sentence ?? codeText(this.#faults.get(line));
  }

  /** Where the fault of a line lies, once the program has said so; else null. */
  faultPlace(line) {
    const place = this.#places.get(line);
    // a line that was changed since has another fault, or none
    return place !== undefined && place.text === this.lines[line - 1] && place.code === this.faultAt(line) ? place : null;
  }

  coveredAt(line) {
    return this.#covered.get(line);
  }

  /** The listing and the codes by line, once the program has answered. */
  show(listing, faults) {
    this.listing = listing;
    this.#faults = faults;
    this.factsChanged();
  }

  /** Where the faults of the lines that are shown lie. */
  showPlaces(places) {
    this.#places = new Map([...places].map(([line, place]) => [line, { ...place, text: this.lines[line - 1] }]));
    this.factsChanged();
  }

  /** When each line was carried out last, by line; an empty map shows nothing. */
  showCovered(covered) {
    this.#covered = covered;
    this.factsChanged();
  }

  /** The line that pc is at, or null. */
  showHere(line) {
    if (line === this.here) return;
    this.here = line;
    this.hereChanged();
  }
}
