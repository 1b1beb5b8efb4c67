// A short text for each code that the program prints: its own sentences of faults, and what a refusal means for the page.

import { FAULTS, STOPS } from './code_tables.mjs';

const TEXTS = {
  ...FAULTS,
  ...STOPS,
  N1: 'no such line',
  N2: 'over 200 bytes',
  N3: 'there are 4,000 lines already',
  N4: 'the text holds a CR or LF',
  N5: 'the step of the event is too large',
  N6: 'the key is above 15',
  N7: 'there is an event of that step and key',
  N8: 'there is no event of that step and key',
  N9: 'there are 10,000 events already',
  Q1: 'no image, because a line has a fault',
  Q2: 'the step is too large',
  Q3: 'the bytes asked for go past the last address',
  O1: 'the line has over 200 bytes: the source can\'t run until it is shorter',
  O2: 'past line 4,000: the source can\'t run with so many lines',
};

export const codeText = (code) => TEXTS[code] ?? 'a code that this page doesn\'t know';
