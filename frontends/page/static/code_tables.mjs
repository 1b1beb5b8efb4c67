// Made by tools/page-codes of crates/chip_lang/src/fault.rt and docs/MACHINE.md.

/** The program's sentence of each fault. */
export const FAULTS = {
  F1: 'bad character',
  F2: 'unfinished string',
  F3: 'unknown word',
  F4: 'operands don\'t fit',
  F5: 'number above 2147483647',
  F6: 'parentheses deeper than 16',
  F7: 'name reserved or over 64 bytes',
  F8: 'name defined on an earlier line',
  F9: 'undefined name',
  F10: 'value out of range',
  F11: 'division by zero',
  F12: 'overflow, or a shift outside 0 to 31',
  F13: 'ORG below the line\'s address',
  F14: 'past address 4096',
  F15: 'stray ELSE or ENDIF',
  F16: 'IF without ENDIF',
  F17: 'not in this profile',
};

/** Why a machine stops. */
export const STOPS = {
  S1: 'the program ended, by EXIT',
  S2: 'the word at pc is not an instruction',
  S3: 'pc is above 4094, where there is no whole word',
  S4: 'a call was made with 16 return addresses on the call stack',
  S5: 'a return was made with an empty call stack',
  S6: 'an instruction would access a byte at or above address 4096',
  S7: 'a flag register above 7 was named',
};
