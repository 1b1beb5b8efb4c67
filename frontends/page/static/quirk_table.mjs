// Written by `tools/quirks --write` of the tables of docs/MACHINE.md.

/** The values of each quirk, and what the machine does with each. */
export const QUIRKS = {
  "shift": {
    "vx": "8XY6, 8XYE: Vx := Vx moved by a bit; VF the bit that fell out of Vx",
    "vy": "8XY6, 8XYE: Vx := Vy moved by a bit; VF the bit that fell out of Vy"
  },
  "memory": {
    "keep": "FX55, FX65: I stays",
    "x": "FX55, FX65: I := I + x modulo 65536",
    "x+1": "FX55, FX65: I := I + x + 1 modulo 65536"
  },
  "jump": {
    "vx": "BNNN: goes to a + Vx, x the top digit of a",
    "v0": "BNNN: goes to a + V0"
  },
  "logic": {
    "keep": "8XY1, 8XY2, 8XY3: VF stays",
    "clear": "8XY1, 8XY2, 8XY3: VF := 0 after Vx is set"
  },
  "edges": {
    "clip": "DXYN: pixels past the right and the lower edge are left out",
    "wrap": "DXYN: pixels past an edge come in at the other side: column and row are taken modulo the size"
  },
  "dxy0": {
    "none": "DXY0 in the low size draws nothing, accesses no byte at I (never S6); VF := 0",
    "8x16": "DXY0 in the low size draws 16 rows of 8 pixels, 16 bytes",
    "16x16": "DXY0 in the low size draws 16 rows of 16 pixels, 32 bytes, as in the high size"
  },
  "scroll": {
    "stored": "00CN, 00FB, 00FC: the pixels move by n rows or 4 columns of stored pixels",
    "whole": "00CN, 00FB, 00FC: the pixels move by n rows or 4 columns of the current size: in the low size twice as far"
  },
  "size": {
    "keep": "00FE, 00FF: the pixels stay",
    "clear": "00FE, 00FF: all pixels become dark, also where the size is the same"
  },
  "fx1e": {
    "keep": "FX1E: VF stays",
    "flag": "FX1E: VF := 1 if I + Vx is above 0x0FFF, else 0, after I is set; Vx is read before"
  },
  "instructions": {
    "super": "00CN, 00FB to 00FF, FX30, FX75 and FX85 are instructions",
    "base": "these words are not instructions, S2: the size is always the low one"
  }
};

/** The value of each quirk for each profile. */
export const PROFILES = {
  "schip": {
    "shift": "vx",
    "memory": "keep",
    "jump": "vx",
    "logic": "keep",
    "edges": "clip",
    "dxy0": "8x16",
    "scroll": "stored",
    "size": "keep",
    "fx1e": "keep",
    "instructions": "super"
  },
  "vip": {
    "shift": "vy",
    "memory": "x+1",
    "jump": "v0",
    "logic": "clear",
    "edges": "clip",
    "dxy0": "none",
    "scroll": "stored",
    "size": "keep",
    "fx1e": "keep",
    "instructions": "base"
  },
  "chip48": {
    "shift": "vx",
    "memory": "x",
    "jump": "vx",
    "logic": "keep",
    "edges": "clip",
    "dxy0": "none",
    "scroll": "stored",
    "size": "keep",
    "fx1e": "keep",
    "instructions": "base"
  },
  "schip10": {
    "shift": "vx",
    "memory": "x",
    "jump": "vx",
    "logic": "keep",
    "edges": "clip",
    "dxy0": "8x16",
    "scroll": "stored",
    "size": "keep",
    "fx1e": "keep",
    "instructions": "super"
  },
  "schip-modern": {
    "shift": "vx",
    "memory": "keep",
    "jump": "vx",
    "logic": "keep",
    "edges": "clip",
    "dxy0": "16x16",
    "scroll": "whole",
    "size": "clear",
    "fx1e": "keep",
    "instructions": "super"
  },
  "octo": {
    "shift": "vy",
    "memory": "x+1",
    "jump": "v0",
    "logic": "keep",
    "edges": "wrap",
    "dxy0": "16x16",
    "scroll": "whole",
    "size": "clear",
    "fx1e": "keep",
    "instructions": "super"
  }
};
