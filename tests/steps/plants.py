"""Bugs that authors of emulators make, each as a change of one text in the example in C, or in the loop that runs its programs.

`PLANTS` has the row of the instruction table or the part of the machine, what is wrong, the text, and the text in its place. The
table of what finds each is plants.txt.
"""
from typing import NamedTuple


class Plant(NamedTuple):
    part: str
    what: str
    old: str
    new: str
    file: str = "emulator.c"
    # a second text and what stands in its place, where a bug needs two
    also: tuple[str, str] | None = None
    # why no file can show it
    unseen: str = ""


# the loop that makes the steps of a program
LOOP = "run_programs.c"
SKIP = "    if (condition) machine->pc += 2;"
FETCH = "machine->memory[pc] << 8 | machine->memory[pc + 1]"
FLAG = "    machine->v[x] = result;\n    if (flag >= 0) machine->v[15] = flag;\n"
FLAG_FIRST = "    if (flag >= 0) machine->v[15] = flag;\n    machine->v[x] = result;\n"
STOPPED = "    if (machine->stop) {\n        machine->pc = pc;\n        return;\n    }\n"
TICK = "    if (tick && machine->dt) machine->dt--;\n    if (tick && machine->st) machine->st--;\n"
FITS = "return machine->i + count > 4096 ? 6 : 0;"
SUM, DIFFERENCE, REVERSE = "result = a + b; flag = a + b > 255;", "result = a - b; flag = a >= b;", "result = b - a; flag = b >= a;"
RIGHT, LEFT = "result = shifted >> 1; flag = shifted & 1;", "result = shifted << 1; flag = shifted >> 7;"
SHIFTED = "shifted = machine->quirks->shifts_vy ? b : a;"
LOGIC = "flag = machine->quirks->clears_vf ? 0 : -1;"
STORE, LOAD = "memcpy(at_index, v, x + 1); move_index(machine, x);", "memcpy(v, at_index, x + 1); move_index(machine, x);"
BY_X, PAST_X = "machine->quirks->moves_index == BY_X) machine->i += x;", "machine->quirks->moves_index == PAST_X) machine->i += x + 1;"
DECIMAL = "at_index[0] = v[x] / 100; at_index[1] = v[x] / 10 % 10; at_index[2] = v[x] % 10;"
WAIT = "    if (keys == 0) machine->pc -= 2;\n"
LEAST = "for (int key = 15; key >= 0; key--)\n        if (keys >> key & 1) machine->v[x] = key;"
KEY = "skip_if(machine, (keys >> v[x] % 16 & 1) == (kk == 0x9E));"
RANDOM = "tape->bytes[tape->used++ % tape->length] & kk"
INSIDE = "int is_inside = machine->quirks->wraps || (x < width && y < height);"
FLIP = "if (is_set && is_inside) met |= flip(machine, x % width, y % height);"
SIXTEEN = "int sixteen = machine->high ? SIXTEEN_WIDE : machine->quirks->sixteen;"
HIGH = "        machine->high = word == 0x00FF;\n"
SCALE = "int scale = machine->quirks->scrolls_whole && !machine->high ? 2 : 1;"
DOWN = "scroll(machine, 0, word & 15);"
FX = "    switch (kk) {\n    case 0x07: v[x]"


def as_well(word, like, what):
    """A decoder that takes a word of FX for another one."""
    return Plant("FX" + like[2:], what, FX, f"    if ({word}) kk = {like};\n{FX}")


DECODER = [
    Plant("00CN", "each 0XCN", "(word & 0xFFF0) == 0x00C0", "(word & 0xF0F0) == 0x00C0"),
    Plant("00CN", "each 00XN that isn't another one", "(word & 0xFFF0) == 0x00C0", "(word & 0xFF00) == 0 && word < 0x00D0"),
    Plant("00CN", "00D0 to 00DF too", "(word & 0xFFF0) == 0x00C0", "(word & 0xFFE0) == 0x00C0"),
    Plant("00CN", "00C0 isn't an instruction", "(word & 0xFFF0) == 0x00C0", "(word & 0xFFF0) == 0x00C0 && word != 0x00C0"),
    Plant("00E0", "each 0XE0", "word == 0x00E0", "(word & 0xFF) == 0xE0"),
    Plant("00E0", "0230 too", "word == 0x00E0", "word == 0x00E0 || word == 0x0230"),
    Plant("00E0", "0000 too", "word == 0x00E0", "word == 0x00E0 || word == 0"),
    Plant("00E0", "each 00EX but 00EE", "word == 0x00E0", "(word & 0xFFF0) == 0x00E0 && word != 0x00EE"),
    Plant("00EE", "each 0XEE", "word == 0x00EE", "(word & 0xFF) == 0xEE"),
    Plant("00EE", "the last digit alone", "word == 0x00EE", "(word & 15) == 14 && (word & 0xFF) != 0xFE && (word & 0xF0) != 0xC0"),
    Plant("00FB", "each 0XFB", "word == 0x00FB", "(word & 0xFF) == 0xFB"),
    Plant("00FC", "each 0XFC", "word == 0x00FC", "(word & 0xFF) == 0xFC"),
    Plant("00FD", "each 0XFD", "word == 0x00FD", "(word & 0xFF) == 0xFD"),
    Plant("00FF", "each 0XFF", "word == 0x00FE || word == 0x00FF)", "word == 0x00FE || (word & 0xFF) == 0xFF)"),
    Plant("0NNN", "nothing happens", "    } else {\n        return 2;", "    } else {\n        return 0;"),
    Plant("0NNN", "a call", "    } else {\n        return 2;", "    } else if (word >= 0x200) {\n        return 2 * (machine->depth > 99);\n    } else {\n        return 2;"),
    Plant("5XY0", "each 5XYN", "case 0x5: if (n != 0) return 2;", "case 0x5:"),
    Plant("5XY0", "5XY2 and 5XY3 do nothing", "case 0x5: if (n != 0)", "case 0x5: if (n == 2 || n == 3) return 0; if (n != 0)"),
    Plant("8XYN", "others do nothing", "    default: return 2;\n    }\n    machine->v[x] = result;", "    default: return 0;\n    }\n    machine->v[x] = result;"),
    Plant("8XY6", "8XYD too", "case 0x6: result", "case 0xD: case 0x6: result"),
    Plant("8XY7", "8XYF too", "case 0x7: result", "case 0xF: case 0x7: result"),
    Plant("8XYE", "8XYC too", "case 0xE: result", "case 0xC: case 0xE: result"),
    Plant("8XY0", "8XY8 too", "case 0x0: result", "case 0x8: case 0x0: result"),
    Plant("9XY0", "each 9XYN", "case 0x9: if (n != 0) return 2;", "case 0x9:"),
    Plant("EX9E", "each EXNE", "if (kk != 0x9E && kk != 0xA1) return 2;", "if (n == 14) kk = 0x9E;\n        if (kk != 0x9E && kk != 0xA1) return 2;"),
    Plant("EX9E", "each EX9N", "if (kk != 0x9E && kk != 0xA1) return 2;", "if (y == 9) kk = 0x9E;\n        if (kk != 0x9E && kk != 0xA1) return 2;"),
    Plant("EXA1", "each EXN1", "if (kk != 0x9E && kk != 0xA1) return 2;", "if (n == 1) kk = 0xA1;\n        if (kk != 0x9E && kk != 0xA1) return 2;"),
    Plant("EXA1", "each EXAN", "if (kk != 0x9E && kk != 0xA1) return 2;", "if (y == 10) kk = 0xA1;\n        if (kk != 0x9E && kk != 0xA1) return 2;"),
    Plant("EXA1", "all others", "if (kk != 0x9E && kk != 0xA1) return 2;", ""),
    as_well("kk % 16 == 7", "0x07", "each FXN7"),
    as_well("kk % 16 == 10", "0x0A", "each FXNA"),
    as_well("kk % 16 == 8", "0x18", "each FXN8"),
    as_well("kk % 16 == 14", "0x1E", "each FXNE"),
    as_well("kk % 16 == 9", "0x29", "each FXN9"),
    as_well("kk % 16 == 3", "0x33", "each FXN3"),
    as_well("kk == 0x45", "0x55", "FX45 too"),
    as_well("kk == 0x67", "0x65", "FX67 too"),
    as_well("kk == 0xF5", "0x75", "FXF5 too"),
    as_well("kk / 16 == 0 && kk != 0x07", "0x0A", "each FX0N but FX07"),
    as_well("(kk & 0x7F) == 0x33", "0x33", "FXB3 too"),
    as_well("kk == 0x39", "0x29", "FX39 too"),
    Plant("F000", "nothing happens, as for XO-CHIP", "    default: return 2;\n    }\n    return 0;\n}\n\nstatic void skip_if", "    case 0x00: return x == 0 ? 0 : 2;\n    default: return 2;\n    }\n    return 0;\n}\n\nstatic void skip_if"),
    Plant("F002", "nothing happens, as for XO-CHIP", "    default: return 2;\n    }\n    return 0;\n}\n\nstatic void skip_if", "    case 0x02: return x == 0 ? 0 : 2;\n    default: return 2;\n    }\n    return 0;\n}\n\nstatic void skip_if"),
    Plant("FX01", "nothing happens, as for XO-CHIP", "    default: return 2;\n    }\n    return 0;\n}\n\nstatic void skip_if", "    case 0x01: break;\n    default: return 2;\n    }\n    return 0;\n}\n\nstatic void skip_if"),
    Plant("FX3A", "nothing happens, as for XO-CHIP", "    default: return 2;\n    }\n    return 0;\n}\n\nstatic void skip_if", "    case 0x3A: break;\n    default: return 2;\n    }\n    return 0;\n}\n\nstatic void skip_if"),
    Plant("FXNN", "others do nothing", "    default: return 2;\n    }\n    return 0;\n}\n\nstatic void skip_if", "    default: return 0;\n    }\n    return 0;\n}\n\nstatic void skip_if"),
    Plant("FX30", "an instruction under each profile", "(kk == 0x30 || kk == 0x75 || kk == 0x85)) return 2;", "(kk == 0x75 || kk == 0x85)) return 2;"),
    Plant("FX75", "an instruction under each profile", "(kk == 0x30 || kk == 0x75 || kk == 0x85)) return 2;", "(kk == 0x30 || kk == 0x85)) return 2;"),
    Plant("00FE", "an instruction under each profile", "has_super && (word == 0x00FE || word == 0x00FF)", "(word == 0x00FE || word == 0x00FF)"),
    Plant("00CN", "not an instruction", "has_super && (word & 0xFFF0) == 0x00C0", "0"),
]

FLOW = [
    Plant("1NNN", "eight bits of the address", "case 0x1: machine->pc = address;", "case 0x1: machine->pc = kk;"),
    Plant("1NNN", "even addresses alone", "case 0x1: machine->pc = address;", "case 0x1: machine->pc = address & 0xFFE;"),
    Plant("1NNN", "a jump is a call", "case 0x1: machine->pc = address; return 0;", "case 0x1: return call(machine, address);"),
    Plant("1NNN", "a jump to itself stops", "case 0x1: machine->pc = address; return 0;", "case 0x1: if (address == machine->pc - 2u) return 1; machine->pc = address; return 0;"),
    Plant("2NNN", "the call's own address is kept", "machine->depth++] = machine->pc;", "machine->depth++] = machine->pc - 2;"),
    Plant("2NNN", "fifteen return addresses", "machine->depth == 16", "machine->depth == 15"),
    Plant("2NNN", "twelve return addresses", "machine->depth == 16", "machine->depth == 12"),
    Plant("2NNN", "a seventeenth return address is lost", "if (machine->depth == 16) return 4;", "if (machine->depth == 16) machine->depth--;"),
    Plant("2NNN", "the return address modulo 4096", "machine->depth++] = machine->pc;", "machine->depth++] = machine->pc & 0xFFF;"),
    Plant("2NNN", "nothing is kept", "    machine->stack[machine->depth++] = machine->pc;\n", ""),
    Plant("2NNN", "the newest address is replaced", "machine->depth++] = machine->pc;", "machine->depth++] = machine->pc;\n    if (machine->depth > 1) machine->stack[machine->depth - 2] = machine->pc;"),
    Plant("00EE", "the oldest address", "machine->stack[--machine->depth]", "machine->stack[--machine->depth * 0]"),
    Plant("00EE", "the address stays on the stack", "machine->stack[--machine->depth]", "machine->stack[machine->depth - 1]"),
    Plant("00EE", "two bytes too far", "machine->stack[--machine->depth]", "machine->stack[--machine->depth] + 2"),
    Plant("00EE", "even addresses alone", "machine->stack[--machine->depth]", "machine->stack[--machine->depth] & ~1"),
    Plant("00EE", "no stop with an empty stack", "if (machine->depth == 0) return 5;", "if (machine->depth == 0) return 0;"),
    Plant("00EE", "another stop with an empty stack", "if (machine->depth == 0) return 5;", "if (machine->depth == 0) return 4;"),
    Plant("00FD", "goes on", "        return 1;\n", "        return 0;\n"),
    Plant("BNNN", "V0 under each profile", "machine->quirks->jumps_by_v0 ? 0 : x", "0"),
    Plant("BNNN", "Vx under each profile", "machine->quirks->jumps_by_v0 ? 0 : x", "x"),
    Plant("BNNN", "the other way", "machine->quirks->jumps_by_v0 ? 0 : x", "machine->quirks->jumps_by_v0 ? x : 0"),
    Plant("BNNN", "modulo 4096", "machine->pc = address + v[machine->quirks->jumps_by_v0 ? 0 : x];", "machine->pc = (address + v[machine->quirks->jumps_by_v0 ? 0 : x]) & 0xFFF;"),
    Plant("BNNN", "without the register", "address + v[machine->quirks->jumps_by_v0 ? 0 : x]", "address"),
    Plant("BNNN", "eight bits of the address", "address + v[machine->quirks->jumps_by_v0 ? 0 : x]", "kk + v[machine->quirks->jumps_by_v0 ? 0 : x]"),
    Plant("S3", "pc modulo 4096", "    machine->pc += 2;\n    machine->stop", "    machine->pc = (pc + 2) & 0xFFF;\n    machine->stop"),
    Plant("S3", "a word across the end", "if (pc > 4094) {", "if (pc > 4095) {"),
    Plant("S3", "the last word is out of reach", "if (pc > 4094) {", "if (pc > 4093) {"),
    Plant("S3", "the next word begins again at 0", "if (pc > 4094) {", "if (pc > 4094) pc = machine->pc = pc % 4096;\n    if (pc > 4094) {"),
    Plant("S3", "it stops as for an unknown word", "        machine->stop = 3;", "        machine->stop = 2;"),
    Plant("stops", "a stop moves pc", STOPPED, "    if (machine->stop) return;\n"),
    Plant("stops", "the step of a stop ticks", STOPPED, STOPPED.replace("        return;\n", "")),
    Plant("stops", "a stopped machine goes on", "    if (machine->stop) return;\n    if (pc", "    if (pc",
          unseen="pc stays at the instruction, which stops the machine again"),
    Plant("stops", "a stopped machine ticks", "    if (machine->stop) return;\n    if (pc", "    if (machine->stop) {\n        machine->dt -= tick && machine->dt;\n        return;\n    }\n    if (pc"),
    Plant("fetch", "even addresses alone", FETCH, FETCH.replace("[pc]", "[pc & ~1]").replace("[pc + 1]", "[pc | 1]")),
    Plant("fetch", "the low byte first", FETCH, "machine->memory[pc + 1] << 8 | machine->memory[pc]"),
    Plant("fetch", "pc below the program", "if (pc > 4094) {", "if (pc < 0x200 || pc > 4094) {"),
    Plant("fetch", "words are kept once they were read", "    machine->stop = execute(machine, " + FETCH,
          "    if (!kept[pc]) kept[pc] = (" + FETCH + ") + 1;\n    machine->stop = execute(machine, kept[pc] - 1",
          also=("int machine_start(Machine *machine, const char *profile) {", "static int kept[4096];\n\n"
                "int machine_start(Machine *machine, const char *profile) {\n    memset(kept, 0, sizeof kept);")),
]

SKIPS = [
    *(Plant(row, "the other way", f"skip_if(machine, {case});", f"skip_if(machine, !({case}));")
      for row, case in (("3XKK", "v[x] == kk"), ("4XKK", "v[x] != kk"), ("5XY0", "v[x] == v[y]"), ("9XY0", "v[x] != v[y]"))),
    Plant("skips", "a long skip over F000", SKIP, "    if (condition) machine->pc += machine->memory[machine->pc % 4096] == 0xF0 && machine->memory[(machine->pc + 1) % 4096] == 0 ? 4 : 2;"),
    Plant("skips", "four bytes", SKIP, "    if (condition) machine->pc += 4;"),
    Plant("skips", "pc modulo 4096", SKIP, "    if (condition) machine->pc = (machine->pc + 2) & 0xFFF;"),
    Plant("skips", "never past the last word", SKIP, "    if (condition && machine->pc < 4094) machine->pc += 2;"),
    Plant("3XKK", "seven bits", "v[x] == kk", "(v[x] & 127) == (kk & 127)"),
    Plant("3XKK", "more than equal", "v[x] == kk", "v[x] >= kk"),
    Plant("3XKK", "with x itself", "v[x] == kk", "x == kk"),
    Plant("4XKK", "less than", "v[x] != kk", "v[x] < kk"),
    Plant("5XY0", "with y itself", "v[x] == v[y]", "v[x] == y"),
    Plant("9XY0", "the lowest bit alone", "v[x] != v[y]", "((v[x] ^ v[y]) & 1)"),
    Plant("EX9E", "key x", KEY, KEY.replace("v[x] % 16", "x")),
    Plant("EX9E", "no key for Vx above 15", KEY, "skip_if(machine, (v[x] < 16 && keys >> v[x] & 1) == (kk == 0x9E));"),
    Plant("EX9E", "both the other way", KEY, KEY.replace("0x9E", "0xA1")),
    Plant("EX9E", "any key", KEY, "skip_if(machine, (kk == 0x9E ? keys != 0 : !(keys >> v[x] % 16 & 1)));"),
    Plant("EX9E", "Vx modulo 8", KEY, KEY.replace("% 16", "% 8")),
    Plant("EX9E", "the least key alone", KEY, "keys &= -keys;\n        " + KEY),
    Plant("EX9E", "key 0 is never down", KEY, "keys &= ~1u;\n        " + KEY),
    Plant("EXA1", "no key at all", KEY, "skip_if(machine, (kk == 0xA1 ? keys == 0 : keys >> v[x] % 16 & 1));"),
    Plant("EXA1", "a key that was asked for goes up", KEY, "static unsigned asked; keys &= ~asked; asked = 1u << v[x] % 16 & keys; if (keys == 0) asked = 0;\n        " + KEY),
]

ARITHMETIC = [
    Plant("8XYN", "the flag before the result", FLAG, FLAG_FIRST),
    Plant("8XYN", "with x = F the result stays", FLAG, FLAG.replace("flag >= 0", "flag >= 0 && x != 15")),
    Plant("8XY0", "Vx into Vy", "result = b; flag = -1;", "machine->v[y] = a; result = a; flag = -1;"),
    Plant("8XY0", "VF is cleared under a quirk", "result = b; flag = -1;", "result = b;"),
    *(Plant(row, f"no {name}", f"result = a {sign} b;", "result = b;") for row, name, sign in (("8XY1", "OR", "|"), ("8XY2", "AND", "&"), ("8XY3", "XOR", "^"))),
    Plant("8XY3", "OR", "result = a ^ b;", "result = a | b;"),
    Plant("8XY1", "VF stays under each profile", LOGIC, "flag = -1;"),
    Plant("8XY1", "VF is cleared under each profile", LOGIC, "flag = 0;"),
    Plant("8XY3", "VF stays under each profile", "result = a ^ b;", "result = a ^ b; flag = -1;"),
    Plant("8XY4", "no carry", SUM, "result = a + b; flag = -1;"),
    Plant("8XY4", "a carry is never taken back", SUM, "result = a + b; flag = a + b > 255 ? 1 : -1;"),
    Plant("8XY4", "a carry from 255 on", SUM, SUM.replace("> 255", ">= 255")),
    Plant("8XY4", "a carry of the sum's lower bits", SUM, "result = a + b; flag = (a + b & 255) > 255;"),
    Plant("8XY4", "a sum that stays at 255", SUM, "result = a + b > 255 ? 255 : a + b; flag = a + b > 255;"),
    Plant("8XY5", "a borrow where both are equal", DIFFERENCE, DIFFERENCE.replace(">=", ">")),
    Plant("8XY5", "the flag the other way", DIFFERENCE, DIFFERENCE.replace(">=", "<")),
    Plant("8XY5", "Vy - Vx", DIFFERENCE, "result = b - a; flag = a >= b;"),
    Plant("8XY5", "signed numbers", DIFFERENCE, "result = a - b; flag = (int8_t)a >= (int8_t)b;"),
    Plant("8XY5", "no less than 0", DIFFERENCE, "result = a < b ? 0 : a - b; flag = a >= b;"),
    Plant("8XY7", "a borrow where both are equal", REVERSE, REVERSE.replace(">=", ">")),
    Plant("8XY7", "the flag the other way", REVERSE, REVERSE.replace(">=", "<")),
    Plant("8XY7", "Vx - Vy", REVERSE, "result = a - b; flag = b >= a;"),
    Plant("8XY6", "Vx under each profile", SHIFTED, "shifted = a;"),
    Plant("8XY6", "Vy under each profile", SHIFTED, "shifted = b;"),
    Plant("8XY6", "the flag of Vx", RIGHT, RIGHT.replace("shifted & 1", "a & 1")),
    Plant("8XY6", "the highest bit", RIGHT, RIGHT.replace("shifted & 1", "shifted >> 7")),
    Plant("8XY6", "the sign stays", RIGHT, "result = shifted >> 1 | (shifted & 128); flag = shifted & 1;"),
    Plant("8XY6", "Vy is shifted too", RIGHT, "result = machine->v[y] = shifted >> 1; flag = shifted & 1;"),
    Plant("8XYE", "a flag of 128", LEFT, LEFT.replace("shifted >> 7", "shifted & 128")),
    Plant("8XYE", "the lowest bit", LEFT, LEFT.replace("shifted >> 7", "shifted & 1")),
    Plant("8XYE", "a rotation", LEFT, "result = shifted << 1 | shifted >> 7; flag = shifted >> 7;"),
    Plant("8XYE", "no flag", LEFT, "result = shifted << 1; flag = -1;"),
    Plant("7XKK", "a carry", "case 0x7: v[x] += kk;", "case 0x7: v[15] = v[x] + kk > 255; v[x] += kk;"),
    Plant("7XKK", "a sum that stays at 255", "case 0x7: v[x] += kk;", "case 0x7: v[x] = v[x] + kk > 255 ? 255 : v[x] + kk;"),
    Plant("6XKK", "seven bits", "case 0x6: v[x] = kk;", "case 0x6: v[x] = kk & 127;"),
    Plant("6XKK", "never VF", "case 0x6: v[x] = kk;", "case 0x6: if (x != 15) v[x] = kk;"),
    Plant("CXKK", "no mask", RANDOM, RANDOM.replace(" & kk", "")),
    Plant("CXKK", "modulo kk", RANDOM, RANDOM.replace("& kk", "% (kk + 1)")),
    Plant("CXKK", "two bytes", RANDOM, RANDOM.replace("used++ %", "used++ % 1 * 0 + tape->used++ %")),
    Plant("CXKK", "or", RANDOM, RANDOM.replace("& kk", "| kk")),
    Plant("CXKK", "the mask of Vx", RANDOM, RANDOM.replace("& kk", "& kk & v[x]")),
]

MEMORY = [
    Plant("FX55", "I stays under each profile", STORE, "memcpy(at_index, v, x + 1);"),
    Plant("FX65", "I stays under each profile", LOAD, "memcpy(v, at_index, x + 1);"),
    Plant("FX55", "I moves under each profile", STORE, "memcpy(at_index, v, x + 1); machine->i += x + 1;"),
    Plant("FX65", "I moves under each profile", LOAD, "memcpy(v, at_index, x + 1); machine->i += x + 1;"),
    Plant("FX55", "I moves by x where it should by x + 1", PAST_X, PAST_X.replace("x + 1;", "x;")),
    Plant("FX55", "I moves by x + 1 where it should by x", BY_X, BY_X.replace("+= x;", "+= x + 1;")),
    Plant("FX55", "without Vx", STORE, "memcpy(at_index, v, x); move_index(machine, x);"),
    Plant("FX55", "all registers", STORE, "memcpy(at_index, v, machine->i > 4080 ? x + 1 : 16); move_index(machine, x);"),
    Plant("FX55", "the last register first", STORE, "for (int one = 0; one <= x; one++) at_index[x - one] = v[one]; move_index(machine, x);"),
    Plant("FX55", "nothing is stored into the digits", STORE, "if (machine->i >= 180) memcpy(at_index, v, x + 1); move_index(machine, x);"),
    Plant("FX65", "without Vx", LOAD, "memcpy(v, at_index, x); move_index(machine, x);"),
    Plant("FX65", "all registers", LOAD, "memcpy(v, at_index, machine->i > 4080 ? x + 1 : 16); move_index(machine, x);"),
    Plant("FX55", "no bound of the memory", "(kk == 0x55 || kk == 0x65) && check", "kk == 0x65 && check"),
    Plant("FX65", "no bound of the memory", "(kk == 0x55 || kk == 0x65) && check", "kk == 0x55 && check"),
    Plant("S6", "one byte past the memory", FITS, FITS.replace("4096", "4097")),
    Plant("S6", "the last byte is out of reach", FITS, FITS.replace("4096", "4095")),
    Plant("S6", "the sum modulo 65536", FITS, "return (uint16_t)(machine->i + count) > 4096 ? 6 : 0;"),
    Plant("S6", "nothing past the memory stops: addresses modulo 4096", FITS, "((Machine *)machine)->i %= 4096; return 0 * count;"),
    Plant("S6", "registers change before the stop", "(kk == 0x55 || kk == 0x65) && check(machine, x + 1)) return 6;", "(kk == 0x55 || kk == 0x65) && check(machine, x + 1)) { v[0] = 0; return 6; }"),
    Plant("FX33", "hundreds without modulo", DECIMAL, DECIMAL.replace("v[x] / 10 % 10", "v[x] / 10")),
    Plant("FX33", "the other way round", DECIMAL, "at_index[2] = v[x] / 100; at_index[1] = v[x] / 10 % 10; at_index[0] = v[x] % 10;"),
    Plant("FX33", "two digits", DECIMAL, "at_index[0] = v[x] / 10 % 10; at_index[1] = v[x] % 10;"),
    Plant("FX33", "I moves", DECIMAL, DECIMAL + " machine->i += 3;"),
    Plant("FX33", "one byte is checked", "check(machine, 3)", "check(machine, 1)"),
    Plant("FX33", "hexadecimal digits", DECIMAL, "at_index[0] = 0; at_index[1] = v[x] >> 4; at_index[2] = v[x] & 15;"),
    Plant("FX1E", "twelve bits", "case 0x1E: machine->i += v[x];", "case 0x1E: machine->i = (machine->i + v[x]) & 0xFFF;"),
    Plant("FX1E", "it stays at 65535", "case 0x1E: machine->i += v[x];", "case 0x1E: machine->i = machine->i + v[x] > 65535 ? 65535 : machine->i + v[x];"),
    Plant("FX1E", "a flag past 4095", "case 0x1E: machine->i += v[x];", "case 0x1E: machine->i += v[x]; v[15] = machine->i > 4095;"),
    Plant("FX1E", "a flag past 4095 that is never 0", "case 0x1E: machine->i += v[x];", "case 0x1E: machine->i += v[x]; if (machine->i > 4095) v[15] = 1;"),
    Plant("FX29", "no modulo", "5 * (v[x] % 16)", "5 * v[x]"),
    Plant("FX29", "x itself", "5 * (v[x] % 16)", "5 * x"),
    Plant("FX29", "digits of four bytes", "5 * (v[x] % 16)", "4 * (v[x] % 16)"),
    Plant("FX29", "digits at 0x50", "5 * (v[x] % 16)", "0x50 + 5 * (v[x] % 16)"),
    Plant("FX30", "modulo 10", "80 + 10 * (v[x] % 16)", "80 + 10 * (v[x] % 10)"),
    Plant("FX30", "small digits", "80 + 10 * (v[x] % 16)", "5 * (v[x] % 16)"),
    Plant("ANNN", "eleven bits", "case 0xA: machine->i = address;", "case 0xA: machine->i = address & 0x7FF;"),
    Plant("ANNN", "the high byte stays", "case 0xA: machine->i = address;", "case 0xA: machine->i = (machine->i & 0xF000) | address;"),
    Plant("FX75", "sixteen flag registers", "&& x > 7) return 7;", "&& x > 7) return 0;"),
    Plant("FX75", "seven flag registers", "&& x > 7) return 7;", "&& x > 6) return 7;"),
    Plant("FX75", "without Vx", "memcpy(machine->flags, v, x + 1)", "memcpy(machine->flags, v, x)"),
    Plant("FX75", "the eighth at most, without a stop", "&& x > 7) return 7;", "&& x > 7) x = 7;"),
    Plant("FX85", "eight registers", "memcpy(v, machine->flags, x + 1)", "memcpy(v, machine->flags, 8)"),
    Plant("FX85", "the other way", "case 0x85: memcpy(v, machine->flags, x + 1)", "case 0x85: memcpy(machine->flags, v, x + 1)"),
]

TIMERS_AND_KEYS = [
    Plant("FX07", "the sound timer", "v[x] = machine->dt;", "v[x] = machine->st;"),
    Plant("FX07", "after the tick", "v[x] = machine->dt;", "v[x] = machine->dt ? machine->dt - 1 : 0;"),
    Plant("ticks", "the delay timer below 0", TICK, TICK.replace("tick && machine->dt", "tick")),
    Plant("ticks", "the sound timer below 0", TICK, TICK.replace("tick && machine->st", "tick")),
    Plant("ticks", "one each step", TICK, TICK.replace("tick && ", "")),
    Plant("ticks", "none", TICK, ""),
    Plant("ticks", "a sound of 1 stays", TICK, TICK.replace("machine->st) ", "machine->st > 1) ")),
    Plant("ticks", "none after FX15", TICK, TICK.replace("tick && machine->dt", "tick && machine->dt && machine->memory[(pc + 1) % 4096] != 0x15")),
    Plant("ticks", "none after FX0A that waits", TICK, "    if (machine->pc == pc && machine->memory[pc] >> 4 == 15) return;\n" + TICK),
    Plant("ticks", "the sound timer alone stops at FX0A", TICK, TICK.replace("tick && machine->st", "tick && machine->pc != pc && machine->st")),
    Plant("ticks", "two instead of one", TICK, TICK.replace("machine->dt--", "machine->dt -= machine->dt > 1 ? 2 : 1")),
    Plant("FX15", "the sound timer", "case 0x15: machine->dt = v[x];", "case 0x15: machine->st = v[x];"),
    Plant("FX15", "x itself", "case 0x15: machine->dt = v[x];", "case 0x15: machine->dt = x;"),
    Plant("FX18", "both timers", "case 0x18: machine->st = v[x];", "case 0x18: machine->st = machine->dt = v[x];"),
    Plant("FX18", "a sound of at least 2", "case 0x18: machine->st = v[x];", "case 0x18: machine->st = v[x] > 1 ? v[x] : 0;"),
    Plant("FX0A", "the greatest key", LEAST, LEAST.replace("int key = 15; key >= 0; key--", "int key = 0; key < 16; key++")),
    Plant("FX0A", "no wait", WAIT, ""),
    Plant("FX0A", "key 0 doesn't count", WAIT, "    keys &= ~1u;\n" + WAIT),
    Plant("FX0A", "key 15 doesn't count", WAIT, "    keys &= 0x7FFF;\n" + WAIT),
    Plant("FX0A", "the mask of the keys", LEAST, "if (keys) machine->v[x] = keys;"),
    Plant("FX0A", "Vx is cleared while it waits", WAIT, "    if (keys == 0) machine->v[x] = 0;\n" + WAIT),
    Plant("FX0A", "a key that was down before doesn't count", WAIT, "    static unsigned before; unsigned now = keys; keys &= ~before; before = now;\n" + WAIT),
    Plant("FX0A", "waits for the release", WAIT, "    static unsigned held; if (keys || !held) { held |= keys; keys = 0; } else { keys = held; held = 0; }\n" + WAIT),
    Plant("loop", "a tick before the first step", "machine_step(&machine, down, (step + 1) % rate == 0, &tape);", "machine_step(&machine, down, step % rate == 0, &tape);", LOOP),
    Plant("loop", "a tick each rate + 1 steps", "(step + 1) % rate == 0", "(step + 1) % (rate + 1) == 0", LOOP),
    Plant("loop", "an event after its step", "keys[next][0] == step; next++)", "keys[next][0] < step; next++)", LOOP),
    Plant("loop", "keys never come up", "down = keys[next][2] ? down | 1u << keys[next][1] : down & ~(1u << keys[next][1]);", "down |= 1u << keys[next][1];", LOOP),
    Plant("loop", "one key at a time", "down = keys[next][2] ? down | 1u << keys[next][1] : down & ~(1u << keys[next][1]);", "down = keys[next][2] ? 1u << keys[next][1] : 0;", LOOP),
    Plant("loop", "the tape ends with zeros", "tape->bytes[tape->used++ % tape->length]", "(tape->used < tape->length ? tape->bytes[tape->used++] : 0)"),
    Plant("loop", "the tape stays at its last byte", "tape->bytes[tape->used++ % tape->length]", "tape->bytes[tape->used < tape->length ? tape->used++ : tape->length - 1]"),
    Plant("loop", "the tape begins with its second byte", "tape.used = down = 0;", "tape.used = 1, down = 0;", LOOP),
    Plant("start", "no digits", "    memcpy(machine->memory, DIGITS, sizeof DIGITS);\n", ""),
    Plant("start", "no large digits", "sizeof DIGITS);", "80);"),
    Plant("start", "other shapes of the digits", "0xf0, 0x90, 0x90, 0x90, 0xf0, 0x20, 0x60, 0x20, 0x20, 0x70,", "0xf0, 0x90, 0x90, 0x90, 0xf0, 0x60, 0x20, 0x20, 0x20, 0x70,"),
    Plant("start", "digits at 0x50", "memcpy(machine->memory, DIGITS", "memcpy(machine->memory + 0x50, DIGITS"),
    Plant("start", "the high size", "    machine->pc = 0x200;", "    machine->pc = 0x200;\n    machine->high = 1;"),
    Plant("start", "pc is 0x202", "machine->pc = 0x200;", "machine->pc = 0x202;"),
    Plant("start", "I is 0x200", "    machine->pc = 0x200;", "    machine->pc = machine->i = 0x200;"),
    Plant("start", "the delay timer is 255", "    machine->pc = 0x200;", "    machine->pc = 0x200;\n    machine->dt = 255;"),
    Plant("start", "a lit pixel", "    machine->pc = 0x200;", "    machine->pc = 0x200;\n    machine->screen[63][15] = 1;"),
    Plant("start", "3232 bytes of the image at most", "machine.memory + 0x200);", "machine.memory + 0x200), memset(machine.memory + 0xEA0, 0, 0x160);", LOOP),
    Plant("start", "the image a byte further", "machine.memory + 0x200);", "machine.memory + 0x201);", LOOP),
]

SCREEN = [
    Plant("00E0", "VF is cleared", "    if (word == 0x00E0) {\n", "    if (word == 0x00E0) {\n        machine->v[15] = 0;\n"),
    Plant("00E0", "the upper half", "sizeof machine->screen);\n    } else if (word == 0x00EE)", "512);\n    } else if (word == 0x00EE)"),
    Plant("00E0", "the low size", "    if (word == 0x00E0) {\n", "    if (word == 0x00E0) {\n        machine->high = 0;\n"),
    Plant("00FE", "the screen is cleared under each profile", "if (machine->quirks->clears_screen) memset", "memset"),
    Plant("00FE", "the screen stays under each profile", "if (machine->quirks->clears_screen) memset", "if (0) memset"),
    Plant("00FE", "the screen is cleared where the size changes alone", "if (machine->quirks->clears_screen) memset", "if (machine->quirks->clears_screen && was_high != machine->high) memset", also=(HIGH, "        int was_high = machine->high;\n" + HIGH)),
    Plant("00FE", "the other size", HIGH, HIGH.replace("0x00FF", "0x00FE")),
    Plant("00FF", "VF is set", HIGH, HIGH + "        machine->v[15] = 1;\n"),
    Plant("00CN", "up", DOWN, "scroll(machine, 0, -(int)(word & 15));", also=("from_x > 127 || from_y < 0)", "from_x > 127 || from_y < 0 || from_y > 63)")),
    Plant("00CN", "one row too many", DOWN, "scroll(machine, 0, (word & 15) + 1);"),
    Plant("00CN", "half the rows in the low size", DOWN, "scroll(machine, 0, machine->high ? word & 15 : (word & 15) / 2);"),
    Plant("scrolls", "whole pixels under each profile", SCALE, "int scale = !machine->high ? 2 : 1;"),
    Plant("scrolls", "stored pixels under each profile", SCALE, "int scale = 1;"),
    Plant("scrolls", "whole pixels in the high size too", SCALE, "int scale = machine->quirks->scrolls_whole ? 2 : 1;"),
    Plant("00FB", "left", "scroll(machine, 4, 0);", "scroll(machine, -4, 0);"),
    Plant("00FB", "eight columns", "scroll(machine, 4, 0);", "scroll(machine, 8, 0);"),
    Plant("00FC", "two columns", "scroll(machine, -4, 0);", "scroll(machine, -2, 0);"),
    Plant("scrolls", "pixels come in again", "if (from_x < 0 || from_x > 127 || from_y < 0) continue;", "from_x &= 127, from_y &= 63;"),
    Plant("scrolls", "the last column stays dark", "from_x > 127", "from_x > 126"),
    Plant("DXYN", "wraps under each profile", INSIDE, "int is_inside = 1;"),
    Plant("DXYN", "never wraps", INSIDE, "int is_inside = x < width && y < height;"),
    Plant("DXYN", "wraps in columns alone", INSIDE, "int is_inside = machine->quirks->wraps ? y < height : x < width && y < height;"),
    Plant("DXYN", "wraps in rows alone", INSIDE, "int is_inside = machine->quirks->wraps ? x < width : x < width && y < height;"),
    Plant("DXYN", "wraps at the lower edge", INSIDE, "int is_inside = machine->quirks->wraps || x < width;"),
    Plant("DXYN", "wraps at the right edge", INSIDE, "int is_inside = machine->quirks->wraps || y < height;"),
    Plant("DXYN", "one column too few", INSIDE, INSIDE.replace("x < width", "x < width - 1")),
    Plant("DXYN", "one row too few", INSIDE, INSIDE.replace("y < height", "y < height - 1")),
    Plant("DXYN", "the column isn't taken modulo", "    column %= width;\n", ""),
    Plant("DXYN", "the row isn't taken modulo", "    row %= height;\n", ""),
    Plant("DXYN", "the column modulo 128", "column %= width;", "column %= 128;"),
    Plant("DXYN", "the row modulo 64", "row %= height;", "row %= 64;"),
    Plant("DXYN", "x and y exchanged", "draw(machine, v[x], v[y], n)", "draw(machine, v[y], v[x], n)"),
    Plant("DXYN", "VF of the last pixel", FLIP, FLIP.replace("met |=", "met =")),
    Plant("DXYN", "VF isn't cleared", "    machine->v[15] = met;", "    machine->v[15] |= met;"),
    Plant("DXYN", "VF counts pixels", FLIP, FLIP.replace("met |=", "met +=")),
    Plant("DXYN", "VF counts rows in the high size", FLIP, "if (is_set && is_inside && flip(machine, x % width, y % height)) met |= 1u << (machine->high ? down : 0);"),
    Plant("DXYN", "VF counts rows cut below in the high size", "    machine->v[15] = met;", "    if (machine->high && row + rows > height && !machine->quirks->wraps) met += row + rows - height;\n    machine->v[15] = met;"),
    Plant("DXYN", "pixels are set", "machine->screen[y][x / 8] ^= mask;", "machine->screen[y][x / 8] |= mask;"),
    Plant("DXYN", "VF where a pixel becomes lit", "& mask) != 0;\n            machine->screen", "& mask) == 0;\n            machine->screen"),
    Plant("DXYN", "half a pixel isn't met", "int scale = machine->high ? 1 : 2, met = 0;", "int scale = machine->high ? 1 : 2, met = 0;\n    if (!machine->high && (machine->screen[2 * row][column / 4] >> (6 - column % 4 * 2) & 3) % 3) met = -1;", also=("    return met;\n}\n\n/* Each", "    return met > 0;\n}\n\n/* Each")),
    Plant("DXYN", "the lowest bit first", ">> (7 - right % 8) & 1;\n            int is_inside", ">> right % 8 & 1;\n            int is_inside"),
    Plant("DXYN", "I moves", "    machine->v[15] = met;", "    machine->v[15] = met, machine->i += rows * bytes;"),
    Plant("DXYN", "height 0 draws nothing in the low size", SIXTEEN, SIXTEEN.replace("machine->quirks->sixteen", "NOTHING")),
    Plant("DXYN", "height 0 is eight wide in the low size", SIXTEEN, SIXTEEN.replace("machine->quirks->sixteen", "EIGHT_WIDE")),
    Plant("DXYN", "height 0 is sixteen wide in the low size", SIXTEEN, SIXTEEN.replace("machine->quirks->sixteen", "SIXTEEN_WIDE")),
    Plant("DXYN", "height 0 is eight wide in the high size", SIXTEEN, "int sixteen = machine->quirks->sixteen;"),
    Plant("DXYN", "height 0 without its left byte first", "+ right / 8] >> (7 - right % 8)", "+ (bytes - 1 - right / 8)] >> (7 - right % 8)"),
    Plant("DXYN", "bytes of rows below the screen aren't read", "if (rows && check(machine, rows * bytes)) return 6;", "if (rows && check(machine, (rows < height - row % height ? rows : height - row % height) * bytes)) return 6;"),
    Plant("DXYN", "no bound of the memory", "if (rows && check(machine, rows * bytes)) return 6;", "", also=("machine->memory[machine->i + down * bytes + right / 8]", "machine->memory[(machine->i + down * bytes + right / 8) % 4096]")),
    Plant("DXYN", "a bound without rows", "if (rows && check(machine, rows * bytes)) return 6;", "if (check(machine, rows * bytes)) return 6;"),
    Plant("DXYN", "VF before the sprite's position", "case 0xD: return draw", "case 0xD: v[15] = 0; return draw"),
    Plant("DXYN", "32 rows in the high size", "int width = machine->high ? 128 : 64, height = machine->high ? 64 : 32, met = 0;", "int width = machine->high ? 128 : 64, height = 32, met = 0;"),
]

PLANTS = [*DECODER, *FLOW, *SKIPS, *ARITHMETIC, *MEMORY, *TIMERS_AND_KEYS, *SCREEN]
