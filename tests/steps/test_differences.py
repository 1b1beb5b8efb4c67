"""'Where emulators differ' of docs/EMULATORS.md: an emulator that differs in such a point agrees with each case and program that the
document doesn't leave out for it."""
import pathlib
import shutil
import subprocess
import tempfile
import unittest
from collections.abc import Callable
from typing import NamedTuple

from common import ARCHIVE, EXAMPLE, HANG_SECONDS, TOP, archive, compiler, run

DOCUMENT = (TOP / "docs" / "EMULATORS.md").read_text(encoding="utf-8")
SECTION = DOCUMENT[DOCUMENT.index("## Where emulators differ") :]
C, HEADER, STEPS, PROGRAMS = "emulator.c", "emulator.h", "run_steps.c", "run_programs.c"
# in place of the first difference of each file the runner prints all
EACH = (STEPS, "if (found && differ++ == before) printf", "if (found && ++differ > before) printf")
STOPPED = "    if (machine->stop) {\n        machine->pc = pc;\n        return;\n    }\n"
LAST = "    default: return 2;\n    }\n    return 0;\n}\n\nstatic void skip_if"
LARGE = [
    (HEADER, "memory[4096]", "memory[70000]"),
    (C, "machine->i + count > 4096", "machine->i + count > 65536"),
    (C, "if (pc > 4094) {", "if (0) {"),
]
XO_CHIP = [
    (C, "    if (word == 0x00E0) {", "    if ((word & 0xFFF0) == 0x00D0) {\n        return 0;\n    } else if (word == 0x00E0) {"),
    (C, "    if (condition) machine->pc += 2;", "    const uint8_t *next = machine->memory + machine->pc;\n"
        "    if (condition) machine->pc += next[0] == 0xF0 && next[1] == 0 ? 4 : 2;"),
    (C, "case 0x5: if (n != 0)", "case 0x5: if (n == 2 || n == 3) return 0; if (n != 0)"),
    (C, "    if ((kk == 0x75 || kk == 0x85) && x > 7) return 7;\n", ""),
    (C, LAST, "    case 0x00: case 0x02: return x ? 2 : 0;\n    case 0x01: case 0x3A: break;\n" + LAST),
    (HEADER, "flags[8]", "flags[16]"),
    (HEADER, "memory[4096]", "memory[4200]"),
]
REDUCE = """static void reduce(Machine *machine) {
    machine->pc %= 4096, machine->i %= 4096;
    for (int one = 0; one < machine->depth; one++) machine->stack[one] %= 4096;
}

"""
MODULO = [
    (C, STOPPED, STOPPED + "    machine->pc %= 4096, machine->i %= 4096;\n"),
    (C, "if (pc > 4094) {", "pc %= 4096;\n    if (0) {"),
    (C, "machine->memory[pc + 1]", "machine->memory[(pc + 1) % 4096]"),
    (C, "machine->i + count > 4096", "0"),
    (C, "machine->depth++] = machine->pc;", "machine->depth++] = machine->pc % 4096;"),
    (HEADER, "memory[4096]", "memory[4200]"),
    (STEPS, "    read_state(&expected, &left);", "    read_state(&expected, &left), reduce(&expected);"),
    (STEPS, "machine_step(&machine, keys, tick, &tape);", "reduce(&machine), machine_step(&machine, keys, tick, &tape), reduce(&machine);"),
    (STEPS, "/* Tries the case", REDUCE + "/* Tries the case"),
    (PROGRAMS, "    read_bytes(text, v);", "    read_bytes(text, v), pc %= 4096, i %= 4096;"),
]


class Case(NamedTuple):
    """What of a case the document names to leave it out."""

    row: str
    about: str
    stop: int
    high: bool


class Difference(NamedTuple):
    """How an emulator differs, as the document calls it, the texts that make the example such a one, and what is left out."""

    what: str
    changes: list[tuple[str, str, str]]
    leaves_case: Callable[[Case], bool]
    # by the stop of its last state
    leaves_program: Callable[[int], bool]
    profiles: tuple[str, ...] = ("schip", "vip", "chip48", "schip10", "schip-modern", "octo")


def is_of_xo_chip(case):
    return case.row == "S2" or case.about == "the next word is F000" or (case.row in ("FX75", "FX85") and case.stop > 0)


DIFFERENCES = [
    Difference("has its digits elsewhere", [(C, "= 5 * (v", "= 80 + 5 * (v"), (C, "= 80 + 10 * (v", "= 160 + 10 * (v")],
               lambda case: case.row in ("FX29", "FX30"), lambda stop: True),
    Difference("waits for a key's release in `FX0A`", [(C, "if (keys == 0) machine->pc -= 2;", "machine->pc -= 2;\n    if (keys) return;")],
               lambda case: case.row == "FX0A", lambda stop: True),
    Difference("counts in VF the rows that a sprite meets, as SUPER-CHIP 1.1 does in the high size",
               [(C, "machine->v[15] = met;", "machine->v[15] = machine->high ? 2 * met : met;")],
               lambda case: case.row == "DXYN" and case.high, lambda stop: True, ("schip",)),
    Difference("has the instructions of XO-CHIP", XO_CHIP, is_of_xo_chip, lambda stop: True, ("octo",)),
    Difference("has more than 4096 bytes of memory", LARGE, lambda case: case.stop in (3, 6), lambda stop: stop in (3, 6)),
    Difference("takes pc or I modulo 4096", MODULO, lambda case: case.stop in (3, 6), lambda stop: stop in (3, 6)),
    Difference("has a deeper call stack", [(HEADER, "stack[16]", "stack[64]"), (C, "machine->depth == 16", "machine->depth == 64")],
               lambda case: case.row == "2NNN" and case.stop > 0, lambda stop: stop == 4),
    Difference("does nothing at words that are not an instruction",
               [(C, STOPPED, "    if (machine->stop == 2) machine->stop = 0;\n" + STOPPED)],
               lambda case: case.row == "S2" or case.stop == 2, lambda stop: stop == 2),
]


def made(place, changes):
    """The runners of steps and programs with an emulator of these changes, in a folder of their own."""
    for name in (C, HEADER, STEPS, PROGRAMS):
        text = (EXAMPLE / name).read_text(encoding="utf-8")
        for file, old, new in changes:
            if file == name:
                if text.count(old) != 1:
                    raise ValueError(f"{name} has {text.count(old)} times {old!r}")
                text = text.replace(old, new)
        (place / name).write_text(text, encoding="utf-8")
    for name in (STEPS, PROGRAMS):
        run(compiler(), "-std=c99", "-w", "-O1", "-o", place / name.removesuffix(".c"), place / name, place / C)


def printed(*words):
    """The lines that a runner prints, with whatever status."""
    done = subprocess.run(list(map(str, words)), capture_output=True, text=True, timeout=HANG_SECONDS)
    return done.stdout.splitlines()


def cases(folder):
    """The cases of a profile by row and number."""
    for path in sorted(folder.glob("[0-9A-FS]*.txt")):
        for line in path.read_text(encoding="utf-8").splitlines():
            _, _, _, row, number, stop, _, _, _, _, _, _, high, *_ = line.split(" ", 13)
            yield f"{row} case {number}", Case(row, line.split(": ", 1)[1], int(stop), high == "1")


def last_stops(folder):
    """The stops of the last states of a profile's programs."""
    found = []
    for line in (folder / "programs.txt").read_text(encoding="utf-8").splitlines():
        kind, *_, last = line.split()
        if kind == "program":
            found.append(0)
        elif kind == "state":
            found[-1] = int(last)
    return found


@unittest.skipUnless(compiler() and ARCHIVE.is_file(), "needs a C compiler, and release/chipbench-steps.tar.xz")
class TestDifferences(unittest.TestCase):
    def setUp(self):
        self.place = pathlib.Path(tempfile.mkdtemp(prefix="chipbench-steps-"))
        self.addCleanup(shutil.rmtree, self.place)

    def test_what_the_document_leaves_out_is_enough(self):
        for difference in DIFFERENCES:
            with self.subTest(difference.what):
                self.assertIn(f"\n| {difference.what} |", SECTION)
                made(self.place, [EACH, *difference.changes])
                found = [self.differing(archive() / profile, difference) for profile in difference.profiles]
                self.assertEqual([left for _, left in found], [[]] * len(found))
                self.assertGreater(sum(count for count, _ in found), 0)

    def differing(self, folder, difference):
        """How many cases and programs differ, and those of them that aren't left out."""
        steps = printed(self.place / "run_steps", *sorted(folder.glob("[0-9A-FS]*.txt")))[:-1]
        programs = printed(self.place / "run_programs", folder / "programs.txt")[:-1]
        known, stops = dict(cases(folder)), last_stops(folder)
        left = [line for line in steps if not difference.leaves_case(known[line.split(":")[0]])]
        left += [line for line in programs if not difference.leaves_program(stops[int(line.split()[1]) - 1])]
        return len(steps) + len(programs), left

    def test_more_than_one_case_of_a_call_stops(self):
        """So the document speaks of cases."""
        stopping = [name for name, case in cases(archive() / "schip") if case.row == "2NNN" and case.stop]
        self.assertGreater(len(stopping), 1)
        self.assertIn("leave out the cases of `2NNN` that stop,", SECTION)
