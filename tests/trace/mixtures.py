#!/usr/bin/env python3
"""Compares random programs under mixtures of quirks with tests/trace/emulator.py, which has its quirks from docs/MACHINE.md.

    tests/trace/mixtures.py [COUNT [FIRST]]

For each mixture of the values that docs/MACHINE.md lists, COUNT programs (1) run, from number FIRST (0) on: all fields of the
trace of each step agree, and after the last one the sums of screen and memory. The last line is 'N passed, M failed'.
"""
import concurrent.futures
import itertools
import pathlib
import random
import re
import subprocess
import sys
import tempfile

import emulator

TOP = pathlib.Path(__file__).resolve().parents[2]
sys.path.insert(0, str(TOP / "tests"))

from runner.programs import HANG_SECONDS  # noqa: E402

PROGRAM = TOP / "crates" / "chipbench" / "out" / "chipbench"
STEPS = 60
TAPE = bytes.fromhex("3b5a91c7042fe866")


def mixtures():
    """Each choice of a value for each quirk, as a list for `--quirks`."""
    values = {}
    for name, value in re.findall(r"^\| `([\w-]+)=([\w+]+)` \|", emulator.PAGE.read_text(encoding="utf-8"), re.M):
        values.setdefault(name, []).append(f"{name}={value}")
    return [",".join(choices) for choices in itertools.product(*values.values())]


def any_word(pick):
    """A word of a program, often one that a quirk changes."""
    registers, byte = pick.randrange(256) << 4, pick.randrange(256)
    return pick.choice((
        lambda: 0x6000 | pick.randrange(4096),
        lambda: 0x6000 | pick.randrange(16) << 8 | byte,
        lambda: 0xD000 | registers | pick.choice((0, 0, 1, 5, 15)),
        lambda: 0xD000 | registers | pick.choice((0, 2, 8)),
        lambda: 0xA000 | pick.choice((0x200 + byte, pick.randrange(160), 0xFE0 + pick.randrange(32))),
        lambda: 0x8000 | registers | pick.choice((1, 2, 3, 4, 5, 6, 7, 6, 14, 14)),
        lambda: 0xF000 | pick.randrange(16) << 8 | pick.choice((0x1E, 0x1E, 0x55, 0x65, 0x29, 0x30, 0x33, 0x75, 0x85)),
        lambda: pick.choice((0x00FF, 0x00FE, 0x00FB, 0x00FC, 0x00C0 | pick.randrange(16))),
        lambda: pick.choice((0xB200 + pick.randrange(80), 0x1200 + pick.randrange(0, 112, 2), 0x3000 | pick.randrange(4096))),
        lambda: pick.choice((0xC000 | pick.randrange(4096), 0x00E0, 0x00FF, pick.randrange(65536))),
    ))()


def image_of(seed):
    pick = random.Random(seed)
    return b"".join(any_word(pick).to_bytes(2, "big") for _ in range(60))


def sum_of(data):
    """The sum FNV-1a of 64 bits."""
    total = 0xCBF29CE484222325
    for byte in data:
        total = (total ^ byte) * 0x100000001B3 & 2**64 - 1
    return f"{total:016x}"


def rows_of(machine):
    rows = [0] * 64
    for column, row in machine.screen:
        rows[row] |= 1 << 127 - column
    return b"".join(row.to_bytes(16, "big") for row in rows)


def emulated(image, quirks):
    """The fields of each step, and the sums after the last one."""
    machine, lines = emulator.Machine(image, quirks, TAPE, None), []
    for step in range(STEPS + 1):
        lines.append([f"{machine.pc:04x}", *(f"{value:02x}" for value in machine.v), f"{machine.i:04x}",
                      f"{machine.dt:02x}", f"{machine.st:02x}", str(len(machine.stack))])
        if machine.stopped or step == STEPS:
            break
        machine.step(0, (step + 1) % 10 == 0)
    return lines, sum_of(rows_of(machine)), sum_of(machine.memory)


def below_machine(lines):
    """The lines of a trace below the one that names the machine, where there is one."""
    return lines[1:] if lines and lines[0].startswith(("# profile ", "# quirks ")) else lines


def traced(path, quirks, program):
    """The same, of the program under test."""
    words = ["trace", "--image", path, "--steps", str(STEPS), "--tape", TAPE.hex(), "--quirks", quirks, "--hash"]
    ran = subprocess.run([program, *words], capture_output=True, text=True, timeout=HANG_SECONDS)
    header, *rows = below_machine(ran.stdout.splitlines()) or [ran.stderr]
    names = header.split()[1:]
    rows = [dict(zip(names, row.split(maxsplit=len(names) - 1))) for row in rows]
    wanted = ["pc", *(f"v{number:x}" for number in range(16)), "i", "dt", "st", "depth"]
    lines = [[row[name] for name in wanted] for row in rows]
    return lines, *((rows[-1]["screen"], rows[-1]["memory"]) if rows else (ran.stderr, ""))


def differs(quirks, number, program=PROGRAM):
    """What differs for a mixture in the program of a number, or nothing."""
    image, values = image_of(f"{quirks} {number}"), dict(choice.split("=") for choice in quirks.split(","))
    with tempfile.NamedTemporaryFile(suffix=".ch8") as file:
        file.write(image)
        file.flush()
        found, wanted = traced(file.name, quirks, program), emulated(image, values)
    if found[0] != wanted[0]:
        step = next(at for at in range(STEPS + 2) if found[0][at : at + 1] != wanted[0][at : at + 1])
        return f"{quirks} {number}: step {step}: {found[0][step : step + 1]} {wanted[0][step : step + 1]}"
    return None if found[1:] == wanted[1:] else f"{quirks} {number}: screen or memory differ"


def main(words):
    count, first = (int(words[0]) if words else 1, int(words[1]) if len(words) > 1 else 0)
    if not PROGRAM.is_file():
        print(f"there is no program {PROGRAM.relative_to(TOP)}: ./chipbench builds it\n0 passed, 1 failed")
        return 1
    asked = list(itertools.product(mixtures(), range(first, first + count)))
    with concurrent.futures.ProcessPoolExecutor() as pool:
        found = [text for text in pool.map(differs, *zip(*asked), chunksize=64) if text]
    print("".join(f"{text}\n" for text in found[:20]), end="")
    print(f"{len(asked) - len(found)} passed, {len(found)} failed")
    return 1 if found else 0


if __name__ == "__main__":
    sys.exit(main(sys.argv[1:]))
