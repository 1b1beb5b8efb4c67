#!/usr/bin/env python3
"""Which files of chipbench-steps find each planted bug: plants.txt, by the runners in C of examples/emulator.

    tests/steps/plant_table.py FOLDER            says whether plants.txt is right; FOLDER has the flat files of each profile
    tests/steps/plant_table.py FOLDER --write    writes it

It needs a C compiler. The status is 1 where a line differs.
"""
import os
import pathlib
import subprocess
import sys
import tempfile
from typing import NamedTuple

from common import EXAMPLE, compiler
from plants import LOOP, PLANTS

HERE = pathlib.Path(__file__).resolve().parent
TABLE = HERE / "plants.txt"
# profiles whose words differ
PROFILES_OF_WORDS = ("schip", "vip")
SECONDS = 60
ABOUT = """\
# What finds each of {count} bugs that authors of emulators make: tests/steps/plant_table.py writes this of plants.py.
# The columns are the files with a case that differs, under any profile; whether a verdict on a word differs; and how many of the
# {tried} programs differ. A runner that the bug ended is a crash. Where nothing finds a bug, the reason stands behind it.
# {steps} bugs are found by steps, {words} by words, {programs} by programs; {both} by both steps and programs, {alone} by programs alone.
"""


def source_with(plant, file):
    """A source of the example, with the bug where it has it."""
    text = (EXAMPLE / file).read_text(encoding="utf-8")
    for old, new in ((plant.old, plant.new), *([plant.also] if plant.also else [])) if plant and plant.file == file else ():
        if text.count(old) != 1:
            raise ValueError(f"{plant.part}, {plant.what}: {file} has {text.count(old)} times {old!r}")
        text = text.replace(old, new)
    return text


class Runners:
    """The runners, compiled once. The emulator is a library beside them, so that another one takes its place."""

    def __init__(self, place, files):
        self.place, self.files = pathlib.Path(place), pathlib.Path(files)
        self.profiles = sorted(path.name for path in self.files.iterdir() if (path / "index.json").is_file())
        self.library(None)
        for name in ("run_steps", "run_words", "run_programs"):
            self.runner(name, None)

    def compile(self, name, text, *options):
        source = self.place / f"{name}.c"
        source.write_text(text, encoding="utf-8")
        command = [compiler(), "-std=c99", "-w", f"-I{EXAMPLE}", "-o", self.place / name, source, *options]
        subprocess.run(list(map(str, command)), check=True, timeout=SECONDS)

    def library(self, plant):
        self.compile("libemulator.so", source_with(plant, "emulator.c"), "-O1", "-shared", "-fPIC")

    def runner(self, name, plant):
        self.compile(name, source_with(plant, f"{name}.c"), "-O2", f"-L{self.place}", "-lemulator")

    def run(self, name, files):
        """The lines that a runner prints, and whether it was ended."""
        done = subprocess.run([self.place / name, *files], capture_output=True, text=True, timeout=SECONDS, errors="replace",
                              env={**os.environ, "LD_LIBRARY_PATH": str(self.place)})
        return done.stdout.splitlines(), done.returncode < 0

    def found(self, plant):
        """What finds a bug."""
        self.library(plant)
        loop = plant if plant and plant.file == LOOP else None
        if loop:
            self.runner("run_programs", loop)
        steps, ends = self.run("run_steps", [path for one in self.profiles for path in sorted((self.files / one).glob("[0-9A-FS]*.txt"))])
        words = [self.run("run_words", [self.files / one / "words.txt"]) for one in PROFILES_OF_WORDS]
        programs, ends_there = self.run("run_programs", [self.files / one / "programs.txt" for one in self.profiles])
        if loop:
            self.runner("run_programs", None)
        rows = {line.split()[0] for line in steps if " case " in line} | ({"crash"} if ends else set())
        has_word = any(is_ended or any(line.startswith("word ") for line in lines) for lines, is_ended in words)
        count = sum(line.startswith("program ") for line in programs)
        return Found(rows, has_word, f"{count}, crash" if ends_there else str(count) if count else "-")


class Found(NamedTuple):
    """What finds a bug: the rows of cases, whether words do, and how many programs, or `-`."""

    rows: set[str]
    has_word: bool
    programs: str

    def line(self, plant):
        """The line of the table."""
        steps = sorted(self.rows)
        shown = " ".join(steps[:4]) + (f" and {len(steps) - 4} more" if len(steps) > 4 else "") or "-"
        unseen = f" ({plant.unseen})" if plant.unseen else ""
        return f"{plant.part:6} {plant.what:60} | {shown:32} | {'words' if self.has_word else '-':5} | {self.programs}{unseen}"


def counts(lines):
    """How many bugs are found by steps, words, programs, and both steps and programs."""
    cells = [[cell.split()[0] != "-" for cell in line.split("|")[1:]] for line in lines]
    return {"steps": sum(cell[0] for cell in cells), "words": sum(cell[1] for cell in cells), "programs": sum(cell[2] for cell in cells),
            "both": sum(cell[0] and cell[2] for cell in cells), "alone": sum(cell == [False, False, True] for cell in cells)}


def lines_of(text):
    """The lines of the table without those above it."""
    return [line for line in text.splitlines() if not line.startswith("#")]


def differences(place, files, plants):
    """The lines of some plants that aren't those of the table."""
    runners, table = Runners(place, files), lines_of(TABLE.read_text(encoding="utf-8"))
    if (right := runners.found(None)) != (set(), False, "-"):
        return [f"without a bug: {right}"]
    return [line for plant in plants if (line := runners.found(plant).line(plant)) not in table]


def write(place, files):
    runners = Runners(place, files)
    lines = [runners.found(plant).line(plant) for plant in PLANTS]
    tried = sum(line.startswith("program ") for path in pathlib.Path(files).glob("*/programs.txt") for line in path.open())
    about = ABOUT.format(count=len(lines), tried=tried, **counts(lines))
    TABLE.write_text(about + "\n".join(lines) + "\n", encoding="utf-8")


def main(words):
    if not words or words[1:] not in ([], ["--write"]):
        print(__doc__, file=sys.stderr)
        return 2
    with tempfile.TemporaryDirectory() as place:
        if words[1:]:
            write(place, words[0])
            return 0
        found = differences(place, words[0], PLANTS)
    print(*found, sep="\n", end="\n" if found else "")
    return 1 if found else 0


if __name__ == "__main__":
    sys.exit(main(sys.argv[1:]))
