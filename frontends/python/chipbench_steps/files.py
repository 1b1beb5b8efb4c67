"""The files of single steps: a file for each row, those of words and of programs, and the index."""

from __future__ import annotations

import contextlib
import json
import re
from collections import Counter
from collections.abc import Iterable
from dataclasses import dataclass
from pathlib import Path
from typing import Any

from chipbench import ChipbenchError, run_once

from . import flat, folder, programs
from .answers import Answers
from .cases import Row
from .rows import rows, table
from .settings import FORMAT, Settings
from .words import runs
from .writing import lines, progress, replace

INDEX = "index.json"
WORDS = "words"


@dataclass(frozen=True)
class Asked:
    """What is written: the rows, the cases of each, whether the verdicts on all words, how many programs, and the forms of the
    files, which are `json` and `flat`. Whether files of another machine or format are replaced."""

    rows: tuple[Row, ...]
    count: int
    has_words: bool
    programs: int
    forms: tuple[str, ...]
    replaces: bool

    def names(self) -> list[str]:
        """The files without their suffix, except the index and those of the programs' folder."""
        return [*(row.name for row in self.rows), *([WORDS] if self.has_words else []), *([programs.NAME] if self.programs else [])]


def version(program: str) -> tuple[str, str]:
    """The name of the program with its version, and the logic that it was proved with."""
    status, output, errors = run_once([program, "--version"])
    found = re.fullmatch(r"(.*) \(logic (.*)\)\n", output.decode("utf-8", "replace"))
    if status != 0 or found is None:
        raise ChipbenchError(f"{program} does not say its version: {errors.strip()}")
    return found.group(1), found.group(2)


def write_all(place: Path, settings: Settings, asked: Asked) -> list[str]:
    """Writes all that is asked for, and gives the names of earlier files that were removed.

    The index goes first and comes last: without it the files aren't complete."""
    name, logic = version(settings.program)
    with Answers(settings) as answers:
        place.mkdir(parents=True, exist_ok=True)
        if not asked.replaces:
            folder.refuse_others(place, settings)
        with contextlib.suppress(FileNotFoundError):
            (place / INDEX).unlink()
        listed = [write_row(place, answers, row, asked) for row in asked.rows]
    index = {"format": FORMAT, "program": name, "logic": logic, "profile": settings.machine, "seed": settings.seed, "files": listed}
    if asked.has_words:
        index[WORDS] = write_words(place, settings, asked)
    if asked.programs:
        index[programs.NAME] = write_programs(place, settings, asked)
    removed = folder.remove_others(place, folder.names(asked.names(), asked.forms, asked.programs))
    replace(place / INDEX, json.dumps(index, indent=1) + "\n")
    return removed


def write(place: Path, name: str, asked: Asked, as_json: str, flat_lines: Iterable[str]) -> dict[str, str]:
    """Writes a file in the forms that are asked for, and gives their names for the index."""
    for form, text in (("json", as_json), ("flat", "".join(flat_lines))):
        if form in asked.forms:
            replace(place / f"{name}{folder.SUFFIXES[form]}", text)
    members = {"json": "file", "flat": "flat"}
    return {members[form]: f"{name}{folder.SUFFIXES[form]}" for form in asked.forms}


def write_row(place: Path, answers: Answers, row: Row, asked: Asked) -> dict[str, Any]:
    """Writes the file of a row, and gives its entry in the index."""
    records = []
    for number in range(asked.count):
        progress(f"{row.name} {number + 1}")
        records.append(answers.record(row, number))
    names = write(place, row.name, asked, lines(records), map(flat.case_line, records))
    kinds = Counter(record["about"] for record in records)
    return {"row": row.name, **names, "cases": len(records), "kinds": dict(kinds)}


def write_words(place: Path, settings: Settings, asked: Asked) -> dict[str, Any]:
    progress("words")
    found = runs(settings, [row.pattern for row in table()])
    text = json.dumps(settings.marks, separators=(",", ":"))[:-1] + ',"words":' + lines(found)[:-1] + "}\n"
    return {**write(place, WORDS, asked, text, flat.word_lines(settings.marks, found)), "runs": len(found)}


def write_programs(place: Path, settings: Settings, asked: Asked) -> dict[str, Any]:
    records = programs.make_programs(place, settings, asked.programs)
    names = write(place, programs.NAME, asked, lines(records), map(flat.program_lines, records))
    return {**names, "folder": programs.FOLDER, "programs": len(records), "steps": programs.STEPS}


def rows_named(text: str | None) -> tuple[Row, ...]:
    """The rows of a list such as DXYN,8xy4, or all. KeyError with the first name that is none."""
    known = {row.name: row for row in rows()}
    if text is None:
        return tuple(known.values())
    return tuple(known[name] for name in dict.fromkeys(text.upper().split(",")))
