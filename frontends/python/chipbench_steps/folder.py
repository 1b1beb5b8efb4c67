"""The folder that the files are written into: files of an earlier run there."""

from __future__ import annotations

import re
from collections.abc import Iterable, Iterator
from pathlib import Path

from . import programs
from .rows import rows
from .settings import FORMAT, Settings

SUFFIXES = {"json": ".json", "flat": ".txt"}
# where a file names its format and its machine, within its first bytes
HEAD_BYTES = 400
HEAD = re.compile(rb'(?:"format":|^(?:step|words|program) )(\d+)(?:,"profile":"| )([^" ]+)')
PROGRAM = re.compile(r"[1-9][0-9]{0,3}\.(?:ch8|keys)")


class Others(Exception):
    """The folder has files that this run may not replace."""


def names(files: Iterable[str], forms: Iterable[str], count: int) -> set[str]:
    """The names of files in these forms, and those of programs, from the folder."""
    made = {name + SUFFIXES[form] for name in files for form in forms}
    return made | {f"{programs.FOLDER}/{number}.{kind}" for number in range(1, count + 1) for kind in ("ch8", "keys")}


def known(place: Path) -> Iterator[str]:
    """The files of the folder whose names are those of files of single steps."""
    listed = names([*(row.name for row in rows()), "words", programs.NAME], SUFFIXES, 0)
    yield from sorted(name for name in listed if (place / name).is_file())
    if (place / programs.FOLDER).is_dir():
        inner = sorted(path.name for path in (place / programs.FOLDER).iterdir())
        yield from (f"{programs.FOLDER}/{name}" for name in inner if PROGRAM.fullmatch(name))


def marks(path: Path) -> str:
    """The format and the machine that a file names."""
    with path.open("rb") as file:
        found = HEAD.search(file.read(HEAD_BYTES))
    if found is None:
        return "no format"
    return f"format {int(found.group(1))} and profile {found.group(2).decode('utf-8', 'replace')}"


def refuse_others(place: Path, settings: Settings) -> None:
    """`Others` where a file there is of another machine or format, or isn't one of single steps."""
    wanted = f"format {FORMAT} and profile {settings.machine}"
    for name in known(place):
        found = marks(place / name) if "/" not in name else wanted
        if found != wanted:
            raise Others(f"{place / name} names {found}, and this run writes {wanted}: name another folder, or replace the files by --force")


def remove_others(place: Path, written: set[str]) -> list[str]:
    """Removes files of an earlier run that this one didn't write, and gives their names."""
    removed = [name for name in known(place) if name not in written]
    for name in removed:
        (place / name).unlink()
    if removed and (place / programs.FOLDER).is_dir() and not any((place / programs.FOLDER).iterdir()):
        (place / programs.FOLDER).rmdir()
    return removed
