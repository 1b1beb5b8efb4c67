"""Faults and warnings as diagnostics. Faults come from the session as a line and a code; their places and help, and the
warnings, come from `check`, after a pause."""

from __future__ import annotations

import functools
from collections.abc import Iterable
from dataclasses import dataclass

from chipbench import ChipbenchError, Fault, sentences, to_bytes

from .document import Document, OverLimits, same_ends
from .language import read_line
from .positions import Columns, byte_to_place, escaped
from .tables import FAULTS
from .wire import Encoded

ERROR, WARNING = 1, 2
MOST_SHOWN = 1000
# Fewer warnings than faults are shown, because each edit publishes the warnings again.
MOST_WARNINGS = 200
SOURCE = "chipbench"


class Places:
    """The last answer of `check` for each line's text and code, which stays while the user types other lines; and the
    warnings, with their lines."""

    def __init__(self) -> None:
        self._known: dict[tuple[str, str], Fault] = {}
        self._lines: list[str] = []
        self._warnings: list[Fault] = []
        self._texts: list[str] = []

    def learn(self, lines: list[str], faults: list[Fault]) -> None:
        inside = [fault for fault in faults if fault.line <= len(lines)]
        self._known = {(lines[fault.line - 1], fault.code): fault for fault in inside if not fault.is_warning}
        self._lines = lines
        self._warnings = [fault for fault in inside if fault.is_warning]
        self._texts = []

    def of(self, line: str, code: str) -> Fault | None:
        return self._known.get((line, code))

    def warnings(self, lines: list[str], unit: str) -> list[tuple[int, str, str]]:
        """The warnings of the unchanged lines, which are before the first changed line or after the last: each with its line's
        present index, its code and its text as a diagnostic."""
        if len(self._texts) < len(self._warnings):
            self._texts = [placed_diagnostic(self._lines[one.line - 1], unit, one, WARNING) for one in self._warnings]
        first, last = same_ends(self._lines, lines)
        last_from, moved = len(self._lines) - last, len(lines) - len(self._lines)
        found = []
        for warning, text in zip(self._warnings, self._texts):
            number = warning.line - 1
            if number < first:
                found.append((number, warning.code, text))
            elif number >= last_from:
                found.append((number + moved, warning.code, text))
        return found


def whole_line(line: str) -> tuple[int, int]:
    """From the first token to the last one; the whole text where there is none."""
    read = read_line(line)
    return (read.tokens[0].start, read.code_end) if read.tokens else (0, len(line))


def sentence_of(program: str | None, code: str) -> str:
    known = sentences(program) if program else {}
    return known.get(code, "") or FAULTS.get(code, code)


@dataclass(frozen=True)
class Shown:
    """The published answer for a document: its diagnostics, and the code of the first one."""

    found: Encoded
    code: str | None


@functools.lru_cache(maxsize=20_000)
def diagnostic(line: str, unit: str, start: int, end: int, code: str, text: str, severity: int) -> str:
    """A diagnostic of a line as JSON, with %d in the place of its line's number."""
    place = Columns(unit).range_text(line, start, end)
    return f'{{"range":{place},"severity":{severity},"code":{escaped(code)},"source":"{SOURCE}","message":{escaped(text)}}}'


@functools.lru_cache(maxsize=20_000)
def placed_diagnostic(line: str, unit: str, found: Fault, severity: int) -> str:
    """A fault or a warning with its place, and its help below its sentence."""
    content = to_bytes(line)
    start, end = (byte_to_place(line, content, place or 0) for place in (found.start, found.end))
    text = "\n".join(part for part in (found.sentence, found.help) if part)
    return diagnostic(line, unit, start, end, found.code, text, severity)


def fault_diagnostic(document: Document, places: Places, program: str | None, number: int, code: str) -> str:
    line = document.line(number)
    known = places.of(line, code)
    if known is None:
        return diagnostic(line, document.columns.unit, *whole_line(line), code, sentence_of(program, code), ERROR)
    return placed_diagnostic(line, document.columns.unit, known, ERROR)


def whole(document: Document, number: int, code: str, text: str) -> str:
    """A diagnostic of a whole line."""
    line = document.line(number)
    return diagnostic(line, document.columns.unit, 0, len(line), code, text, ERROR)


def numbered(found: Iterable[tuple[int, str, str]]) -> Shown:
    """Diagnostics with the numbers of their lines, and their codes."""
    rows = list(found)
    return Shown(Encoded(text % (number, number) for number, _, text in rows), rows[0][1] if rows else None)


def some_warnings(document: Document, found: list[tuple[int, str, str]]) -> list[tuple[int, str, str]]:
    """The first warnings, and on the line of the next one how many more there are."""
    if len(found) <= MOST_WARNINGS:
        return found
    number, text = found[MOST_WARNINGS][0], f"{len(found) - MOST_WARNINGS} more warnings from here on"
    line = document.line(number)
    more = diagnostic(line, document.columns.unit, *whole_line(line), "more", text, WARNING)
    return [*found[:MOST_WARNINGS], (number, "more", more)]


def diagnostics(document: Document, places: Places, program: str | None) -> Shown:
    """The diagnostics of a document: its faults, or without faults its warnings; or the limits that it passes; or the error if
    the program has ended."""
    try:
        faults = document.faults
    except OverLimits as over:
        return numbered((number, code, whole(document, number, code, text)) for number, code, text in over.lines[:MOST_SHOWN])
    except ChipbenchError as error:
        return numbered([(0, "program", whole(document, 0, "program", f"the faults are unknown: {error}"))])
    unit = document.columns.unit
    if not faults:
        return numbered(some_warnings(document, places.warnings(document.lines, unit)))
    found = [(number, code, fault_diagnostic(document, places, program, number, code)) for number, code in faults[:MOST_SHOWN]]
    if len(faults) > MOST_SHOWN:
        number = faults[MOST_SHOWN][0]
        text = f"{len(faults) - MOST_SHOWN} more lines have faults from here on"
        line = document.line(number)
        found.append((number, "more", diagnostic(line, unit, *whole_line(line), "more", text, ERROR)))
    return numbered(found)
