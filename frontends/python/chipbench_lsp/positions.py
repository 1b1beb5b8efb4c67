"""Columns of lines in the units that the client counts in, and ranges of the protocol."""

from __future__ import annotations

import json
from typing import Any

UNITS = ("utf-16", "utf-8", "utf-32")

Range = dict[str, dict[str, int]]


class Columns:
    """Columns in the units of one client: `utf-16`, which all clients know, `utf-8` or `utf-32`."""

    def __init__(self, unit: str = "utf-16") -> None:
        self.unit = unit

    def width(self, text: str) -> int:
        """The number of units of a text.

        >>> Columns().width("a\U0001f600"), Columns("utf-8").width("a\U0001f600"), Columns("utf-32").width("a\U0001f600")
        (3, 5, 2)
        """
        if text.isascii() or self.unit == "utf-32":
            return len(text)
        if self.unit == "utf-8":
            return len(text.encode("utf-8", "surrogatepass"))
        return len(text) + sum(character > "\uffff" for character in text)

    def index(self, line: str, column: int) -> int:
        """The place in a line for a column. Inside a character this is its start, and past the end of the line it is the end.

        >>> [Columns().index("a\U0001f600b", column) for column in range(6)]
        [0, 1, 1, 2, 3, 3]
        """
        if line.isascii() or self.unit == "utf-32":
            return min(column, len(line))
        for place, character in enumerate(line):
            column -= self.width(character)
            if column < 0:
                return place
        return len(line)

    def position(self, number: int, line: str, place: int) -> dict[str, int]:
        return {"line": number, "character": self.width(line[:place])}

    def range_text(self, line: str, start: int, end: int) -> str:
        """The range of a part of one line as JSON, with %d in the place of both its line numbers.

        >>> Columns().range_text("CLS", 0, 3)
        '{"start":{"line":%d,"character":0},"end":{"line":%d,"character":3}}'
        """
        places = (f'{{"line":%d,"character":{self.width(line[:place])}}}' for place in (start, end))
        return '{"start":%s,"end":%s}' % tuple(places)

    def range(self, number: int, line: str, start: int, end: int) -> Range:
        """The range of a part of one line; lines are counted from 0."""
        return {"start": self.position(number, line, start), "end": self.position(number, line, end)}


def escaped(value: Any) -> str:
    """A value as JSON for a text that is formatted by %."""
    return json.dumps(value, separators=(",", ":")).replace("%", "%%")


def choose_unit(capabilities: Any) -> str:
    """The unit for a client: UTF-16, unless it can count characters, which is cheapest here."""
    general = capabilities.get("general") if isinstance(capabilities, dict) else None
    offered = general.get("positionEncodings") if isinstance(general, dict) else None
    if isinstance(offered, list) and "utf-32" in offered:
        return "utf-32"
    return "utf-16"


def byte_to_place(line: str, content: bytes, offset: int) -> int:
    """The place in a line of an offset in its bytes."""
    if len(line) == len(content):
        return min(offset, len(line))
    return min(len(content[:offset].decode("utf-8", "replace")), len(line))
