"""Finds which subroutine calls which, by the CALLs of a source."""

from __future__ import annotations

from collections.abc import Iterator
from typing import Any

from .document import Document
from .language import Token, read_line
from .names import FUNCTION, definition_of, name_at

FILE = 1
#: The name of the lines before the first subroutine.
PROGRAM = "the program"


def calls(document: Document) -> Iterator[tuple[int, Token]]:
    """The lines that call a name, with that."""
    for number, text in document.numbered():
        if "CALL" in text.upper():
            line = read_line(text)
            if line.mnemonic == "CALL" and len(line.operands) == 1 and line.operands[0] in list(line.names()):
                yield number, line.operands[0]


def subroutines(document: Document) -> list[tuple[int, str]]:
    """The lines that define the label of a subroutine, in their order, each with its name in upper case."""
    called = {token.upper for _, token in calls(document)}
    found = (definition_of(document, name) for name in called)
    return sorted((place[0], place[1].upper) for place in found if place is not None)


def item(document: Document, name: str | None) -> dict[str, Any]:
    """A subroutine as the protocol has it; without a name the program itself."""
    place = None if name is None else definition_of(document, name)
    number, token = place if place is not None else (0, None)
    line = document.line(number)
    span = document.columns.range(number, line, *((token.start, token.end) if token is not None else (0, 0)))
    return {
        "name": token.text if token is not None else PROGRAM, "kind": FUNCTION if token is not None else FILE,
        "detail": f"line {number + 1}", "uri": document.uri, "range": document.columns.range(number, line, 0, len(line)),
        "selectionRange": span,
    }


def prepare(document: Document, number: int, place: int) -> list[dict[str, Any]]:
    token = name_at(document, number, place)
    if token is None or definition_of(document, token.upper) is None:
        return []
    return [item(document, token.upper)]


def span_of(document: Document, number: int, token: Token) -> dict[str, Any]:
    return document.columns.range(number, document.line(number), token.start, token.end)


def incoming(document: Document, name: str) -> list[dict[str, Any]]:
    """The subroutines that call one, with the places."""
    places = subroutines(document)
    found: dict[str | None, list[Any]] = {}
    for number, token in calls(document):
        if token.upper == name.upper():
            caller = next((label for start, label in reversed(places) if start <= number), None)
            found.setdefault(caller, []).append(span_of(document, number, token))
    return [{"from": item(document, caller), "fromRanges": spans} for caller, spans in found.items()]


def outgoing(document: Document, name: str) -> list[dict[str, Any]]:
    """The subroutines that one calls, with the places: its lines go up to the next subroutine."""
    place = definition_of(document, name.upper())
    if place is None and name != PROGRAM:
        return []
    first = place[0] if place is not None else 0
    last = next((start for start, _ in subroutines(document) if start > first), document.line_count)
    found: dict[str, list[Any]] = {}
    for number, token in calls(document):
        if first <= number < last:
            found.setdefault(token.upper, []).append(span_of(document, number, token))
    return [
        {"to": item(document, called), "fromRanges": spans} for called, spans in found.items()
        if definition_of(document, called) is not None
    ]
