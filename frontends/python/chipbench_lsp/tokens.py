"""Colours by meaning: what each token of a line is, as the protocol's semantic tokens."""

from __future__ import annotations

import functools
from collections.abc import Iterator
from typing import Any

from .document import Document
from .language import PROPERTY_WORDS, Line, Token, defined_in, read_line
from .positions import Columns
from .tables import DIRECTIVES, MNEMONICS, PARTS, REGISTERS
from .wire import Encoded

TYPES = ("keyword", "macro", "variable", "number", "string", "comment", "function", "enumMember")
KEYWORD, MACRO, VARIABLE, NUMBER, STRING, COMMENT, FUNCTION, CONSTANT = range(len(TYPES))
MODIFIERS = ("declaration", "readonly")
DECLARATION, READ_ONLY = 1, 2
LEGEND = {"tokenTypes": list(TYPES), "tokenModifiers": list(MODIFIERS)}
#: Words of properties that are keywords, and no items.
STATED = frozenset({"ALWAYS", "NEVER", "EVER", "CAN", "HERE", "AT", "AND", "OR"})
PLAIN = {"number": NUMBER, "text": STRING}

Meant = tuple[int, int, int, int]


@functools.lru_cache(maxsize=20_000)
def names_of(text: str) -> tuple[str, ...]:
    return tuple(token.upper for token in read_line(text).names())


def of_name(line: Line, token: Token, is_label: bool) -> tuple[int, int]:
    kind, modifiers = (FUNCTION, 0) if is_label else (CONSTANT, READ_ONLY)
    return kind, modifiers | (DECLARATION if token == line.defined else 0)


def of_word(line: Line, token: Token) -> tuple[int, int] | None:
    """The type of a word that isn't a name of the source."""
    word = token.upper
    if word in REGISTERS or word in PARTS:
        return VARIABLE, 0
    if line.stated:
        return (KEYWORD if word in STATED else VARIABLE, 0) if word in STATED or word in PROPERTY_WORDS else None
    if word in MNEMONICS:
        return KEYWORD, 0
    return (MACRO, 0) if word in DIRECTIVES else None


def meant(line: Line, labels: tuple[bool, ...]) -> Iterator[Meant]:
    """Each token with a meaning: its start, its end, its type and its modifiers. `labels` says which names are labels."""
    named = dict(zip(line.names(), labels))
    if line.stated and line.comment is not None:
        yield line.comment.start, line.comment.start + 2, MACRO, 0
    for token in line.tokens or line.stated:
        if token in named:
            found: tuple[int, int] | None = of_name(line, token, named[token])
        elif token.kind == "word":
            found = of_word(line, token)
        else:
            found = (PLAIN[token.kind], 0) if token.kind in PLAIN else None
        if found is not None:
            yield token.start, token.end, *found
    if line.comment is not None and not line.stated:
        yield line.comment.start, line.comment.end, COMMENT, 0


@functools.lru_cache(maxsize=20_000)
def numbers(text: str, labels: tuple[bool, ...], unit: str) -> str:
    """The tokens of a line as the protocol counts them, each from the one before, without the first number, the lines between.

    >>> numbers("CLS ; x", (), "utf-16")
    '0,3,0,0,0,4,3,5,0'
    """
    columns, rows, before = Columns(unit), [], 0
    for start, end, kind, modifiers in meant(read_line(text), labels):
        column = columns.width(text[:start])
        rows.append(f"{column - before},{columns.width(text[start:end])},{kind},{modifiers}")
        before = column
    return ",0,".join(rows)


def tokens(document: Document, first: int, last: int) -> dict[str, Any]:
    """The tokens of the lines from `first` to `last`."""
    unit = document.columns.unit
    defined = (defined_in(text) for _, text in document.numbered())
    labels = {found[0] for found in defined if found is not None and found[2]}
    found, before = Encoded(), 0
    for number, text in document.numbered():
        if first <= number <= last and text:
            made = numbers(text, tuple(name in labels for name in names_of(text)), unit)
            if made:
                found.append(f"{number - before},{made}")
                before = number
    return {"data": found}
