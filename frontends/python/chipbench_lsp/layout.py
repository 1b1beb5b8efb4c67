"""How a document is laid out: formatting, folding, and the hints of addresses and bytes."""

from __future__ import annotations

from typing import Any

from chipbench import ChipbenchError, to_bytes

from .document import LINE_BYTES, Document, OpenBench, OverLimits
from .language import Line, Token
from .names import check_same

STATEMENT_COLUMN = 8
COMMENT_COLUMN = 28
TYPE_HINT = 1


# -- formatting


def spaced(tokens: tuple[Token, ...]) -> str:
    """Operands: a space after a comma and none before it, at most one elsewhere."""
    text = ""
    for before, token in zip((None, *tokens), tokens):
        if before is None:
            text = token.text
        elif token.text == ",":
            text += ","
        elif before.text == ",":
            text += " " + token.text
        else:
            text += (" " if token.start > before.end else "") + token.text
    return text


def code_of(line: Line) -> str:
    """The code of a line: the label in the first column, the statement in the ninth."""
    if line.form == "plain" and line.head is not None and line.head.kind != "word":
        return line.text[: line.code_end].rstrip()
    statement = "" if line.head is None else " ".join(part for part in (line.head.text, spaced(line.operands)) if part)
    label = ""
    if line.form in ("label", "value"):
        assert line.defined is not None
        has_colon = len(line.tokens) > 1 and line.tokens[1].text == ":"
        label = line.defined.text + (":" if has_colon else "")
    if not statement:
        return label
    if len(label) >= STATEMENT_COLUMN:
        return f"{label} {statement}"
    return label.ljust(STATEMENT_COLUMN) + statement


def formatted(line: Line) -> str:
    """A line in columns; a line that can't be read stays as it is.

    >>> from .language import read_line
    >>> formatted(read_line("LOOP:ADD V0,1;on"))
    'LOOP:   ADD V0, 1           ;on'
    """
    if line.is_bad:
        return line.text
    comment = line.comment.text.rstrip(" \t\f\x1a\r") if line.comment is not None else ""
    if not line.tokens:
        if line.comment is None:
            return ""
        indent = line.comment.start
        column = 0 if indent == 0 else STATEMENT_COLUMN if indent < COMMENT_COLUMN - STATEMENT_COLUMN else COMMENT_COLUMN
        return " " * column + comment
    code = code_of(line)
    if not comment:
        return code
    return code.ljust(COMMENT_COLUMN - 1) + " " + comment


def format_lines(document: Document, first: int, last: int, open_bench: OpenBench) -> list[dict[str, Any]]:
    """The edits that put the lines from `first` to `last` in columns, if the source still assembles to the same."""
    lines = document.lines
    edits = []
    for number in range(max(first, 0), min(last + 1, len(lines))):
        made = formatted(document.read(number))
        if made != lines[number] and len(to_bytes(made)) <= LINE_BYTES:
            edits.append({"range": document.columns.range(number, lines[number], 0, len(lines[number])), "newText": made})
            lines[number] = made
    if edits:
        check_same(document, lines, open_bench)
    return edits


# -- folding


def folds(document: Document) -> list[dict[str, Any]]:
    """The sides of IF blocks, and comments of several lines."""
    found: list[dict[str, Any]] = []
    opened: list[int] = []
    comment: int | None = None
    for number in range(document.line_count):
        line = document.read(number)
        is_comment = line.comment is not None and not line.tokens
        if not is_comment and comment is not None:
            add_fold(found, comment, number - 1, "comment")
        comment = (number if comment is None else comment) if is_comment else None
        word = line.directive if line.form == "plain" else None
        if word in ("IFDEF", "IFUND"):
            opened.append(number)
        elif word in ("ELSE", "ENDIF") and opened:
            add_fold(found, opened.pop(), number - 1, "region")
            if word == "ELSE":
                opened.append(number)
    if comment is not None:
        add_fold(found, comment, document.line_count - 1, "comment")
    return found


def add_fold(found: list[dict[str, Any]], first: int, last: int, kind: str) -> None:
    if last > first:
        found.append({"startLine": first, "endLine": last, "kind": kind})


# -- hints


def hints(document: Document, first: int, last: int) -> list[dict[str, Any]]:
    """The address and the bytes of each line that has bytes, after its text."""
    found = []
    try:
        for number in range(max(first, 0), min(last + 1, document.line_count)):
            row = document.listing(number)
            if row is None or row.address is None or not row.code:
                continue
            line = document.line(number)
            found.append({
                "position": document.columns.position(number, line, len(line)),
                "label": f"{row.address:04x} {row.code.hex()}{'..' if row.more else ''}",
                "paddingLeft": True,
            })
    except (OverLimits, ChipbenchError):
        return []
    return found
