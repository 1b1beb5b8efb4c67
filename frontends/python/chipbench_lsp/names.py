"""Names: where they are defined and used, renaming, and the symbols of a document."""

from __future__ import annotations

import functools
from collections.abc import Iterable, Iterator
from typing import Any

from chipbench import Bench, ChipbenchError, Refused, check, join_lines, to_bytes

from .document import Document, OpenBench, OverLimits, over_limits
from .language import PROPERTY_WORDS, Token, read_line
from .positions import Columns, escaped
from .tables import name_fault
from .wire import REQUEST_FAILED, Encoded, Failed

CONSTANT, FUNCTION = 14, 12
# The most names of an answer about all documents.
MOST_SYMBOLS = 1000


def name_at(document: Document, number: int, place: int) -> Token | None:
    """The name at a place."""
    line = document.read(number)
    token = line.token_at(place)
    return token if token is not None and token in list(line.names()) else None


def uses(document: Document, name: str) -> Iterator[tuple[int, Token]]:
    """Each place of a name in the document, in upper case: definitions, uses, and mentions in lines that aren't active."""
    for number, text in document.numbered():
        # a line that holds the name holds it as a text
        if name in text.upper():
            yield from ((number, token) for token in read_line(text).names() if token.upper == name)


def definitions(document: Document, name: str) -> list[tuple[int, Token]]:
    """The lines that define a name, the one that counts first."""
    found = [(number, token) for number, token in uses(document, name) if document.read(number).defined == token]
    try:
        symbol = document.symbols.get(name)
    except (OverLimits, ChipbenchError):
        symbol = None
    first = symbol.line - 1 if symbol is not None else None
    return sorted(found, key=lambda use: use[0] != first)


def definition_of(document: Document, name: str) -> tuple[int, Token] | None:
    return next(iter(definitions(document, name)), None)


def location(document: Document, number: int, token: Token) -> dict[str, Any]:
    return {"uri": document.uri, "range": document.columns.range(number, document.line(number), token.start, token.end)}


def definition(document: Document, number: int, place: int) -> list[dict[str, Any]]:
    token = name_at(document, number, place)
    return [] if token is None else [location(document, *found) for found in definitions(document, token.upper)[:1]]


def references(document: Document, number: int, place: int, with_definitions: bool) -> list[dict[str, Any]]:
    token = name_at(document, number, place)
    if token is None:
        return []
    found = uses(document, token.upper)
    return [location(document, at, use) for at, use in found if with_definitions or document.read(at).defined != use]


def highlights(document: Document, number: int, place: int) -> list[dict[str, Any]]:
    return [{"range": found["range"]} for found in references(document, number, place, True)]


def prepare_rename(document: Document, number: int, place: int) -> dict[str, Any] | None:
    token = name_at(document, number, place)
    if token is None:
        return None
    return {"range": location(document, number, token)["range"], "placeholder": token.text}


def rename(document: Document, number: int, place: int, new_name: str, open_bench: OpenBench) -> dict[str, Any]:
    """One edit of all uses, also in properties. Refused if the new name isn't valid or is taken, or if the edit would change the
    code or the properties."""
    token = name_at(document, number, place)
    if token is None:
        raise Failed(REQUEST_FAILED, "there is no name here to rename")
    fault = name_fault(new_name)
    if fault is not None:
        raise Failed(REQUEST_FAILED, fault)
    is_other = new_name.upper() != token.upper
    if is_other and next(uses(document, new_name.upper()), None) is not None:
        raise Failed(REQUEST_FAILED, f"{new_name.upper()} is already used in the source")
    places = [(at, use, written(document, at, use, new_name)) for at, use in uses(document, token.upper)]
    lines = document.lines
    for at, use, text in reversed(places):
        lines[at] = lines[at][: use.start] + text + lines[at][use.end :]
    check_same(document, lines, open_bench)
    check_properties(document, lines)
    edits = [{"range": location(document, at, use)["range"], "newText": text} for at, use, text in places]
    return {"changes": {document.uri: edits}}


def written(document: Document, number: int, use: Token, new_name: str) -> str:
    """A new name, written for a use of the old one: in a property, a name spelled as a word of properties needs parentheses."""
    if new_name.upper() not in PROPERTY_WORDS:
        return new_name
    return f"({new_name})" if (use, False) in document.read(number).stated_names() else new_name


def check_properties(document: Document, lines: list[str]) -> None:
    """Refuses a change of the lines that would change the properties."""
    if not any(document.read(number).stated for number in range(document.line_count)):
        return
    program = document.bench().program
    before, after = (
        [(fault.line, fault.code) for fault in check(join_lines(map(to_bytes, source)), program) if fault.code.startswith("P")]
        for source in (document.lines, lines)
    )
    if before != after:
        raise Failed(REQUEST_FAILED, "the change isn't made, because the source would have other properties")


def outcome(bench: Bench) -> tuple[bytes, ...]:
    """The results of assembling a source: its image or `no Q1`, its faults, and its names' values and lines in order."""
    image, faults, symbols = bench.exchange([b"image", b"faults", b"syms"])
    values = b"\n".join(row.split(b" ", 1)[1] for row in symbols.split(b"\n")[:-2])
    return image, faults, values


def check_same(document: Document, lines: list[str], open_bench: OpenBench) -> None:
    """Assembles the changed lines, and refuses the change if the image, the faults or the values differ."""
    source = [to_bytes(line) for line in lines]
    if over_limits(source):
        raise Failed(REQUEST_FAILED, "the change isn't made, because a line would have over 200 bytes")
    try:
        before = outcome(document.bench())
        with open_bench(join_lines(source)) as bench:
            after = outcome(bench)
    except OverLimits as over:
        raise Failed(REQUEST_FAILED, str(over)) from None
    except Refused as refused:
        raise Failed(REQUEST_FAILED, f"the changed source is refused: {refused}") from None
    if before != after:
        raise Failed(REQUEST_FAILED, "the change isn't made, because the source would assemble to other code")


def workspace_symbols(documents: Iterable[Document], query: str) -> list[dict[str, Any]]:
    """The names of the open documents that have some letters in them."""
    found: list[dict[str, Any]] = []
    for document in documents:
        for number, text in document.numbered():
            line = read_line(text)
            if line.defined is not None and query.upper() in line.defined.upper:
                kind = FUNCTION if line.form == "label" else CONSTANT
                found.append({"name": line.defined.text, "kind": kind, "location": location(document, number, line.defined)})
    return found[:MOST_SYMBOLS]


@functools.lru_cache(maxsize=20_000)
def symbol(text: str, unit: str) -> str:
    """The name that a line defines as JSON, with %d in the place of the line's number; empty where it defines none."""
    line = read_line(text)
    if line.defined is None:
        return ""
    is_label = line.form == "label"
    columns = Columns(unit)
    made = {
        "name": escaped(line.defined.text),
        "kind": FUNCTION if is_label else CONSTANT,
        "detail": escaped("" if is_label else text[line.defined.end : line.code_end].strip(": \t")),
        "range": columns.range_text(text, 0, len(text)),
        "selectionRange": columns.range_text(text, line.defined.start, line.defined.end),
    }
    return "{" + ",".join(f'"{name}":{part}' for name, part in made.items()) + "}"


def symbols(document: Document) -> Encoded:
    """The names that the lines define."""
    rows = ((number, symbol(text, document.columns.unit)) for number, text in document.numbered())
    return Encoded(text % (number, number, number, number) for number, text in rows if text)
