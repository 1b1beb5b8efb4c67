"""Fixes for a faulty line. Each is tried on the session first: one that leaves a fault on its line isn't offered."""

from __future__ import annotations

import difflib
import re
from collections.abc import Iterable, Iterator
from typing import Any

from chipbench import Bench, ChipbenchError, Fault, check, join_lines, to_bytes

from .diagnostics import Places
from .document import LINE_BYTES, Document, OverLimits
from .language import Line, Token
from .positions import byte_to_place
from .tables import DIRECTIVES, MNEMONICS, RESERVED

CLOSE = 0.6
MOST_CLOSE = 3
C_NUMBER = re.compile(r"0[xX]([0-9A-Fa-f]+)")
# sentences in the help below a fault
WRITTEN = re.compile(r"is written ([A-Z]+) here$")
BEGINS = re.compile(r"number begins with `.`: (\S+)$")
AS_IN = re.compile(r"as in (LD [^`]*)$")
FULL_STOP = "without the full stop"
NUMBER_AT = re.compile(r"[$%#&@]*[0-9A-Za-z_.]+")
SUFFIXED_NUMBER = re.compile(r"([0-9][0-9A-Fa-f]*)[hH]")

Fix = tuple[str, str]


def replaced(line: Line, token: Token, text: str) -> str:
    return line.text[: token.start] + text + line.text[token.end :]


def close_words(word: str, known: Iterable[str]) -> list[str]:
    """The known words that are close to a word, the closest first; in lower case where the word is."""
    found = difflib.get_close_matches(word.upper(), list(known), MOST_CLOSE, CLOSE)
    return [other.lower() for other in found] if word == word.lower() else found


def of_help(line: Line, fault: Fault) -> Iterator[Fix]:
    """The fixes that the help below a fault suggests.

    >>> from .language import read_line
    >>> fault = Fault(1, "F1", start=7, end=10, help="help: a hexadecimal number begins with `#`: #F0")
    >>> list(of_help(read_line("LD V0, $F0"), fault))
    [('Write #F0', 'LD V0, #F0')]
    """
    content = to_bytes(line.text)
    start = byte_to_place(line.text, content, fault.start or 0)
    for text in fault.help.split("\n"):
        word, number, whole = (form.search(text) for form in (WRITTEN, BEGINS, AS_IN))
        if word is not None:
            end = byte_to_place(line.text, content, fault.end or 0)
            written = word[1].lower() if line.text[start:end].islower() else word[1]
            yield f"Write {written}", line.text[:start] + written + line.text[end:]
        elif number is not None:
            found = NUMBER_AT.match(line.text, start)
            if found is not None:
                yield f"Write {number[1]}", line.text[:start] + number[1] + line.text[found.end() :]
        elif FULL_STOP in text and line.text[start : start + 1] == ".":
            yield "Remove the full stop", line.text[:start] + line.text[start + 1 :]
        elif whole is not None:
            yield f"Write {whole[1]}", line.text[:start] + whole[1] + line.text[line.code_end :]


def candidates(line: Line, names: Iterable[str], fault: Fault | None = None) -> Iterator[Fix]:
    """The fixes that the author may mean, with those that the help below a fault suggests.

    >>> from .language import read_line
    >>> [fix for _, fix in candidates(read_line("LD V0, 0x1f"), [])]
    ['LD V0, #1f']
    >>> [fix for _, fix in candidates(read_line("loop"), [])][0]
    'loop:'
    """
    yield from numbers(line)
    if fault is not None:
        yield from of_help(line, fault)
    yield from signs(line)
    yield from commas(line)
    yield from words(line, names)


def numbers(line: Line) -> Iterator[Fix]:
    """Hexadecimal numbers as C and other assemblers write them."""
    for token in line.tokens:
        found = C_NUMBER.fullmatch(token.text) or SUFFIXED_NUMBER.fullmatch(token.text)
        if found is not None:
            text = f"#{found[1]}"
            yield f"Write {text}", replaced(line, token, text)


def signs(line: Line) -> Iterator[Fix]:
    """Comments and shifts as C writes them, and a quote that is missing."""
    for token, following in zip(line.tokens, line.tokens[1:]):
        if token.end == following.start and token.text == following.text and token.text in "/<>":
            text = ";" if token.text == "/" else token.text
            yield f"Write {text}", line.text[: token.start] + text + line.text[following.end :]
            break
    last = line.tokens[-1] if line.tokens else None
    if last is not None and last.kind == "bad" and last.text[0] in "'\"":
        yield f"Close the text with {last.text[0]}", line.text.rstrip() + last.text[0]


def commas(line: Line) -> Iterator[Fix]:
    """Commas between operands that blanks part: each alone, and then all."""
    places = [
        one.end for one, other in zip(line.operands, line.operands[1:])
        if one.end < other.start and (one.kind != "sign" or one.text in "])") and (other.kind != "sign" or other.text in "[(")
    ]
    for chosen in [*([place] for place in places), places]:
        text = line.text
        for place in reversed(chosen):
            text = f"{text[:place]},{text[place:]}"
        if chosen:
            yield "Put a comma" if len(chosen) == 1 else "Put commas", text


def words(line: Line, names: Iterable[str]) -> Iterator[Fix]:
    """A label without its colon, and misspelled words."""
    head = line.head
    if head is not None and head.kind == "word" and head.upper not in RESERVED:
        if line.form == "plain":
            yield f"Make {head.text} a label", replaced(line, head, f"{head.text}:")
        for word in close_words(head.text, sorted(MNEMONICS | set(DIRECTIVES))):
            yield f"Write {word}", replaced(line, head, word)
    known = list(names)
    for token in line.names():
        if token != line.defined and token.upper not in known:
            for word in close_words(token.text, known):
                yield f"Write {word}", replaced(line, token, word)


def fixes_line(bench: Bench, number: int, text: str) -> bool:
    """Whether a line of another text would have no fault. The session has the old line afterwards."""
    content = to_bytes(text)
    if len(content) > LINE_BYTES or b"\r" in content:
        return False
    old = bench.lines[number]
    made, faults, _ = bench.exchange([b"rep %d %s" % (number + 1, content), b"faults", b"rep %d %s" % (number + 1, old)])
    return made == b"ok\n" and not any(row.startswith(b"%d " % (number + 1)) for row in faults.split(b"\n"))


def fault_of(document: Document, places: Places, bench: Bench, number: int) -> Fault | None:
    """The fault of a line with its place and help. If `check` hasn't given these yet, it is run."""
    code = next(code for line, code in document.faults if line == number)
    known = places.of(document.line(number), code)
    if known is None:
        places.learn(document.lines, check(join_lines(document.source), bench.program))
        known = places.of(document.line(number), code)
    return known


def fixes(document: Document, places: Places, number: int) -> list[dict[str, Any]]:
    """The fixes of a line, as actions of the editor; the first one is the preferred one."""
    try:
        if all(line != number for line, _ in document.faults):
            return []
        bench, names = document.bench(), list(document.symbols)
        known = fault_of(document, places, bench, number)
    except (OverLimits, ChipbenchError):
        return []
    line = document.read(number)
    if "\r" in line.text:
        return []
    found: list[dict[str, Any]] = []
    titles: dict[str, str] = {}
    for title, text in candidates(line, names, known):
        titles.setdefault(text, title)
    for text, title in titles.items():
        if fixes_line(bench, number, text):
            edit = {"range": document.columns.range(number, line.text, 0, len(line.text)), "newText": text}
            found.append({
                "title": title, "kind": "quickfix", "isPreferred": not found, "edit": {"changes": {document.uri: [edit]}},
            })
    return found
