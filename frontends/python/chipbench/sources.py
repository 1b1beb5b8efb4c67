"""Sources: their lines, faults, names and listing; and the source of an image."""

from __future__ import annotations

import json
import re
from collections.abc import Iterable
from dataclasses import dataclass
from typing import Any, NamedTuple

from .arguments import option_texts, source_text
from .errors import ChipbenchError, Ended
from .program import UNOPENED, find_program, refusal, run_once


def to_bytes(text: str | bytes) -> bytes:
    """The bytes of a text in UTF-8. Bytes that `to_text` couldn't decode come back unchanged."""
    if isinstance(text, bytes):
        return text
    try:
        return text.encode("utf-8", "surrogateescape")
    except UnicodeEncodeError:
        return text.encode("utf-8", "surrogatepass")


def to_text(content: bytes) -> str:
    """The text of bytes in UTF-8. A byte that isn't UTF-8 becomes a lone surrogate, so that nothing is lost."""
    return content.decode("utf-8", "surrogateescape")


def split_lines(source: bytes) -> list[bytes]:
    """The lines of a source, as the language has them: a line ends at LF, and one CR before it is dropped.

    >>> split_lines(b"CLS\\r\\nRET")
    [b'CLS', b'RET']
    """
    lines = source.split(b"\n")
    last = lines.pop()
    lines = [line[:-1] if line.endswith(b"\r") else line for line in lines]
    return lines + [last] if last else lines


def join_lines(lines: Iterable[bytes]) -> bytes:
    """A source that has these lines. A CR at a line's end gets a second one, because reading drops one."""
    return b"".join(line + (b"\r\n" if line.endswith(b"\r") else b"\n") for line in lines)


@dataclass(frozen=True)
class Fault:
    """A fault of a line, or a warning. The code of a warning begins with W, or with P if a property can't be read. `start` and
    `end` are byte positions in the line. Only `check` reports these and warnings."""

    line: int
    code: str
    sentence: str = ""
    start: int | None = None
    end: int | None = None
    help: str = ""

    @property
    def is_warning(self) -> bool:
        return self.code.startswith(("W", "P"))

    def __str__(self) -> str:
        return f"line {self.line}: {self.code}" + (f": {self.sentence}" if self.sentence else "")


class Symbol(NamedTuple):
    """A name of the source: its value, and the line that defines it."""

    value: int
    line: int


@dataclass(frozen=True)
class ListingLine:
    """A line of the listing. `address` is None for a line that isn't active. `value` is None except for EQU, `=` and
    DEFINE. `code` has at most six bytes; `more` says that there are more."""

    number: int
    address: int | None
    code: bytes
    more: bool
    value: int | None
    fault: str | None
    text: str


class Word(NamedTuple):
    """A word of the memory, and its text in a source."""

    address: int
    word: int
    text: str


LISTING_LINE = re.compile(rb" *([0-9]+) ([0-9a-f]{4}|----) (.{12})([+ ]) (.*)", re.DOTALL)


def read_listing_line(line: bytes) -> ListingLine:
    found = LISTING_LINE.fullmatch(line)
    if found is None:
        raise ChipbenchError(f"not a line of a listing: {line!r}")
    number, address, shown, more, text = found.groups()
    shown = shown.rstrip()
    is_fault, is_value = shown.startswith(b"F"), shown.startswith(b"=")
    return ListingLine(
        int(number),
        None if address == b"----" else int(address, 16),
        b"" if is_fault or is_value else bytes.fromhex(shown.decode()),
        more == b"+",
        int(shown[1:]) if is_value else None,
        shown.decode() if is_fault else None,
        to_text(text),
    )


def check(
    source: str | bytes,
    program: str | None = None,
    profile: str | None = None,
    quirks: str | None = None,
    tape: bytes | None = None,
    seed: int | str | None = None,
) -> list[Fault]:
    """The faults of a source with their places, and then its warnings, by the program's `check`. The warnings depend on the
    profile, the quirks, and whether RND has a tape, or a seed that makes one.

    >>> [(fault.line, fault.code, fault.start, fault.end) for fault in check("LD V0, COLUMN")]
    [(1, 'F9', 7, 13)]
    """
    content, program = to_bytes(source_text(source)), program or find_program()
    # settings of editors have an empty text or no bytes for an option that isn't set
    given = {"profile": profile, "quirks": quirks, "tape": tape or None, "seed": None if seed == "" else seed}
    options = [f"--{name}={value}" for name, value in option_texts(given).items() if value]
    status, output, errors = run_once([program, "check", "--json", *options, "-"], content)
    if status not in (0, 1):
        raise Ended(status, errors.strip(), [])
    found = read_check(output)
    if found and found[0].code in UNOPENED:
        raise refusal(program, found[0].code)
    return found


def read_check(output: bytes) -> list[Fault]:
    """The faults and warnings that `check --json` prints, an object on each line."""
    return [read_object(json.loads(line)) for line in output.decode().split("\n")[:-1]]


def read_object(found: dict[str, Any]) -> Fault:
    help_lines = [text if text.startswith("note: ") else f"help: {text}" for text in found["help"]]
    start, end = found["column"] - 1, found["end"] - 1
    return Fault(found["line"], found["code"], found["message"], start, end, "\n".join(help_lines))


def disassemble(image: bytes, program: str | None = None) -> str:
    """A source whose image is the given one, by the program's `dis`.

    >>> disassemble(bytes.fromhex("00e01200")).split()
    ['CLS', 'JP', '#200']
    """
    status, output, errors = run_once([program or find_program(), "dis", "-"], image)
    if status != 0:
        raise Ended(status, errors.strip() or to_text(output).strip(), [])
    return to_text(output)
