"""A document of the editor, and the session of the program that follows it."""

from __future__ import annotations

from collections.abc import Callable, Iterator
from typing import Any

from chipbench import Bench, ChipbenchError, ListingLine, Symbol, join_lines, read_listing_line, to_bytes

# modules of the server take the limits from here too
from chipbench_lines import LINE_BYTES as LINE_BYTES
from chipbench_lines import MOST_LINES, line_edits
from chipbench_lines import over_limits as over_limits
from chipbench_lines import same_ends as same_ends

from .language import Line, read_line
from .positions import Columns

# More edits than this are slower than a restart of the session.
MOST_EDITS = 500

OpenBench = Callable[[bytes], Bench]


class OverLimits(Exception):
    """The document can't be a source: the lines that pass a limit, each with a code and a sentence. Lines are counted from 0."""

    def __init__(self, lines: list[tuple[int, str, str]]) -> None:
        super().__init__("the document is over the limits of a source")
        self.lines = lines


def ended(line: str) -> bytes:
    """The bytes of a line that an LF ends: without the CR before that."""
    return to_bytes(line[:-1] if line.endswith("\r") else line)


class Session:
    """One `chipbench debug` that follows the lines of a document."""

    def __init__(self, open_bench: OpenBench) -> None:
        self._open = open_bench
        self._bench: Bench | None = None
        self.starts = 0

    def follow(self, lines: list[bytes]) -> Bench:
        """The session on these lines. It is restarted if it can't be edited, or if the program has ended."""
        if self._bench is not None and self._edit(self._bench, lines):
            return self._bench
        self.close()
        self.starts += 1
        self._bench = self._open(join_lines(lines))
        return self._bench

    @staticmethod
    def _edit(bench: Bench, lines: list[bytes]) -> bool:
        edits = line_edits(bench.lines, lines)
        # a command can't hold a CR
        if len(edits) > MOST_EDITS or any(b"\r" in edit for edit in edits):
            return False
        try:
            answers = bench.exchange(edits)
        except ChipbenchError:
            return False
        return all(answer == b"ok\n" for answer in answers) and bench.process_id is not None

    def close(self) -> None:
        if self._bench is not None:
            self._bench.close()
            self._bench = None


class Document:
    """The text of a document as lines without their LF, the program's answers about it, and positions in it."""

    def __init__(self, uri: str, version: int | None, text: str, columns: Columns, open_bench: OpenBench) -> None:
        self.uri = uri
        self.version = version
        self.columns = columns
        self.session = Session(open_bench)
        self.edition = 0
        self._lines: list[str] = []
        # the bytes of each line without its end, as if an LF ended it
        self._encoded: list[bytes] = []
        self._known: dict[str, tuple[int, Any]] = {}
        self.set_text(text)

    # -- the text

    def set_text(self, text: str) -> None:
        self._lines = text.split("\n")
        self._encoded = list(map(ended, self._lines))
        self.edition += 1

    @property
    def text(self) -> str:
        return "\n".join(self._lines)

    @property
    def line_count(self) -> int:
        """The lines that a client sees, the empty one after the last LF among them."""
        return len(self._lines)

    def line(self, number: int) -> str:
        """A line without its end, counted from 0; empty past the last line."""
        if not 0 <= number < len(self._lines):
            return ""
        line = self._lines[number]
        is_ended = number + 1 < len(self._lines)
        return line[:-1] if is_ended and line.endswith("\r") else line

    def numbered(self) -> Iterator[tuple[int, str]]:
        """The lines without their ends, each with its number."""
        last = len(self._lines) - 1
        for number, line in enumerate(self._lines):
            yield number, line[:-1] if number < last and line.endswith("\r") else line

    def end_of_line(self, number: int) -> str:
        return "\r\n" if self._lines[number].endswith("\r") else "\n"

    def read(self, number: int) -> Line:
        return read_line(self.line(number))

    @property
    def lines(self) -> list[str]:
        """The lines of the source: without the empty one after the last LF."""
        lines = [line[:-1] if line.endswith("\r") else line for line in self._lines[:-1]]
        return lines + self._lines[-1:] if self._lines[-1] else lines

    @property
    def source(self) -> list[bytes]:
        """The lines of the source as bytes."""
        last = self._lines[-1]
        return [*self._encoded[:-1], to_bytes(last)] if last else self._encoded[:-1]

    def change(self, changes: list[dict[str, Any]]) -> None:
        """Makes changes in their order: all or none of them."""
        before = list(self._lines), list(self._encoded)
        try:
            for change in changes:
                self._change(change)
        except Exception:
            self._lines, self._encoded = before
            raise

    def _change(self, change: dict[str, Any]) -> None:
        """Makes one change of the protocol: of a range, or of the whole text."""
        text = change["text"]
        if not isinstance(text, str):
            raise TypeError("the text of a change is missing")
        if change.get("range") is None:
            self.set_text(text)
            return
        first, start = self._place(change["range"]["start"])
        last, end = self._place(change["range"]["end"])
        if (last, end) < (first, start):
            first, start, last, end = last, end, first, start
        made = (self._lines[first][:start] + text + self._lines[last][end:]).split("\n")
        self._lines[first : last + 1] = made
        self._encoded[first : last + 1] = map(ended, made)
        self.edition += 1

    def _place(self, position: dict[str, int]) -> tuple[int, int]:
        """The line of a position, and the place in it. One past the end of a line is before its CR."""
        number, column = position["line"], position["character"]
        if number < 0 or column < 0:
            raise ValueError("a position is negative")
        if number >= len(self._lines):
            return len(self._lines) - 1, len(self._lines[-1])
        line = self._lines[number]
        place = self.columns.index(line, column)
        if place == len(line) and column > self.columns.width(line):
            place = len(self.line(number))
        return number, place

    def place(self, position: Any) -> tuple[int, int]:
        """The line and the place in it of a request's position."""
        number, place = self._place(position)
        return number, min(place, len(self.line(number)))

    # -- answers of the program

    def bench(self) -> Bench:
        """The session on the current text. Raises `OverLimits` if the text can't be a source."""
        if self.line_count > MOST_LINES + 1:
            raise OverLimits([(MOST_LINES, "O2", f"the source has over {MOST_LINES} lines")])
        source = self.source
        passed = over_limits(source)
        if passed:
            raise OverLimits(passed)
        return self.session.follow(source)

    def _answer(self, name: str, ask: Callable[[Bench], Any]) -> Any:
        """The program's answer about the current text. The program is asked only once."""
        edition, answer = self._known.get(name, (-1, None))
        if edition != self.edition:
            answer = ask(self.bench())
            self._known[name] = self.edition, answer
        return answer

    @property
    def symbols(self) -> dict[str, Symbol]:
        found: dict[str, Symbol] = self._answer("syms", lambda bench: bench.symbols)
        return found

    def listing(self, number: int) -> ListingLine | None:
        """The listing's line of a line of the document."""
        rows: list[bytes] = self._answer("list", lambda bench: bench.exchange([b"list"])[0].split(b"\n")[:-2])
        return read_listing_line(rows[number]) if 0 <= number < len(rows) else None

    @property
    def faults(self) -> list[tuple[int, str]]:
        """The lines with a fault, counted from 0, with its code."""
        rows: bytes = self._answer("faults", lambda bench: bench.exchange([b"faults"])[0])
        pairs = (row.split() for row in rows.decode("ascii").split("\n")[:-2])
        return [(int(number) - 1, code) for number, code in pairs]

    def code_of(self, number: int) -> bytes:
        """The bytes of a line: all where there is an image, else the first six."""
        row = self.listing(number)
        if row is None or row.address is None or not row.more:
            return row.code if row is not None else b""
        image: str = self._answer("image", lambda bench: bench.exchange([b"image"])[0].decode("ascii").strip())
        following = self.listing(number + 1)
        if image.startswith("no ") or (following is not None and following.address is None):
            return row.code
        content = bytes.fromhex(image)
        end = following.address - 512 if following is not None and following.address else len(content)
        return content[row.address - 512 : end]

    def close(self) -> None:
        self.session.close()
