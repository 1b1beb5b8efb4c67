"""Reads the text of a test: its lines, and the blocks in it."""
import pathlib
import re
from dataclasses import dataclass

TOP = pathlib.Path(__file__).resolve().parent.parent.parent

_REPEATED = re.compile(r"\{([^{}*]+)\*([0-9]+)\}")
_PIECE = re.compile(r'\s*(?:([0-9]+)\s*\*|"((?:[^"\\]|\\.)*)"|([()]))')
_ESCAPE = re.compile(r"\\(?:x([0-9a-fA-F]{2})|(.))")
_ESCAPED = {"n": "\n", "r": "\r", "t": "\t", "0": "\0", '"': '"', "\\": "\\"}


class Malformed(Exception):
    """A line of a test that can't be read."""

    def __init__(self, file, line, text):
        super().__init__(f"{file}:{line}: {text}")


@dataclass(frozen=True)
class Line:
    """A line of a test, with its number."""

    number: int
    text: str

    @property
    def word(self):
        """Its first word."""
        return self.text.split(" ", 1)[0]

    @property
    def rest(self):
        """What follows its first word."""
        return self.text.partition(" ")[2].strip()


class Text:
    """The lines of a test that are still to be read."""

    def __init__(self, path):
        self.path = path
        self.file = path.relative_to(TOP) if path.is_relative_to(TOP) else path
        lines = path.read_text(encoding="utf-8").split("\n")
        if lines[-1] == "":
            lines.pop()
        self._lines = [Line(number, text) for number, text in enumerate(lines, 1)]
        self._next = 0

    def take(self):
        """The next line, or None after the last one."""
        if self._next == len(self._lines):
            return None
        self._next += 1
        return self._lines[self._next - 1]

    def take_block(self, begun):
        """The texts of the lines up to `end`."""
        texts = []
        while True:
            line = self.take()
            if line is None:
                raise self.malformed(begun.number, "no `end` follows")
            if line.text == "end":
                return texts
            texts.append(line.text)

    def malformed(self, number, text):
        return Malformed(self.file, number, text)


def _unescaped(text):
    def meant(found):
        if found.group(1):
            return chr(int(found.group(1), 16))
        return _ESCAPED[found.group(2)]

    return _ESCAPE.sub(meant, text).encode("latin-1")


def _tokens(text):
    """The counts, texts and parentheses of a text of pieces."""
    at = 0
    while text[at:].strip():
        found = _PIECE.match(text, at)
        if not found:
            raise ValueError(f"neither a quoted text, a count nor a parenthesis: {text[at:].strip()}")
        yield found.groups()
        at = found.end()


def _group(tokens):
    """The bytes of pieces up to a parenthesis, each repeated as often as the count before it says."""
    made, times = [], 1
    for count, quoted, parenthesis in tokens:
        if count:
            times = int(count)
            continue
        if parenthesis == ")":
            break
        made.append((_group(tokens) if parenthesis else _unescaped(quoted)) * times)
        times = 1
    return b"".join(made)


def bytes_of(texts, form):
    """The bytes of a block in that form: lines, hexadecimal digits, or quoted pieces."""
    if form == "hex":
        return bytes.fromhex("".join(texts))
    if form == "bytes":
        return _group(_tokens("\n".join(texts)))
    return "".join(text + "\n" for text in texts).encode()


def expanded(text):
    """The text with `{TEXT*N}` repeated."""
    return _REPEATED.sub(lambda found: found.group(1) * int(found.group(2)), text)
