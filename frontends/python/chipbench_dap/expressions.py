"""Sums and conditions like those of properties (docs/LANGUAGE.md), evaluated at a step of the run.

Both sides of a comparison are evaluated at each step. Unlike in a property, a sum may have `-` and products of any two values,
`==` means `=`, ST, DRAWS and STEP have values, and parentheses and brackets may hold anything that has a value.
"""

from __future__ import annotations

import operator
import re
from collections.abc import Callable, Collection, Mapping
from dataclasses import dataclass
from typing import Protocol

from chipbench import Symbol, to_bytes
from chipbench_lsp.language import read_number
from chipbench_shell.values import Mistake, near

LAST_ADDRESS = 4095
MOST_SHIFT = 31
#: The most parentheses inside each other, as in a property.
MOST_DEPTH = 16
#: The most characters of a text that is read.
LONGEST = 500
REGISTERS = (*(f"V{digit:X}" for digit in range(16)), "I", "PC", "DT", "ST")
ITEMS = (*REGISTERS, "DEPTH", "HIGH", "KEYS", "DRAWS", "STEP")
TOKEN = re.compile(
    r"""\s*(?:
      (?P<range>\.\.)
    | (?P<relation>==|!=|<>|<=|>=|=|<|>)
    | (?P<number>0[xX][0-9A-Fa-f]+\b|[0-9]+\b|\#[0-9A-Fa-f]+\b|@[0-7]+\b|\$[01.]+\b)
    | (?P<word>[A-Za-z_][A-Za-z0-9_]*)
    | (?P<text>'[^']*'|"[^"]*")
    | (?P<sign>[-+*/&|^~\\()\[\],])
    )\s*""",
    re.VERBOSE,
)
COMPARED: dict[str, Callable[[int, int], bool]] = {
    "=": operator.eq, "==": operator.eq, "!=": operator.ne, "<>": operator.ne,
    "<": operator.lt, "<=": operator.le, ">": operator.gt, ">=": operator.ge,
}
#: The operators inside parentheses, the weakest level first. docs/LANGUAGE.md lists them the other way around.
LEVELS = (("^", "\\"), ("|",), ("&",), ("+", "-"), ("*", "/"), ("<", ">"))


class NoValue(Exception):
    """An item has no value at this step, such as a byte past the memory. A comparison with it is false."""


class View(Protocol):
    """The machine at a step, as an expression looks at it."""

    def item(self, name: str) -> int:
        """The value of one of `ITEMS`."""

    def byte(self, address: int) -> int:
        """The byte of the memory at an address, 0 to 4095."""

    def pixel(self, column: int, row: int) -> int:
        """1 if a pixel is lit. Raises `NoValue` outside the screen."""


Value = Callable[[View], int]
Test = Callable[[View], bool]


@dataclass(frozen=True)
class Condition:
    """A condition: its text, and the test of it at a step."""

    text: str
    holds: Test


@dataclass(frozen=True)
class Subject:
    """The subject of a data breakpoint. `read` gives a value that is compared with that of the step before."""

    text: str
    digits: int
    read: Callable[[View], tuple[int, ...]]

    def shown(self, values: tuple[int, ...]) -> str:
        return " ".join(f"{value:0{self.digits}x}" for value in values)


def divided(left: int, right: int) -> int:
    """A quotient, rounded towards zero."""
    if right == 0:
        raise NoValue
    size = abs(left) // abs(right)
    return size if (left < 0) == (right < 0) else -size


def shifted(left: int, right: int) -> int:
    if not 0 <= right <= MOST_SHIFT:
        raise NoValue
    return left << right


def shifted_down(left: int, right: int) -> int:
    if not 0 <= right <= MOST_SHIFT:
        raise NoValue
    return left >> right


OPERATIONS: dict[str, Callable[[int, int], int]] = {
    "+": operator.add, "-": operator.sub, "*": operator.mul, "/": divided, "&": operator.and_, "|": operator.or_,
    "^": operator.xor, "\\": operator.xor, "<": shifted, ">": shifted_down,
}


def joined(operation: Callable[[int, int], int], left: Value, right: Value) -> Value:
    return lambda view: operation(left(view), right(view))


def byte_at(address: Value) -> Value:
    def read(view: View) -> int:
        place = address(view)
        if not 0 <= place <= LAST_ADDRESS:
            raise NoValue
        return view.byte(place)

    return read


def compared(sign: str, left: Value, right: Value) -> Test:
    compare = COMPARED[sign]

    def holds(view: View) -> bool:
        try:
            return compare(left(view), right(view))
        except NoValue:
            return False

    return holds


class Reader:
    """Reads one text, by the names of a source."""

    def __init__(self, text: str, symbols: Mapping[str, Symbol]) -> None:
        if len(text) > LONGEST:
            raise Mistake(f"'{text.strip()[:40]}..' is longer than {LONGEST} characters")
        self._text = text
        self._symbols = symbols
        self._tokens = self._scan(text)
        self._place = 0
        self._depth = 0

    @staticmethod
    def _scan(text: str) -> list[tuple[str, str]]:
        tokens, place = [], 0
        while place < len(text):
            found = TOKEN.match(text, place)
            if found is None:
                if not text[place:].strip():
                    break
                raise Mistake(f"'{text.strip()}': {text[place:].strip()[0]!r} isn't expected there")
            kind = found.lastgroup or "sign"
            tokens.append((kind, found[kind]))
            place = found.end()
        return tokens

    # -- tokens

    def _peek(self) -> tuple[str, str]:
        return self._tokens[self._place] if self._place < len(self._tokens) else ("end", "")

    def _next(self) -> tuple[str, str]:
        token = self._peek()
        self._place += 1
        return token

    def _takes(self, *texts: str) -> str | None:
        """Takes the next token if it is one of these, and returns it in upper case."""
        kind, text = self._peek()
        if kind == "end" or text.upper() not in texts:
            return None
        self._place += 1
        return text.upper()

    def _need(self, text: str) -> None:
        if self._takes(text) is None:
            raise Mistake(f"'{self._text.strip()}': expected {text}, found {self._peek()[1] or 'the end'}")

    def end(self) -> None:
        """Refuses any tokens that are left."""
        kind, text = self._peek()
        if kind != "end":
            raise Mistake(f"'{self._text.strip()}': {text!r} isn't expected there")

    # -- conditions and sums

    def condition(self) -> Test | None:
        """Comparisons with `and`, or with `or`, between them. None if the text is a sum, and then no token is taken."""
        start = self._place
        left = self.sum()
        if self._peek()[0] != "relation":
            self._place = start
            return None
        tests = [self._comparison(left)]
        word = self._takes("AND", "OR")
        if word is None:
            return tests[0]
        tests.append(self._comparison(self.sum()))
        while (other := self._takes("AND", "OR")) is not None:
            if other != word:
                raise Mistake(f"'{self._text.strip()}': `and` and `or` can't be mixed: use one of them")
            tests.append(self._comparison(self.sum()))
        if word == "AND":
            return lambda view: all(test(view) for test in tests)
        return lambda view: any(test(view) for test in tests)

    def _comparison(self, left: Value) -> Test:
        kind, sign = self._next()
        if kind != "relation":
            raise Mistake(f"'{self._text.strip()}': expected a comparison, such as V3 = 5")
        return compared(sign, left, self.sum())

    def sum(self) -> Value:
        value = self._term()
        while (sign := self._takes("+", "-")) is not None:
            value = joined(OPERATIONS[sign], value, self._term())
        return value

    def _term(self) -> Value:
        value = self._factor(is_inside=False)
        while self._takes("*"):
            value = joined(operator.mul, value, self._factor(is_inside=False))
        return value

    def _inside(self, level: int = 0) -> Value:
        """An expression of the language, between parentheses or brackets."""
        if level == len(LEVELS):
            return self._prefixed()
        value = self._inside(level + 1)
        while (sign := self._takes(*LEVELS[level])) is not None:
            value = joined(OPERATIONS[sign], value, self._inside(level + 1))
        return value

    def _prefixed(self) -> Value:
        signs = []
        while (sign := self._takes("+", "-", "~")) is not None:
            signs.append(sign)
        inner, kinds = self._factor(is_inside=True), "".join(reversed(signs)).replace("+", "")
        if not kinds:
            return inner

        def value(view: View) -> int:
            number = inner(view)
            for kind in kinds:
                number = -number if kind == "-" else ~number
            return number

        return value

    def _factor(self, is_inside: bool) -> Value:
        kind, text = self._next()
        if kind == "number":
            number = int(text, 16) if text[:2] in ("0x", "0X") else read_number(text)
            return self._constant(number or 0)
        if kind == "text" and len(to_bytes(text[1:-1])) == 1:
            return self._constant(to_bytes(text[1:-1])[0])
        if kind == "word":
            return self._word(text, is_inside)
        if text in ("(", "["):
            value = self._nested()
            self._need(")" if text == "(" else "]")
            return value if text == "(" else byte_at(value)
        raise Mistake(f"'{self._text.strip()}': expected a number, a name or a register, found {text or 'the end'}")

    def _nested(self) -> Value:
        self._depth += 1
        if self._depth > MOST_DEPTH:
            raise Mistake(f"'{self._text.strip()[:40]}': more than {MOST_DEPTH} parentheses or brackets are open")
        value = self._inside()
        self._depth -= 1
        return value

    @staticmethod
    def _constant(number: int) -> Value:
        return lambda view: number

    def _word(self, text: str, is_inside: bool) -> Value:
        """A word of properties keeps its meaning, except that between parentheses and brackets a name of the source comes first."""
        name = text.upper()
        symbol = self._symbols.get(name)
        if name == "PIXEL" and self._peek()[1] == "(":
            return self._pixel()
        if name in ITEMS and not (is_inside and symbol is not None):
            return lambda view: view.item(name)
        if symbol is None:
            raise Mistake(f"no name {text} in the source{near(name, [*self._symbols, *ITEMS])}")
        return self._constant(symbol.value)

    def _pixel(self) -> Value:
        self._need("(")
        column = self._nested()
        self._need(",")
        row = self._nested()
        self._need(")")
        return lambda view: view.pixel(column(view), row(view))

    # -- subjects

    def subject(self) -> Subject:
        """The subject of a data breakpoint: a range of bytes `[A .. B]`, or anything that has a value."""
        plain = self._text.strip()
        if self._takes("["):
            first = self._nested()
            if self._takes(".."):
                last = self._nested()
                self._need("]")
                return Subject(plain, 2, bytes_of(first, last))
            self._place = 0
        value = self.sum()
        return Subject(plain, 4 if plain.upper() in ("I", "PC") else 2, lambda view: (value_or_none(value, view),))


def value_or_none(value: Value, view: View) -> int:
    """A value, or -1 if there is none."""
    try:
        return value(view)
    except NoValue:
        return -1


def bytes_of(first: Value, last: Value) -> Callable[[View], tuple[int, ...]]:
    def read(view: View) -> tuple[int, ...]:
        start, end = value_or_none(first, view), value_or_none(last, view)
        if not 0 <= start <= end <= LAST_ADDRESS:
            return ()
        return tuple(view.byte(address) for address in range(start, end + 1))

    return read


def read_condition(text: str, symbols: Mapping[str, Symbol]) -> Condition:
    """A condition such as `V3 = 5 and [SCORE] > V0`. A sum alone holds if it isn't 0."""
    reader = Reader(text, symbols)
    test = reader.condition()
    if test is not None:
        reader.end()
        return Condition(text, test)
    value = reader.sum()
    reader.end()
    return Condition(text, lambda view: value_or_none(value, view) not in (0, -1))


def read_sum(text: str, symbols: Mapping[str, Symbol]) -> Value:
    """A sum such as `V0 + [SCORE + 1]`."""
    reader = Reader(text, symbols)
    value = reader.sum()
    reader.end()
    return value


def read_subject(text: str, symbols: Mapping[str, Symbol]) -> Subject:
    """The subject of a data breakpoint: V3, I, [SCORE], [SCORE .. SCORE + 3], PIXEL(3, 4), or a sum of these. A label alone is
    the byte at its address."""
    plain = text.strip()
    name = plain.upper()
    if name in symbols and name not in ITEMS:
        return read_subject(f"[{plain}]", symbols)
    reader = Reader(plain, symbols)
    found = reader.subject()
    reader.end()
    return found


def known_words(symbols: Collection[str]) -> list[str]:
    """The words that an expression may begin with."""
    return [*ITEMS, "PIXEL", *symbols]
