"""Lines of a source as an editor sees them: tokens, what a line defines, which names it uses.

Only the program decides whether a line is right. This module reads just enough to find the names and the columns.
"""

from __future__ import annotations

import functools
import re
from collections.abc import Iterator
from dataclasses import dataclass

from .tables import DIRECTIVES, MNEMONICS, RESERVED

BLANKS = " \t\f\r\x1a"
TOKEN = re.compile(
    r"""(?P<blank>[ \t\f\r\x1a]+)
    | (?P<comment>;.*)
    | (?P<word>[A-Za-z_][A-Za-z0-9_]*)
    | (?P<number>[0-9][A-Za-z0-9_]*|\#[A-Za-z0-9_]+|@[A-Za-z0-9_]+|\$[A-Za-z0-9_.]+)
    | (?P<text>'[^']*'|"[^"]*")
    | (?P<sign>[,:=\[\]()+\-*/&|^~<>\\])
    | (?P<bad>['"].*|.)""",
    re.VERBOSE | re.DOTALL,
)
NUMBERS = (
    (re.compile(r"[0-9]+"), 0, 10),
    (re.compile(r"#[0-9A-Fa-f]+"), 1, 16),
    (re.compile(r"@[0-7]+"), 1, 8),
    (re.compile(r"\$[01.]+"), 1, 2),
)
DEFINERS = ("EQU", "=")
# A line that states a property of the game, which other assemblers take for a comment.
PROPERTY = re.compile(r"[ \t\f\r\x1a]*;!")
# Words of properties that could be names. A property puts a name with the same spelling in parentheses.
PROPERTY_WORDS = frozenset("ALWAYS NEVER EVER CAN HERE AT PC DEPTH KEYS PIXEL DRAWS".split())
# No expression follows these words.
WITHOUT_NAMES = frozenset({"ALIGN", "OPTION", "INCLUDE"})


@dataclass(frozen=True)
class Token:
    kind: str
    text: str
    start: int
    end: int

    @property
    def upper(self) -> str:
        return self.text.upper()


@dataclass(frozen=True)
class Line:
    """A line: its tokens without blanks and comment, the token that it defines, and its statement.

    `form` is `label`, `value` (EQU and `=`), `define` or `plain`; `head` is the statement's first token, the EQU or `=` of a
    definition, and `operands` are the tokens after it. `stated` are the tokens of a property, after its `;!`.
    """

    text: str
    tokens: tuple[Token, ...]
    comment: Token | None
    form: str
    defined: Token | None
    head: Token | None
    operands: tuple[Token, ...]
    stated: tuple[Token, ...] = ()

    @property
    def is_bad(self) -> bool:
        return any(token.kind == "bad" for token in self.tokens)

    @property
    def mnemonic(self) -> str | None:
        """The instruction's name, in upper case."""
        return self.head.upper if self.head is not None and self.head.upper in MNEMONICS else None

    @property
    def directive(self) -> str | None:
        return self.head.upper if self.head is not None and self.head.upper in DIRECTIVES else None

    @property
    def code_end(self) -> int:
        """Where the last token ends."""
        return self.tokens[-1].end if self.tokens else 0

    def token_at(self, place: int) -> Token | None:
        """The token that a place is in, or that ends there."""
        touching = [token for token in self.tokens or self.stated if token.start <= place <= token.end]
        inside = [token for token in touching if place < token.end]
        return next(iter(inside + touching), None)

    def names(self) -> Iterator[Token]:
        """The names that the line defines or mentions."""
        if self.defined is not None and self.form != "define":
            yield self.defined
        if self.directive in WITHOUT_NAMES:
            return
        yield from (token for token in self.operands if token.kind == "word" and token.upper not in RESERVED)
        yield from (token for token, _ in self.stated_names())

    def stated_names(self) -> Iterator[tuple[Token, bool]]:
        """The names in a property, each with whether it stands in parentheses or brackets.

        >>> [(token.text, inside) for token, inside in read_line(";! never [BALL] = PC + (PC) at LOOP").stated_names()]
        [('BALL', True), ('PC', True), ('LOOP', False)]
        """
        depth = 0
        for token in self.stated:
            if token.kind == "sign":
                depth += (token.text in "([") - (token.text in ")]")
            elif token.kind == "word" and token.upper not in RESERVED and (depth > 0 or token.upper not in PROPERTY_WORDS):
                yield token, depth > 0


def scan(text: str, start: int = 0) -> tuple[tuple[Token, ...], Token | None]:
    tokens: list[Token] = []
    for found in TOKEN.finditer(text, start):
        kind = found.lastgroup or "bad"
        if kind == "blank":
            continue
        token = Token(kind, found.group(), found.start(), found.end())
        if kind == "comment":
            return tuple(tokens), token
        tokens.append(token)
    return tuple(tokens), None


@functools.lru_cache(maxsize=20_000)
def read_line(text: str) -> Line:
    """Reads a line, without its end.

    >>> line = read_line("LOOP: ADD V0, STEP ; on")
    >>> line.form, line.defined.text, line.mnemonic, [name.text for name in line.names()]
    ('label', 'LOOP', 'ADD', ['LOOP', 'STEP'])
    """
    tokens, comment = scan(text)

    def made(form: str, defined: Token | None, statement: tuple[Token, ...]) -> Line:
        return Line(text, tokens, comment, form, defined, statement[0] if statement else None, statement[1:], stated)

    mark = PROPERTY.match(text)
    stated = scan(text, mark.end())[0] if mark is not None else ()
    if not tokens or tokens[0].kind != "word":
        return made("plain", None, tokens)
    colon = len(tokens) > 1 and tokens[1].text == ":"
    rest = tokens[2:] if colon else tokens[1:]
    if rest and rest[0].upper in DEFINERS:
        return made("value", tokens[0], rest)
    if colon:
        return made("label", tokens[0], rest)
    if tokens[0].upper == "DEFINE" and rest and rest[0].kind == "word":
        return made("define", rest[0], tokens)
    return made("plain", None, tokens)


@functools.lru_cache(maxsize=20_000)
def defined_in(text: str) -> tuple[str, str, bool] | None:
    """The name that a line defines: in upper case, as it is spelt, and whether it is a label.

    >>> defined_in("Loop: CLS"), defined_in("CLS")
    (('LOOP', 'Loop', True), None)
    """
    line = read_line(text)
    if line.defined is None or line.defined.upper in RESERVED:
        return None
    return line.defined.upper, line.defined.text, line.form == "label"


def read_number(text: str) -> int | None:
    """The value of a number token, or None.

    >>> [read_number(text) for text in ("10", "#1f", "@17", "$1..1", "12A")]
    [10, 31, 15, 9, None]
    """
    for form, sign, base in NUMBERS:
        if form.fullmatch(text):
            return int(text[sign:].replace(".", "0"), base)
    return None


def in_all_bases(value: int) -> str:
    """A value as the language writes it in each base.

    >>> in_all_bases(10)
    '10 = #A = @12 = $1010'
    """
    sign, size = ("-", -value) if value < 0 else ("", value)
    return f"{value} = {sign}#{size:X} = {sign}@{size:o} = {sign}${size:b}"
