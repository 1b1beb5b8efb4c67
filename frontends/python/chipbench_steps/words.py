"""Words by their rows of the instruction table: those that have none, and the verdict of the machine on each word."""

from __future__ import annotations

import functools
import itertools
from collections.abc import Iterable, Iterator, Sequence
from typing import NamedTuple

from chipbench import Bench, ChipbenchError

from .cases import Case, Kind
from .kinds import COMMON
from .settings import Settings

WORDS = 0x10000
HEXADECIMAL = "0123456789ABCDEF"
# words that other interpreters have, and those near them
OF_OTHERS = (
    0x0000, 0xF000, 0x0230, 0x00D4, 0x5122, 0x5123, 0xF002, 0xF101, 0xF03A, 0x00B3, 0xFFFF, 0x8128, 0x8129, 0x812A, 0x812B,
    0x812C, 0x812D, 0x812F, 0x0100, 0x0010, 0x0200, 0x0FFF, 0xE100, 0xEFFF, 0xF100, 0xF1F8,
)


def words_of(pattern: str) -> Iterator[int]:
    """The words that have the hexadecimal digits of a pattern such as 8XY4, from the least one on."""
    choices = (digit if digit in HEXADECIMAL else HEXADECIMAL for digit in pattern)
    return (int("".join(digits), 16) for digits in itertools.product(*choices))


class OtherWords:
    """The words of no pattern, for the cases of S2."""

    def __init__(self, patterns: Iterable[str]) -> None:
        self._patterns = tuple(patterns)

    @functools.cached_property
    def _words(self) -> list[int]:
        taken = {word for pattern in self._patterns for word in words_of(pattern)}
        return [word for word in range(WORDS) if word not in taken]

    def choose(self, case: Case) -> None:
        """Any of them."""
        case.whole_word = case.rng.choice(self._words)

    def differ_in_a_digit(self, case: Case, digit: tuple[str, int]) -> None:
        """A word that has all digits of a pattern except one: an emulator that ignores this digit takes it for an instruction."""
        pattern, at = digit
        near = set(words_of(pattern[:at] + "X" + pattern[at + 1 :]))
        case.whole_word = case.rng.choice([word for word in self._words if word in near])

    def kinds(self) -> Sequence[Kind]:
        """The digits that a decoder has to look at come one by one, except the first one of a pattern."""
        digits = [(pattern, at) for pattern in self._patterns for at in range(1, 4) if pattern[at] in HEXADECIMAL]
        return (
            Kind("one digit of an instruction differs", [each for each in digits if each[0][0] != "8"], self.differ_in_a_digit, 16),
            Kind("words of other interpreters and near them", OF_OTHERS, set_word, 8),
            *COMMON,
        )


def set_word(case: Case, word: int) -> None:
    case.whole_word = word


class Run(NamedTuple):
    """Words from the first to the last, and the row that all of them have, or None where the machine stops with S2."""

    first: int
    last: int
    row: str | None


def runs(settings: Settings, patterns: Sequence[str]) -> list[Run]:
    """The verdict of the machine on each word: whether it stops with S2. Which row a word has is what its digits say."""
    rows = {word: pattern for pattern in patterns for word in words_of(pattern)}
    commands = [command for word in range(WORDS) for command in (b"rep 1 DW #%x" % word, b"regs 1")]
    with Bench("DW #0", **settings.options()) as bench:
        answers = bench.exchange(commands)[1::2]
    found: list[Run] = []
    for word, answer in enumerate(answers):
        row = None if b" S2\n" in answer else rows.get(word)
        if row is None and b" S2\n" not in answer:
            raise ChipbenchError(f"the machine executes {word:04x}, which no row of the instruction table has")
        if found and found[-1].row == row:
            found[-1] = found[-1]._replace(last=word)
        else:
            found.append(Run(word, word, row))
    return found
