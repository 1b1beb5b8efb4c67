"""Reads typed values: numbers, names, registers and bytes of the memory, joined by `+` and `-`."""

from __future__ import annotations

import difflib
import operator
import re
from collections.abc import Callable, Iterable, Mapping
from dataclasses import dataclass

from chipbench import State, Symbol

TERM = re.compile(
    r"""\s*(?:
      (?:\#|0[xX])(?P<hexadecimal>[0-9A-Fa-f]{1,7})
    | (?:\$(?P<dotted>[01.]{1,16})|0[bB](?P<binary>[01]{1,16}))
    | (?P<decimal>[0-9]{1,9})
    | (?P<word>[A-Za-z_][A-Za-z0-9_]*)
    )(?![A-Za-z0-9_])\s*""",
    re.VERBOSE,
)
# a letter in quotes, as in other assemblers and in C
LETTER = re.compile(r"'.'|\".\"")
# the sign before a sum below 0, which the caller refuses
SIGN = re.compile(r"\s*-")
# words and signs that join two comparisons in other languages
JOIN = re.compile(r"\s(?:and|or|&&|\|\|)(?:\s|$)", re.IGNORECASE)
COMPARISON = re.compile(r"\s*(==|!=|<>|<=|>=|=|<|>)\s*")
COMPARED: dict[str, Callable[[int, int], bool]] = {
    "=": operator.eq,
    "==": operator.eq,
    "!=": operator.ne,
    "<>": operator.ne,
    "<": operator.lt,
    "<=": operator.le,
    ">": operator.gt,
    ">=": operator.ge,
}
REGISTERS = (*(f"V{digit:X}" for digit in range(16)), "I", "PC", "DT", "ST")
LAST_ADDRESS = 4095


class Mistake(Exception):
    """A typed command can't be carried out. The text says why, and what would be right."""


def counted(number: int, what: str) -> str:
    """A number with its word.

    >>> counted(1, "line"), counted(2, "line")
    ('1 line', '2 lines')
    """
    return f"{number} {what}" + ("" if number == 1 else "s")


def near(word: str, known: Iterable[str]) -> str:
    """A question that suggests the known word most like this one; empty if none is like it.

    >>> near("hlep", ["help", "step"])
    '; did you mean help?'
    """
    found = difflib.get_close_matches(word, list(known), 1, 0.6)
    return f"; did you mean {found[0]}?" if found else ""


def register_value(state: State, name: str) -> int:
    """The value of a register of `REGISTERS`."""
    if name.startswith("V"):
        return state.v[int(name[1:], 16)]
    return {"I": state.i, "PC": state.pc, "DT": state.delay_timer, "ST": state.sound_timer}[name]


@dataclass(frozen=True)
class Subject:
    """The value that a command looks at: a register, or the byte of the memory at an address."""

    register: str | None
    address: int = 0
    shown: str = ""

    def value(self, state: State) -> int:
        return register_value(state, self.register) if self.register else state.memory[self.address]

    @property
    def digits(self) -> int:
        """How many hexadecimal digits a value has."""
        return 4 if self.register in ("I", "PC") else 2


    @property
    def most(self) -> int:
        """The greatest value."""
        return 0xFFFF if self.digits == 4 else 0xFF


#: Gives the value of a register of `REGISTERS`, at a step.
ReadRegister = Callable[[str], int]


@dataclass(frozen=True)
class Sum:
    """A number, and registers that are added to it or subtracted from it at each step, as in `V4 + 1`."""

    number: int
    registers: tuple[tuple[int, str], ...]
    shown: str

    def value(self, read: ReadRegister) -> int:
        return self.number + sum(sign * read(name) for sign, name in self.registers)

    def __str__(self) -> str:
        return self.shown if self.registers else str(self.number)


@dataclass(frozen=True)
class Condition:
    """A comparison of a subject with a sum; registers in it have their values of the same step."""

    subject: Subject
    sign: str
    right: Sum

    def holds(self, value: int, read: ReadRegister) -> bool:
        """Whether the comparison holds if the subject has this value and the registers have those that `read` gives."""
        return COMPARED[self.sign](value, self.right.value(read))

    def __str__(self) -> str:
        return f"{self.subject.shown} {self.sign} {self.right}"


class Values:
    """Reads numbers, by the names of the source and the registers of a state; without a state a register has no value."""

    def __init__(self, symbols: Mapping[str, Symbol], state: State | None) -> None:
        self._symbols = symbols
        self._state = state

    def number(self, text: str) -> int:
        """The value of a sum now, such as `5`, `#2a0`, `LOOP+2` or `I`."""
        found = self.sum(text)
        state = self._state
        if state is None and found.registers:
            raise Mistake(f"{found.registers[0][1]} has no value while a line has a fault")
        value = found.value(lambda name: register_value(state, name) if state is not None else 0)
        if value < 0:
            raise Mistake(f"'{text.strip()}' is below 0")
        return value

    def sum(self, text: str) -> Sum:
        """A sum of numbers, names and registers, whose registers are read later."""
        if LETTER.fullmatch(text.strip()):
            raise Mistake(f"{text.strip()} is a letter, and letters have no values here: type a number such as 65 or #41")
        begin = SIGN.match(text)
        number, place, sign = 0, begin.end() if begin else 0, -1 if begin else 1
        registers: list[tuple[int, str]] = []
        while True:
            found = TERM.match(text, place)
            if found is None:
                raise Mistake(f"'{text.strip()}' is not a number: expected 100, #2a0, 0x2a0, a name, a register, or a sum of these")
            term = self._term(found)
            if isinstance(term, str):
                registers.append((sign, term))
            else:
                number += sign * term
            place = found.end()
            if place == len(text):
                return Sum(number, tuple(registers), text.strip())
            if text[place] not in "+-":
                raise Mistake(f"'{text.strip()}' is not a number: only + and - may join its parts")
            sign = 1 if text[place] == "+" else -1
            place += 1

    def _term(self, found: re.Match[str]) -> int | str:
        """A number, or the name of a register."""
        if found["hexadecimal"]:
            return int(found["hexadecimal"], 16)
        if found["dotted"] or found["binary"]:
            return int((found["dotted"] or found["binary"]).replace(".", "0"), 2)
        if found["decimal"]:
            return int(found["decimal"])
        name = found["word"].upper()
        if name in self._symbols:
            return self._symbols[name].value
        if name in REGISTERS:
            return name
        raise Mistake(f"no name {found['word']} in the source{near(name, [*self._symbols, *REGISTERS])}")

    def address(self, text: str) -> int:
        value = self.number(text)
        if value > LAST_ADDRESS:
            raise Mistake(f"'{text.strip()}' is {value}: the memory has the addresses 0 to {LAST_ADDRESS}")
        return value

    def subject(self, text: str) -> Subject:
        """A register, or `[ADDRESS]`; a name alone is the byte at its value."""
        plain = text.strip()
        name = plain.upper()
        if name in REGISTERS and name not in self._symbols:
            return Subject(name, shown=name)
        if plain.startswith("[") and plain.endswith("]"):
            return Subject(None, self.address(plain[1:-1]), f"[{plain[1:-1].strip()}]")
        if name in self._symbols:
            return Subject(None, self.address(plain), f"[{plain}]")
        raise Mistake(
            f"'{plain}' is not a register (V0 to VF, I, PC, DT, ST), an address such as [#300], or a label"
            + near(name, [*self._symbols, *REGISTERS])
        )

    def condition(self, text: str) -> Condition | None:
        """A comparison such as `V3 = 5`; None where the text has no sign of one."""
        found = COMPARISON.search(text)
        if found is None:
            return None
        if JOIN.search(text):
            raise Mistake("expected one comparison: `and` and `or` can't join two")
        right = self.sum(text[found.end() :])
        if right.number < 0 and not right.registers:
            raise Mistake(f"'{right.shown}' is below 0")
        subject = self.subject(text[: found.start()])
        least = right.number + (found[1] == ">")
        if not right.registers and least > subject.most and found[1] in ("=", "==", ">", ">="):
            raise Mistake(f"{subject.shown} is at most {subject.most}: {subject.shown} {found[1]} {right} is never true")
        return Condition(subject, found[1], right)
