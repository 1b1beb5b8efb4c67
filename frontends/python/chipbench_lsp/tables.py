"""The documents' tables of instructions, directives and codes: tables.json, made by frontends/python/generate_tables.py."""

from __future__ import annotations

import json
import re
from dataclasses import dataclass
from pathlib import Path

TABLES = json.loads((Path(__file__).resolve().parent / "tables.json").read_text(encoding="utf-8"))


@dataclass(frozen=True)
class Instruction:
    """A row of the table of instructions: its word with letters for the operands, its forms in a source, and its effect."""

    word: str
    forms: tuple[str, ...]
    effect: str
    stops: str
    vip: str

    @property
    def mnemonic(self) -> str:
        return self.forms[0].split()[0]

    def fits(self, word: int) -> bool:
        """Whether a word belongs to this row, in which a digit means itself and any other letter means any digit."""
        return all(row == digit or row in "XYNK" for row, digit in zip(self.word, f"{word:04X}"))


@dataclass(frozen=True)
class Directive:
    word: str
    forms: tuple[str, ...]
    effect: str


INSTRUCTIONS = tuple(
    Instruction(row["word"], tuple(row["forms"]), row["effect"], row["stops"], row["vip"]) for row in TABLES["instructions"]
)
DIRECTIVES = {word: Directive(word, tuple(row["forms"]), row["effect"]) for word, row in TABLES["directives"].items()}
# The documents describe these in prose.
CONDITIONS = {
    "IFDEF": "the lines up to its ELSE or ENDIF are active if an accepted line before it defines n",
    "IFUND": "the lines up to its ELSE or ENDIF are active if no accepted line before it defines n",
    "ELSE": "the lines up to ENDIF are active if those before ELSE aren't",
    "ENDIF": "ends IFDEF or IFUND",
    "END": "no line after it is active",
}
DIRECTIVES |= {word: Directive(word, DIRECTIVES[word].forms, effect) for word, effect in CONDITIONS.items()}
MNEMONICS = frozenset(row.mnemonic for row in INSTRUCTIONS)
PARTS = {
    "I": "the register of 16 bits that points into memory",
    "DT": "the delay timer",
    "ST": "the sound timer",
    "K": "the lowest key that is down; with none down the instruction is executed again",
    "F": "the address of a small digit",
    "HF": "the address of a large digit",
    "B": "the decimal digits of a register, from I on",
    "R": "the flag registers",
}
REGISTERS = tuple(f"V{digit:X}" for digit in range(16))
OPTIONS = tuple(TABLES["options"])
FAULTS: dict[str, str] = TABLES["faults"]
STOPS: dict[str, str] = TABLES["stops"]
RESERVED = MNEMONICS | set(DIRECTIVES) | set(PARTS) | set(REGISTERS)
NAME = re.compile(r"[A-Za-z_][A-Za-z0-9_]*")
LONGEST_NAME = 64

assert set(PARTS) == set(TABLES["parts"])


def rows_of(mnemonic: str) -> list[Instruction]:
    return [row for row in INSTRUCTIONS if row.mnemonic == mnemonic]


def row_of_word(word: int, mnemonic: str) -> Instruction | None:
    """The row of a word, among those of a mnemonic."""
    return next((row for row in rows_of(mnemonic) if row.fits(word)), None)


def name_fault(name: str) -> str | None:
    """The reason why a word can't be a name, or None if it can."""
    if NAME.fullmatch(name) is None:
        return "a name is a letter or _, then letters, digits and _"
    if len(name) > LONGEST_NAME:
        return f"a name has at most {LONGEST_NAME} characters"
    return f"{name.upper()} is a reserved word" if name.upper() in RESERVED else None
