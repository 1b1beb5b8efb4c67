"""The operands of an instruction: finds the one that a place is in, and the operands that the forms take there."""

from __future__ import annotations

from collections.abc import Iterator
from dataclasses import dataclass

from .language import Token, read_line
from .tables import INSTRUCTIONS, PARTS, REGISTERS, Instruction

#: The letters of a form for any register, and for a value.
ANY_REGISTER = ("Vx", "Vy")
VALUES = ("kk", "a", "n")


@dataclass(frozen=True)
class Place:
    """A place after the name of an instruction, with the operands before it, one for each comma."""

    mnemonic: str
    before: tuple[str, ...]

    @property
    def index(self) -> int:
        return len(self.before)


def operands_of(form: str) -> list[str]:
    """The operands of a form.

    >>> operands_of("DRW Vx, Vy, n")
    ['Vx', 'Vy', 'n']
    """
    return form.split(" ", 1)[1].split(", ") if " " in form else []


def parts_of(tokens: tuple[Token, ...]) -> Iterator[str]:
    """The operands that tokens are, without blanks; the last one may be empty."""
    depth, text = 0, ""
    for token in tokens:
        depth += (token.text in "([") - (token.text in ")]") if token.kind == "sign" else 0
        if token.text == "," and depth <= 0:
            yield text
            text = ""
        else:
            text += token.upper
    yield text


def place_in(text: str) -> Place | None:
    """The place at the end of a text; None unless an instruction and a blank are before it.

    >>> place_in("LOOP: DRW V0, v1, ")
    Place(mnemonic='DRW', before=('V0', 'V1'))
    """
    line = read_line(text)
    if line.mnemonic is None or line.head is None or line.comment is not None or line.head.end == len(text):
        return None
    *before, _ = parts_of(line.operands)
    return Place(line.mnemonic, tuple(before))


def fits(operand: str, given: str) -> bool:
    """Whether a text may be an operand of a form."""
    if operand in ANY_REGISTER:
        return given in REGISTERS
    if operand in VALUES:
        return given != "" and given not in REGISTERS and given not in PARTS and not given.startswith("[")
    return operand == given


def forms_at(place: Place) -> list[tuple[Instruction, str]]:
    """The forms that take the operands before a place."""
    return [
        (row, form) for row in INSTRUCTIONS if row.mnemonic == place.mnemonic for form in row.forms
        if len(operands_of(form)) >= place.index
        and all(fits(operand, given) for operand, given in zip(operands_of(form), place.before))
    ]


def wanted_at(place: Place) -> list[str]:
    """The operands that forms take at a place, each once.

    >>> wanted_at(place_in("LD I, ")), wanted_at(place_in("SE V1, "))
    (['a'], ['kk', 'Vy'])
    """
    found = [operands_of(form)[place.index] for _, form in forms_at(place) if len(operands_of(form)) > place.index]
    return list(dict.fromkeys(found))
