"""The rows of the instruction table with their kinds of cases."""

from __future__ import annotations

import functools
from collections.abc import Callable, Iterable, Sequence

from . import flow, sprites, stores, values
from .cases import Case, Kind, Row
from .kinds import COMMON
from .words import OtherWords


def nothing(case: Case) -> None:
    """What the cases of most rows need before a kind sets anything."""


def like(names: str, kinds: Sequence[Kind], prepare: Callable[[Case], None] = nothing, **shows: bool) -> Iterable[Row]:
    """Rows with the same kinds of cases."""
    return (Row(name, name, kinds, prepare, **shows) for name in names.split())


@functools.cache
def table() -> tuple[Row, ...]:
    """The rows of the instruction table, in its order."""
    return (
        *like("00CN", sprites.SCROLL_DOWN, sprites.light_some),
        *like("00E0", sprites.SCREEN, sprites.light_some),
        *like("00EE", flow.RETURN),
        *like("00FB 00FC", sprites.SCREEN, sprites.light_some),
        *like("00FD", COMMON),
        *like("00FE 00FF", sprites.SCREEN, sprites.light_some),
        *like("1NNN", flow.JUMP),
        *like("2NNN", flow.CALL),
        *like("3XKK 4XKK", flow.SKIP, flow.often_equal, shows_next=True),
        *like("5XY0", flow.SKIP_BY_REGISTERS, flow.often_equal, shows_next=True),
        *like("6XKK", values.VALUE),
        *like("7XKK", values.ADD_VALUE),
        *like("8XY0 8XY1 8XY2 8XY3 8XY4 8XY5", values.ARITHMETIC),
        *like("8XY6", values.SHIFTS),
        *like("8XY7", values.ARITHMETIC),
        *like("8XYE", values.SHIFTS),
        *like("9XY0", flow.SKIP_BY_REGISTERS, flow.often_equal, shows_next=True),
        *like("ANNN", values.INDEX),
        *like("BNNN", flow.JUMP_BY_REGISTER),
        *like("CXKK", values.RANDOM, values.any_random_byte),
        *like("DXYN", sprites.DRAW, sprites.prepare_sprite, shows_index=True),
        *like("EX9E EXA1", flow.KEY_SKIP, flow.often_down, shows_next=True),
        *like("FX07", values.READ_TIMER),
        *like("FX0A", flow.WAIT),
        *like("FX15 FX18", values.SET_TIMER),
        *like("FX1E", values.ADD_INDEX),
        *like("FX29 FX30", values.DIGITS),
        *like("FX33", stores.DECIMAL, shows_index=True),
        *like("FX55 FX65", stores.BLOCK, shows_index=True),
        *like("FX75 FX85", values.FLAG_REGISTERS, values.any_flags),
    )


@functools.cache
def rows() -> tuple[Row, ...]:
    """The rows of the table, and then what stops the machine without an instruction."""
    others = OtherWords(row.pattern for row in table())
    return (
        *table(),
        Row("S2", "", others.kinds(), others.choose),
        Row("S3", "", flow.PAST_END, flow.anywhere_past_end),
    )
