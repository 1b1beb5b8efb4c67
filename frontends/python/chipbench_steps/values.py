"""The kinds of cases of instructions that change registers, timers, flags and I."""

from __future__ import annotations

from .cases import EDGES, F, LAST, Case, Kind
from .kinds import (
    ANYWHERE, COMMON, FLAGS, PAIRS, TIMERS, X_IS_F, set_address, set_both, set_index, set_operand, set_register, set_x,
    set_x_and_operand, with_tick, without_tick, x_is_f, x_is_y, y_is_f,
)

# -- arithmetic


def both_are_f(case: Case, value: int) -> None:
    case.x = case.y = F
    case.vx = value


def y_is_zero(case: Case, values: tuple[int, int]) -> None:
    case.y = 0
    set_both(case, values)


def x_is_f_with_operand(case: Case, values: tuple[int, int]) -> None:
    case.x = F
    set_x_and_operand(case, values)


# values whose lowest and highest bits differ
BITS = ((1, 128), (128, 1), (129, 126), (126, 129))

ARITHMETIC = (
    Kind("Vx and Vy at edges", PAIRS, set_both, 4),
    Kind("x = y", EDGES, x_is_y),
    Kind("x = F", PAIRS[:8], x_is_f, 2),
    Kind("y = F", PAIRS[:8], y_is_f, 2),
    Kind("x = y = F", (129, 0, 255), both_are_f),
    FLAGS,
    *COMMON,
)
SHIFTS = (
    *ARITHMETIC,
    Kind("y = 0", BITS, y_is_zero, 2),
    Kind("bits that fall out", BITS, set_both, 2),
)
VALUE = (
    Kind("kk at edges", EDGES, set_operand, 2),
    Kind("each register", range(16), set_register, 2),
    *COMMON,
)
ADD_VALUE = (
    Kind("Vx and kk at edges", PAIRS, set_x_and_operand, 4),
    Kind("x = F", PAIRS[:6], x_is_f_with_operand, 2),
    FLAGS,
    *COMMON,
)

# -- random bytes: the tape has each byte once, so the number of those that were used chooses the next one


def with_mask(case: Case, kk: int) -> None:
    case.kk = kk


def without_mask(case: Case, number: int) -> None:
    case.kk = 255
    case.state.random_bytes_used = number


def any_random_byte(case: Case) -> None:
    case.state.random_bytes_used = case.rng.randrange(256)
    case.kk |= 1 << case.rng.randrange(8)


RANDOM = (
    Kind("kk at edges", (255, 0, 1, 15, 240, 128, 127, 254), with_mask),
    X_IS_F,
    *COMMON,
    Kind("each random byte in turn", range(256), without_mask, 4),
)

# -- I


def set_index_and_x(case: Case, values: tuple[int, int]) -> None:
    case.state.i, case.vx = values


def index_and_f(case: Case, values: tuple[int, int]) -> None:
    case.x = F
    set_index_and_x(case, values)


INDEX_SUMS = (
    (LAST, 1), (65535, 1), (65535, 255), (LAST, 255), (0, 0), (65281, 255), (65280, 255), (4096, 0), (65535, 0), (4093, 3),
    (255, 1), (0xF00, 255), (65280, 128), (32767, 1),
)
INDEX = (
    Kind("address at edges", (0, 1, LAST, LAST - 1, 0xF00, 0x0FF, 0x800), set_address, 2),
    Kind("I before", (65535, 4096, LAST), set_index),
    *COMMON,
)
ADD_INDEX = (
    Kind("I and Vx at edges", INDEX_SUMS, set_index_and_x, 3),
    Kind("x = F", ((LAST, 1), (65535, 2), (16, 255)), index_and_f),
    FLAGS,
    *COMMON,
)
DIGITS = (
    Kind("each digit", (15, 0, 9, 10, *range(1, 9), *range(11, 15)), set_x, 4),
    Kind("Vx above 15", (16, 31, 127, 128, 255), set_x),
    X_IS_F,
    Kind("I before", (65535, 4096), set_index),
    *COMMON,
)

# -- timers and flag registers


def value_with_tick(case: Case, value: int) -> None:
    with_tick(case, (77, 99))
    case.vx = value


def value_without_tick(case: Case, value: int) -> None:
    without_tick(case, (77, 99))
    case.vx = value


READ_TIMER = (
    Kind("timers with a tick", TIMERS, with_tick, 2),
    Kind("timers without a tick", TIMERS, without_tick, 2),
    X_IS_F,
    *ANYWHERE,
)
SET_TIMER = (
    Kind("Vx at edges, with a tick", EDGES, value_with_tick, 2),
    Kind("Vx at edges, without a tick", EDGES, value_without_tick, 2),
    Kind("timers with a tick", TIMERS, with_tick),
    X_IS_F,
    *ANYWHERE,
)


def any_flags(case: Case) -> None:
    if case.has_super:
        case.state.flags = case.flags


FLAG_REGISTERS = (
    Kind("each x, above 7 too", (7, 8, 0, 15, 1, 9, *range(2, 7), *range(10, 15)), set_register, 4),
    *COMMON,
)
