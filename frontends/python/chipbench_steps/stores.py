"""The kinds of cases of instructions that load from the memory and store into it."""

from __future__ import annotations

from .cases import F, LAST, Case, Kind
from .kinds import ANYWHERE, TIMERS, set_index, set_register, set_x, with_tick
from .setup import MEMORY_BYTES

# as many registers as there are, the most telling first
COUNTS = (0, 15, 1, 2, 7, 8, *range(3, 7), *range(9, 15))
DECIMALS = (255, 0, 100, 99, 10, 9, 127, 128, 200, 1, 199, 109, 190, 19, 91)


def count_at(case: Case, values: tuple[int, int]) -> None:
    case.x, case.state.i = values


def up_to_end(case: Case, x: int) -> None:
    count_at(case, (x, MEMORY_BYTES - 1 - x))


def past_end(case: Case, x: int) -> None:
    count_at(case, (x, MEMORY_BYTES - x))


def at_itself(case: Case, values: tuple[int, int]) -> None:
    """x, and where I is before or after the instruction."""
    case.x = values[0]
    case.state.i = case.state.pc + values[1]


def value_of_f(case: Case, value: int) -> None:
    case.x = F
    case.vx = value


def at_last_word(case: Case, x: int) -> None:
    """The instruction is the memory's last word, and so is what it accesses."""
    count_at(case, (x, LAST - 1 - x))
    case.state.pc = LAST - 1


NEAR_ITSELF = ((0, 0), (1, 0), (0, 1), (3, -2), (15, -8), (1, 2), (2, -3))
BLOCK = (
    Kind("each x", COUNTS, set_register, 4),
    Kind("up to the end of the memory", (0, 15, 1, 7), up_to_end),
    Kind("past the end of the memory", (0, 15, 1, 7), past_end),
    Kind("I past the memory", ((0, 65535), (15, 65535), (1, 65535), (0, 4096), (15, 65521)), count_at, 2),
    Kind("at the instruction itself", NEAR_ITSELF, at_itself, 2),
    Kind("at the digits", ((15, 0), (4, 75), (9, 80)), count_at),
    Kind("at the last word", (1, 0), at_last_word),
    Kind("timers with a tick", TIMERS[:2], with_tick),
    *ANYWHERE,
)
DECIMAL = (
    Kind("values", DECIMALS, set_x, 4),
    Kind("I near the end of the memory", (LAST - 2, LAST - 1, LAST, 65535, 65533, MEMORY_BYTES), set_index, 3),
    Kind("at the instruction itself", ((3, 0), (4, -1), (5, -2), (6, 1)), at_itself, 2),
    Kind("at the digits", (0, 77), set_index),
    Kind("x = F", (123, 255), value_of_f),
    Kind("timers with a tick", TIMERS[:2], with_tick),
    *ANYWHERE,
)
