"""The kinds of cases of jumps, calls, skips and waits, and of pc past the memory."""

from __future__ import annotations

from collections.abc import Sequence

from .cases import DEEPEST, EDGES, F, LAST, LONG, Case, Kind
from .kinds import COMMON, TICKS, TIMERS, X_IS_F, set_address, set_depth, with_tick, x_is_y, y_is_f

# -- jumps and calls

ADDRESSES = (0, 1, LAST, LAST - 1, 0x200, 0x201, 0xABC)
DEPTHS = (0, DEEPEST, 1, DEEPEST - 1, 2)
# an address, V0, and the register of the address's top digit
SUMS = (
    (0x300, 4, 8), (0xFFF, 1, 2), (0xFFF, 255, 254), (0x000, 0, 0), (0x000, 255, 255), (0xF00, 1, 255), (0x0FF, 1, 1),
    (0x1FF, 255, 1), (0x7FF, 128, 127), (0x8FF, 127, 128), (0xF01, 254, 255), (0xFFE, 2, 2), (0x123, 0, 255), (0xABC, 255, 0),
)


def set_sum(case: Case, values: tuple[int, int, int]) -> None:
    case.address, first, other = values
    case.state.v[case.address >> 8] = other
    case.state.v[0] = first


def to_itself(case: Case, pc: int) -> None:
    case.state.pc = case.address = pc


def call_at_end(case: Case, depth: int) -> None:
    case.state.pc, case.depth = LAST - 1, depth


def return_to(case: Case, address: int) -> None:
    """The newest return address."""
    case.depth, case.last_call = 3, address - 2


JUMP = (
    Kind("address at edges", ADDRESSES, set_address, 2),
    Kind("to itself", (0x400, 0x401), to_itself),
    Kind("depth of the call stack", DEPTHS[:2], set_depth),
    *COMMON,
)
CALL = (
    Kind("depth of the call stack", DEPTHS, set_depth, 2),
    Kind("address at edges", ADDRESSES, set_address, 2),
    Kind("to itself", (0x400, 0x401), to_itself),
    Kind("return address past the memory", (0, DEEPEST - 1, DEEPEST), call_at_end),
    *COMMON,
)
RETURN = (
    Kind("depth of the call stack", DEPTHS, set_depth, 2),
    Kind("return address past the memory", (LAST + 1,), return_to),
    Kind("return to an odd address", (0x5A7,), return_to),
    *COMMON,
)
JUMP_BY_REGISTER = (Kind("sums at edges", SUMS, set_sum, 4), *COMMON)

# -- skips


def equal(case: Case, value: int) -> None:
    case.vx = case.vy = case.kk = value


def one_bit_differs(case: Case, bit: int) -> None:
    case.kk = case.vy = case.vx ^ 1 << bit


def equal_and_f(case: Case, value: int) -> None:
    case.x = F
    equal(case, value)


def before_long(case: Case, values: tuple[int, int]) -> None:
    case.vx = values[0]
    case.kk = case.vy = values[1]
    case.after = LONG


def equal_at(case: Case, pc: int) -> None:
    case.state.pc = pc
    equal(case, case.vx)


def other_at(case: Case, pc: int) -> None:
    case.state.pc = pc
    one_bit_differs(case, 0)


def often_equal(case: Case) -> None:
    if case.rng.randrange(2):
        equal(case, case.vx)


SKIP = (
    Kind("equal", EDGES, equal, 2),
    Kind("one bit differs", range(8), one_bit_differs, 2),
    Kind("x = F", (1, 0), equal_and_f),
    Kind("the next word is F000", ((5, 5), (5, 6)), before_long, 2),
    Kind("at the end of the memory, equal", (LAST - 1, LAST - 3), equal_at),
    Kind("at the end of the memory, not equal", (LAST - 1, LAST - 3), other_at),
    *COMMON,
)
SKIP_BY_REGISTERS = (*SKIP, Kind("x = y", EDGES, x_is_y), Kind("y = F", ((1, 1), (1, 0)), y_is_f))

# -- keys

SOME_KEYS = (0, 15, 7, 8)
ABOVE_KEYS = (16, 31, 128, 255)


def set_keys(case: Case, keys: Sequence[int]) -> None:
    case.state.keys = list(keys)


def no_key(case: Case, value: int) -> None:
    case.vx, case.state.keys = value, []


def key_asked(case: Case, value: int) -> None:
    case.vx, case.state.keys = value, [value % 16]


def other_key(case: Case, value: int) -> None:
    case.vx, case.state.keys = value, [(value + 1) % 16]


def all_but_it(case: Case, value: int) -> None:
    case.vx, case.state.keys = value, [key for key in range(16) if key != value % 16]


def several_keys(case: Case, value: int) -> None:
    case.vx, case.state.keys = value, sorted({value % 16, 0, 15})


def key_before_long(case: Case, is_down: bool) -> None:
    (key_asked if is_down else no_key)(case, 3)
    case.after = LONG


def key_at_end(case: Case, is_down: bool) -> None:
    case.state.pc = LAST - 1
    (key_asked if is_down else no_key)(case, case.vx)


def often_down(case: Case) -> None:
    case.vx %= 32
    if case.rng.randrange(2):
        case.state.keys = sorted({*case.state.keys, case.vx % 16})


def no_key_with_tick(case: Case, timers: tuple[int, int]) -> None:
    with_tick(case, timers)
    case.state.keys = []


KEY_SKIP = (
    Kind("the key asked", SOME_KEYS, key_asked, 2),
    Kind("no key", SOME_KEYS[:2], no_key),
    Kind("another key", SOME_KEYS, other_key, 2),
    Kind("all keys but it", SOME_KEYS, all_but_it),
    Kind("several keys", SOME_KEYS, several_keys),
    Kind("Vx above 15, its key modulo 16", ABOVE_KEYS, key_asked, 2),
    Kind("Vx above 15, another key", ABOVE_KEYS[:2], other_key),
    Kind("Vx above 15, no key", ABOVE_KEYS[2:], no_key),
    Kind("the next word is F000", (True, False), key_before_long, 2),
    Kind("at the end of the memory, with and without the key", (True, False), key_at_end),
    X_IS_F,
    *COMMON,
)
WAIT = (
    Kind("no key", ((), ()), set_keys),
    Kind("one key", tuple((key,) for key in (0, 15, *range(1, 15))), set_keys, 3),
    Kind("several keys", ((3, 9), (0, 15), (14, 15), (7, 8, 9), range(16), (1, 2, 15)), set_keys, 2),
    Kind("no key, timers with a tick", TIMERS[:3], no_key_with_tick),
    X_IS_F,
    *COMMON,
)

# -- pc past the memory

def past_end(case: Case, pc: int) -> None:
    """pc past the last word. The jump that leads there adds V0 or VF, by the profile."""
    case.state.pc = pc
    case.state.v[0] = case.state.v[F] = max(pc - LAST, 0)


def anywhere_past_end(case: Case) -> None:
    past_end(case, LAST + case.rng.randrange(256))


PAST_END = (Kind("pc at edges", (LAST, LAST + 1, LAST + 2, LAST + 255), past_end), *TICKS)
