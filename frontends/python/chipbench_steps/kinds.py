"""What kinds of cases set, where those of several rows do, and the kinds that most rows have."""

from __future__ import annotations

from .cases import F, LAST, Case, Kind

# pairs of values, the most telling first
PAIRS = (
    (255, 1), (1, 255), (128, 128), (0, 0), (255, 255), (127, 128), (0, 1), (1, 0), (128, 127), (0, 255),
    (255, 0), (127, 1), (1, 1), (128, 0), (0, 128), (127, 127), (128, 1), (254, 1), (255, 128), (170, 85),
)
# the delay timer and the sound timer
TIMERS = ((0, 255), (1, 0), (255, 1), (0, 0), (1, 1), (255, 255))


def set_x(case: Case, value: int) -> None:
    case.vx = value


def set_both(case: Case, values: tuple[int, int]) -> None:
    case.vx, case.vy = values


def set_operand(case: Case, kk: int) -> None:
    case.kk = kk


def set_x_and_operand(case: Case, values: tuple[int, int]) -> None:
    case.vx, case.kk = values


def set_register(case: Case, x: int) -> None:
    case.x = x


def set_address(case: Case, address: int) -> None:
    case.address = address


def set_index(case: Case, index: int) -> None:
    case.state.i = index


def set_depth(case: Case, depth: int) -> None:
    case.depth = depth


def set_pc(case: Case, pc: int) -> None:
    case.state.pc = pc


def set_flag(case: Case, flag: int) -> None:
    case.state.v[F] = flag


def x_is_y(case: Case, value: int) -> None:
    case.y = case.x
    case.vx = value


def x_is_f(case: Case, values: tuple[int, int]) -> None:
    """x is F. The values are those of Vx and Vy."""
    case.x = F
    set_both(case, values)


def y_is_f(case: Case, values: tuple[int, int]) -> None:
    case.y = F
    set_both(case, values)


def with_tick(case: Case, timers: tuple[int, int]) -> None:
    case.state.delay, case.state.sound = timers
    case.state.is_tick = True


def without_tick(case: Case, timers: tuple[int, int]) -> None:
    with_tick(case, timers)
    case.state.is_tick = False


AT_END = Kind("at the end of the memory", (LAST - 1,), set_pc)
ANYWHERE = (
    AT_END,
    Kind("at an odd address", (0x355,), set_pc),
    Kind("below the program", (0x1F2,), set_pc),
)
TICKS = (Kind("timers with a tick", TIMERS[:3], with_tick), Kind("timers without a tick", TIMERS[:1], without_tick))
COMMON = (*ANYWHERE, *TICKS)
FLAGS = Kind("VF before", (0, 1, 255), set_flag)
X_IS_F = Kind("x = F", (F,), set_register)
