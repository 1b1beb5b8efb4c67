"""The kinds of cases of instructions that draw, scroll, clear, or choose the size."""

from __future__ import annotations

from .cases import F, LAST, SHEET, SOLID, Case, Kind
from .kinds import AT_END, TICKS
from .setup import MEMORY_BYTES

# positions inside a screen of either size: column and row
INSIDE = (21, 9)


# -- the screen before the step


def light_some(case: Case) -> None:
    case.draw_at_random(5)


def lit_around(case: Case, is_high: bool) -> None:
    case.state.is_high = is_high and case.has_super
    case.draw_around()


def lit_in_the_other_size(case: Case, is_high: bool) -> None:
    lit_around(case, not is_high)
    case.state.is_high = is_high and case.has_super


def dark(case: Case, is_high: bool) -> None:
    case.state.sprites.clear()
    case.state.is_high = is_high and case.has_super


def down(case: Case, n: int) -> None:
    case.n = n
    lit_around(case, n % 2 == 0)


SIZES = (True, False)
SCREEN = (
    Kind("lit at all edges", SIZES, lit_around, 2),
    Kind("lit in the other size", SIZES, lit_in_the_other_size),
    Kind("dark", SIZES, dark),
    AT_END,
    *TICKS,
)
SCROLL_DOWN = (Kind("each n, lit at all edges", (1, 0, 15, *range(2, 15)), down, 4), *SCREEN)


# -- sprites


def prepare_sprite(case: Case) -> None:
    """Bytes away from the sheet, and in half of the cases a sprite near the one that is drawn."""
    rng = case.rng
    case.state.i = rng.randrange(0x310, SHEET - 64)
    case.draw_at_random(2)
    if rng.randrange(2):
        case.draw(case.vx, case.vy, [rng.randrange(256) for _ in range(6)])


def place(case: Case, column: int, row: int, n: int) -> None:
    """An otherwise dark screen, and a sprite at a column and a row."""
    case.state.sprites.clear()
    case.vx, case.vy, case.n = column, row, n


def use(case: Case, content: tuple[int, ...] | list[int]) -> None:
    """The bytes of the sprite."""
    case.state.put(case.state.i, content)


def each_height(case: Case, n: int) -> None:
    place(case, *INSIDE, n)
    case.state.v[F] = 1


def height_zero(case: Case, is_high: bool) -> None:
    case.state.is_high = is_high and case.has_super
    place(case, *INSIDE, 0)


def height_zero_meets(case: Case, offset: tuple[int, int]) -> None:
    """One lit pixel somewhere below a sprite of sixteen rows."""
    case.state.is_high = case.has_super and offset[0] > 7
    place(case, *INSIDE, 0)
    use(case, SOLID + SOLID)
    case.draw(INSIDE[0] + offset[0], INSIDE[1] + offset[1], [0x80])


def erase(case: Case, n: int) -> None:
    """The same sprite again: all its pixels become dark."""
    place(case, *INSIDE, n)
    content = [case.rng.randrange(256) | 1 for _ in range(n)]
    use(case, content)
    case.draw(*INSIDE, content)


def meet_one(case: Case, offset: tuple[int, int]) -> None:
    place(case, *INSIDE, 6)
    use(case, SOLID[:6])
    case.draw(INSIDE[0] + offset[0], INSIDE[1] + offset[1], [0x80])
    case.state.v[F] = 0


def lit_beside(case: Case, n: int) -> None:
    """Pixels are lit around the sprite, and none below it."""
    place(case, *INSIDE, n)
    use(case, SOLID[:n])
    column, row = INSIDE
    for offset in ((-1, 0), (8, 0), (0, -1), (7, n)):
        case.draw(column + offset[0], row + offset[1], [0x80])
    case.state.v[F] = 1


def between_bits(case: Case, bits: int) -> None:
    """Pixels are lit where the sprite has no set bit."""
    place(case, *INSIDE, 4)
    use(case, [bits] * 4)
    case.draw(*INSIDE, [bits ^ 0xFF] * 4)
    case.state.v[F] = 1


def no_set_bit(case: Case, n: int) -> None:
    place(case, *INSIDE, n)
    use(case, [0] * n)
    case.draw(*INSIDE, SOLID[:n])
    case.state.v[F] = 1


def edge(case: Case, from_right: int, from_below: int, is_high: bool) -> None:
    """A sprite that is cut at an edge. Where a wrapped one would be, pixels are lit."""
    case.state.is_high = is_high and case.has_super
    width, height = case.size
    place(case, width - from_right, height - from_below, 7)
    use(case, SOLID[:7])
    case.draw(0, height - from_below, SOLID[:1])
    case.draw(width - from_right, 0, SOLID[:1])


def right_edge(case: Case, columns: int) -> None:
    edge(case, columns, 20, columns % 2 == 0)


def lower_edge(case: Case, rows: int) -> None:
    edge(case, 30, rows, rows % 2 == 1)


def corner(case: Case, pixels: int) -> None:
    edge(case, pixels, pixels, pixels > 2)


def corner_meets(case: Case, is_high: bool) -> None:
    """The last pixel of the screen is lit."""
    edge(case, 3, 4, is_high)
    case.draw(case.size[0] - 1, case.size[1] - 1, [0x80])
    case.state.v[F] = 0


def first_corner(case: Case, position: tuple[int, int, bool]) -> None:
    """A sprite at the upper or the left edge. Pixels are lit at the other edges."""
    case.state.is_high = position[2] and case.has_super
    place(case, *position[:2], 5)
    use(case, SOLID[:5])
    case.draw(case.size[0] - 8, position[1], SOLID[:1])
    case.draw(position[0], case.size[1] - 1, SOLID[:1])


def zero_at_edge(case: Case, is_high: bool) -> None:
    edge(case, 5, 6, is_high)
    case.n = 0


def column_modulo(case: Case, columns: int) -> None:
    place(case, (case.size[0] + columns) % 256, 5, 4)


def row_modulo(case: Case, rows: int) -> None:
    place(case, 9, (case.size[1] + rows) % 256, 4)


def far_position(case: Case, position: tuple[int, int]) -> None:
    place(case, *position, 3)


def same_register(case: Case, value: int) -> None:
    case.y = case.x
    place(case, value, value, 5)


def x_is_f(case: Case, column: int) -> None:
    case.x = F
    place(case, column, 7, 5)
    case.draw(column, 7, [255])


def y_is_f(case: Case, row: int) -> None:
    case.y = F
    place(case, 11, row, 5)


def half_pixel(case: Case, offset: tuple[int, int]) -> None:
    """One stored pixel of four is lit, and the sprite is drawn in the low size."""
    case.state.is_high = False
    place(case, *INSIDE, 2)
    use(case, SOLID[:2])
    case.draw(2 * INSIDE[0] + offset[0], 2 * INSIDE[1] + offset[1], [0x80], is_high=True)
    case.state.v[F] = 0


def bytes_at_end(case: Case, values: tuple[int, int]) -> None:
    """I, and how many bytes are drawn."""
    place(case, *INSIDE, values[1])
    case.state.i = values[0]


def zero_at_end(case: Case, values: tuple[int, bool]) -> None:
    case.state.is_high = values[1] and case.has_super
    place(case, *INSIDE, 0)
    case.state.i = values[0]


def cut_past_end(case: Case, index: int) -> None:
    """Rows below the screen whose bytes are past the memory's end."""
    place(case, 8, case.size[1] - 1, 5)
    case.state.i = index


DRAW = (
    Kind("each height on a dark screen", (15, 1, *range(2, 15)), each_height, 2),
    Kind("height 0", SIZES, height_zero, 2),
    Kind("height 0, one pixel met", ((15, 15), (7, 15), (8, 0)), height_zero_meets),
    Kind("the same sprite again", (5, 15, 1), erase),
    Kind("one pixel met", ((0, 0), (7, 5), (7, 0), (0, 5)), meet_one),
    Kind("lit beside, no pixel met", (6, 15), lit_beside),
    Kind("lit between the set bits", (0xAA, 0x01), between_bits),
    Kind("no set bit on a lit screen", (3, 1), no_set_bit),
    Kind("right edge", (1, 4, 7, 2), right_edge),
    Kind("lower edge", (1, 4, 6, 3), lower_edge),
    Kind("lower right corner", (1, 6), corner),
    Kind("lower right corner, a pixel met", SIZES, corner_meets),
    Kind("left and upper edge", ((0, 0, False), (0, 0, True), (0, 9, False), (21, 0, True)), first_corner),
    Kind("height 0 at the corner", SIZES, zero_at_edge),
    Kind("column modulo the width", (0, 1, 63), column_modulo),
    Kind("row modulo the height", (0, 1, 31), row_modulo),
    Kind("position far outside", ((255, 255), (128, 127)), far_position),
    Kind("x = y", (0, 29), same_register),
    Kind("x = F", (5, 63), x_is_f),
    Kind("y = F", (4, 31), y_is_f),
    Kind("half a pixel met in the low size", ((1, 1), (0, 0), (3, 2)), half_pixel),
    Kind("bytes up to the end of the memory", ((LAST, 1), (MEMORY_BYTES - 15, 15), (MEMORY_BYTES - 6, 6)), bytes_at_end),
    Kind(
        "bytes past the end of the memory",
        ((LAST, 2), (65535, 1), (MEMORY_BYTES - 14, 15), (65535, 15)),
        bytes_at_end,
    ),
    Kind(
        "height 0 near the end of the memory",
        ((0xFF1, False), (0xFE1, True), (0xFF0, False), (0xFE0, True), (65535, False)),
        zero_at_end,
    ),
    Kind("rows below the screen past the end of the memory", (LAST, MEMORY_BYTES - 2), cut_past_end),
    AT_END,
    *TICKS,
)
