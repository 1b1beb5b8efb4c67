"""Draws a machine and a source as plain text for a window of some width."""

from __future__ import annotations

from collections.abc import Container

from chipbench import ListingLine, Screen, State

from .values import Mistake, counted

HALF_BLOCKS = " ▀▄█"
ASCII_LETTERS = " '.:"
# by the pixels at the upper left, upper right, lower left and lower right, the last one the highest bit
QUARTER_BLOCKS = " ▘▝▀▖▌▞▛▗▚▐▜▄▙▟█"
BYTES_OF_ROW = 16
#: The lone surrogates by which Python represents the bytes 128 to 255 that are not UTF-8: their low eight bits are the byte.
BYTE_SURROGATES = range(0xDC80, 0xDD00)
#: At most this many characters of a typed word are shown.
LONGEST_WORD = 80


def screen(screen: Screen, width: int, has_blocks: bool) -> list[str]:
    """A screen in half blocks, or in quarter blocks where the window is too narrow for these; without blocks in ASCII."""
    if screen.width <= width:
        letters = HALF_BLOCKS if has_blocks else ASCII_LETTERS
        return [line.rstrip() for line in screen.draw(letters).split("\n")]
    if screen.width // 2 <= width and has_blocks:
        return [line.rstrip() for line in quarters(screen)]
    needed = screen.width // 2 if has_blocks else screen.width
    raise Mistake(f"the window has {width} columns, and the screen needs {needed}")


def quarters(screen: Screen) -> list[str]:
    """A screen with a character for four pixels, two above two.

    >>> quarters(Screen(False, {0: 0xf << 124}))[0].rstrip()
    '▀'
    """
    lines = []
    for upper, lower in zip(screen.rows[::2], screen.rows[1::2]):
        pixels = upper, lower
        lines.append("".join(QUARTER_BLOCKS[quarter_of(pixels, column)] for column in range(0, screen.width, 2)))
    return lines


def quarter_of(rows: tuple[str, str], column: int) -> int:
    """The number of a quarter block: a bit for each pixel of two rows from a column on."""
    pairs = (rows[place // 2][column + place % 2] for place in range(4))
    return sum(1 << place for place, pixel in enumerate(pairs) if pixel == "#")


def memory(content: bytes, address: int, width: int) -> list[str]:
    """Bytes of the memory, 16 in a row, or as many as a window of this width takes."""
    count = next((count for count in (BYTES_OF_ROW, 8, 4) if 3 * count + 5 <= width), 2)
    rows = range(0, len(content), count)
    return [f"{address + start:04x}  {content[start : start + count].hex(' ')}" for start in rows]


def source_line(line: ListingLine, mark: str, width: int) -> str:
    """A line of the source with its number and its address, cut at the width."""
    address = "    " if line.address is None or not line.code else f"{line.address:04x}"
    fault = f"{line.fault}: " if line.fault else ""
    return cut(f"{mark:2}{line.number:5} {address}  {fault}{printable(line.text)}".rstrip(), width)


def printable(text: str) -> str:
    """A text without characters that could steer the terminal, and without bytes that are not UTF-8: these are escaped.

    >>> printable("a\\x1b[2J"), printable("\\u2028"), printable("\\udcff"), printable("\\U000e0001")
    ('a\\\\x1b[2J', '\\\\u2028', '\\\\xff', '\\\\U000e0001')
    """
    return "".join(letter if letter.isprintable() else escaped(ord(letter)) for letter in text.expandtabs(8))


def escaped(code: int) -> str:
    """The escape of a character by its number; for a byte that is not UTF-8, the number of the byte."""
    if code in BYTE_SURROGATES:
        code &= 0xFF
    if code < 0x100:
        return f"\\x{code:02x}"
    return f"\\u{code:04x}" if code < 0x10000 else f"\\U{code:08x}"


def shortened(text: str, typed: str) -> str:
    """A message in which the long words of what was typed are cut.

    >>> len(shortened("no command " + "a" * 100, "a" * 100)) == len("no command ") + LONGEST_WORD
    True
    """
    for word in typed.split():
        if len(word) > LONGEST_WORD:
            text = text.replace(word, cut(word, LONGEST_WORD))
    return text


def cut(text: str, width: int) -> str:
    """A text of at most `width` characters; two full stops replace the rest.

    >>> cut("LD V0, 5", 6)
    'LD V..'
    """
    return text if len(text) <= width else text[: max(width - 2, 0)] + ".."


def differences(old: State, new: State, is_of_image: Container[int]) -> list[str]:
    """Names the differences between two states whose screens and memories were read, without bytes that differ in the images."""
    found = [f"V{number:X}" for number in range(16) if old.v[number] != new.v[number]]
    pairs = {
        "PC": (old.pc, new.pc),
        "I": (old.i, new.i),
        "DT": (old.delay_timer, new.delay_timer),
        "ST": (old.sound_timer, new.sound_timer),
        "the call stack": (old.call_stack, new.call_stack),
        "the flags": (old.flags, new.flags),
        "the random bytes used": (old.random_bytes_used, new.random_bytes_used),
        "the size": (old.is_high, new.is_high),
        "the stop": (old.stopped, new.stopped),
    }
    found += [name for name, (before, after) in pairs.items() if before != after]
    pixels = lit_differences(old.screen, new.screen)
    bytes_of_memory = enumerate(zip(old.memory, new.memory))
    count = sum(one != other and address not in is_of_image for address, (one, other) in bytes_of_memory)
    found += [counted(pixels, "pixel")] if pixels else []
    found += [counted(count, "byte") + " of the memory"] if count else []
    return found


def lit_differences(old: Screen, new: Screen) -> int:
    """The number of pixels that differ, in the larger size if the sizes differ."""
    rows = set(old.stored) | set(new.stored)
    stored = sum((old.stored.get(row, 0) ^ new.stored.get(row, 0)).bit_count() for row in rows)
    return stored if old.high or new.high else stored // 4


def changes(old: State, new: State) -> str:
    """The registers that a move has changed, with both values."""
    found = [
        f"V{number:X} {old.v[number]:02x} -> {new.v[number]:02x}" for number in range(16) if old.v[number] != new.v[number]
    ]
    for name, before, after, digits in (
        ("I", old.i, new.i, 4),
        ("DT", old.delay_timer, new.delay_timer, 2),
        ("ST", old.sound_timer, new.sound_timer, 2),
    ):
        if before != after:
            found.append(f"{name} {before:0{digits}x} -> {after:0{digits}x}")
    return ", ".join(found)
