"""The machine after some steps: registers, screen, memory."""

from __future__ import annotations

import functools
from collections.abc import Iterable, Sequence
from dataclasses import dataclass, field
from typing import TYPE_CHECKING, Any

from .errors import Stale

if TYPE_CHECKING:
    from .bench import Bench

MEMORY_BYTES = 4096
STORED_COLUMNS, STORED_ROWS = 128, 64
ROW_WIDTH = 80


def wrapped(parts: Sequence[str], width: int) -> list[str]:
    """Parts with two blanks between them, in lines of at most `width`. A part must not be longer than that.

    >>> wrapped(["one", "two", "three"], 8)
    ['one  two', 'three']
    """
    lines: list[str] = []
    for part in parts:
        if lines and len(lines[-1]) + 2 + len(part) <= width:
            lines[-1] += "  " + part
        else:
            lines.append(part)
    return lines


@dataclass(frozen=True)
class Screen:
    """A screen. `rows` are its pixels from the top, `#` for a lit one; `str` draws it with half blocks, as `picture` does.

    >>> screen = Screen(False, {0: 0xf << 124, 2: 3 << 124})
    >>> screen.rows[0][:4], screen.rows[1][:4], screen.width, screen.height
    ('##..', '.#..', 64, 32)
    >>> screen.is_lit(1, 1)
    True
    """

    high: bool
    stored: dict[int, int] = field(repr=False)

    @property
    def width(self) -> int:
        return STORED_COLUMNS if self.high else STORED_COLUMNS // 2

    @property
    def height(self) -> int:
        return STORED_ROWS if self.high else STORED_ROWS // 2

    def is_lit(self, column: int, row: int) -> bool:
        """Whether a pixel is lit. In the low size a pixel is two by two stored ones, of which the upper left one is shown."""
        scale = 1 if self.high else 2
        if not (0 <= column < self.width and 0 <= row < self.height):
            raise IndexError(f"no pixel at column {column}, row {row}")
        return bool(self.stored.get(row * scale, 0) >> (STORED_COLUMNS - 1 - column * scale) & 1)

    @functools.cached_property
    def rows(self) -> tuple[str, ...]:
        return tuple(
            "".join("#" if self.is_lit(column, row) else "." for column in range(self.width)) for row in range(self.height)
        )

    def draw(self, letters: str = " ▀▄█") -> str:
        """The screen as text, one character for two pixels above each other: `letters` for none, the upper, the lower, both."""
        pairs = (zip(upper, lower) for upper, lower in zip(self.rows[::2], self.rows[1::2]))
        return "\n".join("".join(letters[(above == "#") + 2 * (below == "#")] for above, below in pair) for pair in pairs)

    def __str__(self) -> str:
        return self.draw()


class State:
    """The machine after some steps. The registers are read at once, `screen` and `memory` at their first use, which raises `Stale`
    if the source or the key events have changed since. States are equal if everything is equal, with the step. A pickled or copied
    state has its screen and its memory, and no bench."""

    def __init__(self, bench: Bench, step: int, answer: bytes) -> None:
        registers, counters, parts = answer.decode("ascii").splitlines()
        flags, stack = parts.split(" stack")
        named = counters.split()
        self._bench: Bench | None = bench
        self._edition = bench.edition
        #: The registers as the program answers them.
        self.answer = answer.decode("ascii")
        self.step = step
        self.v = tuple(int(byte, 16) for byte in registers.split()[1:])
        self.pc, self.i, self.delay_timer, self.sound_timer = (int(named[at], 16) for at in (1, 3, 5, 7))
        self.random_bytes_used = int(named[9])
        self.is_high = named[10] == "high"
        self.stopped = None if named[11] == "run" else named[11]
        self.flags = tuple(int(byte, 16) for byte in flags.split()[1:])
        self.call_stack = tuple(int(address, 16) for address in stack.split())

    @functools.cached_property
    def screen(self) -> Screen:
        size, *rows = self._ask(f"screen {self.step}").split("\n")[:-2]
        return Screen(size == "high", {int(row[:2]): int(row[3:], 16) for row in rows})

    @functools.cached_property
    def memory(self) -> bytes:
        return bytes.fromhex(self._ask(f"mem {self.step} 0 {MEMORY_BYTES}"))

    def _ask(self, command: str) -> str:
        if self._bench is None or self._edition != self._bench.edition:
            raise Stale(f"the source or the key events have changed since step {self.step} was read")
        return self._bench.ask(command)

    def _registers(self) -> tuple[object, ...]:
        timers = self.delay_timer, self.sound_timer
        rest = self.random_bytes_used, self.is_high, self.stopped, self.flags, self.call_stack
        return (self.step, self.v, self.pc, self.i, *timers, *rest)

    def __eq__(self, other: object) -> bool:
        if not isinstance(other, State):
            return NotImplemented
        if self is other:
            return True
        return self._registers() == other._registers() and (self.screen, self.memory) == (other.screen, other.memory)

    def __hash__(self) -> int:
        return hash(self._registers())

    def __getstate__(self) -> dict[str, Any]:
        parts = {**vars(self), "screen": self.screen, "memory": self.memory}
        return {name: part for name, part in parts.items() if name != "_bench"}

    def __setstate__(self, parts: dict[str, Any]) -> None:
        vars(self).update(parts, _bench=None)

    def rows(self, width: int = ROW_WIDTH, others: Iterable[str] = ()) -> list[str]:
        """The registers, the timers, the call stack and the flags as the shell shows them, in rows of at most `width` characters,
        with `others` after the timers."""
        count = next((count for count in (16, 8, 4) if count * 7 - 2 <= width), 2)
        values = [f"V{number:X} {value:02x}" for number, value in enumerate(self.v)]
        parts = [f"PC {self.pc:04x}", f"I {self.i:04x}", f"DT {self.delay_timer:02x}", f"ST {self.sound_timer:02x}"]
        parts += [f"random bytes used {self.random_bytes_used}", f"{'high' if self.is_high else 'low'} size", *others]
        stack = " ".join(f"{address:04x}" for address in self.call_stack) or "empty"
        flags = " ".join(f"{value:02x}" for value in self.flags)
        rows = ["  ".join(values[start : start + count]) for start in range(0, len(values), count)]
        return [*rows, *wrapped(parts, width), f"call stack {stack}", f"flags {flags}"]

    def __str__(self) -> str:
        """The step, and the registers as the shell shows them."""
        stop = f", stopped: {self.stopped}" if self.stopped else ""
        return "\n".join([f"step {self.step}{stop}", *self.rows()])

    def __repr__(self) -> str:
        return f"<State step={self.step} pc={self.pc:04x} stopped={self.stopped}>"
