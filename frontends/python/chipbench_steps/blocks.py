"""The code of whole programs at random: blocks of a few words that leave the machine running, and endings that stop it."""

from __future__ import annotations

import random
from collections.abc import Callable

from .setup import MEMORY_BYTES, START

# what the programs store into and load from, past their code, and where they count their rounds
DATA, DATA_BYTES = 0xA00, 0x120
ROUNDS = 0xB80
# a subroutine in the last two words of the memory
LAST_CALL = 0xFFC
# a register that other blocks only add to, so that a wrong value anywhere stays wrong
SUM = 0xE
RUNS_ON, WAITS = "runs on", "waits for keys"
STOPS = ("S1", "S2", "S3", "S4", "S5", "S6", "S7")
# how many blocks a program has; one that stops has few, so that it comes to its end, and makes some rounds of its loop
BLOCKS, BLOCKS_BEFORE_STOP, ROUNDS_BEFORE_STOP = 60, 25, 2


class Writer:
    """One program of a kind: a loop of blocks that runs on, or waits for keys time and again, or ends with a stop."""

    def __init__(self, rng: random.Random, has_super: bool, kind: str) -> None:
        self.rng, self.code = rng, bytearray()
        self.add(*(0x6000 | x << 8 | self.byte() for x in range(16)))
        self.add(0x6000 | ROUNDS_BEFORE_STOP, 0xA000 | ROUNDS, 0xF055)
        start = self.at
        choices = self.choices(has_super) + [self.wait_for_key] * (20 if kind == WAITS else 0)
        for _ in range(BLOCKS_BEFORE_STOP if kind in STOPS else BLOCKS):
            rng.choice(choices)()
        if kind in STOPS:
            self.add(0xA000 | ROUNDS, 0xF065, 0x70FF, 0xA000 | ROUNDS, 0xF055, 0x3000, 0x1000 | start)
            self.end(kind)
        else:
            self.add(0x1000 | start)
        self.image = self.with_data()

    def choices(self, has_super: bool) -> list[Callable[[], None]]:
        """The blocks, each as often as it is likely."""
        found: list[Callable[[], None]] = [self.calculate] * 6
        found += [self.skip, self.draw, self.digit, self.decimal, self.block, self.timers] * 2
        found += [self.random_byte, self.keys, self.call, self.modify, self.jump, self.index] * 2
        found += [self.wait, self.wait_for_key, self.clear, self.odd, self.at_end, self.long_skip, self.deep]
        return found + [self.scroll, self.resize, self.flags, self.large_digit] * 2 if has_super else found

    def with_data(self) -> bytes:
        """The image: the code, what the programs load, and the subroutine at the end of the memory."""
        code_bytes, data_at = len(self.code), DATA - START
        if code_bytes > data_at:
            raise ValueError(f"a program has {code_bytes} bytes of code")
        content = self.code.ljust(data_at, b"\0") + self.rng.randbytes(DATA_BYTES)
        return bytes(content.ljust(LAST_CALL - START, b"\0")) + bytes((0x70 | SUM, 0x11, 0x00, 0xEE))

    @property
    def at(self) -> int:
        """The address of the next word."""
        return START + len(self.code)

    def add(self, *words: int) -> None:
        for word in words:
            self.code += word.to_bytes(2, "big")

    def note(self, *registers: int) -> None:
        """Adds registers, and VF before them, to the sum."""
        for register in (15, *registers):
            self.add(0x8004 | SUM << 8 | register << 4)

    def count(self) -> int:
        """A word that adds to the sum: whether it was executed shows."""
        return 0x7000 | SUM << 8 | self.rng.randrange(1, 256, 2)

    def x(self) -> int:
        """A register that a block may change, VF more often than others."""
        choices: tuple[int, ...] = (*range(SUM), 15, 15, 15)
        return self.rng.choice(choices)

    def y(self) -> int:
        return self.rng.randrange(16)

    def byte(self) -> int:
        return self.rng.randrange(256)

    def data(self) -> int:
        """The word that points I into the data."""
        return 0xA000 | DATA + self.byte()

    # -- registers and jumps

    def calculate(self) -> None:
        for _ in range(self.rng.randrange(1, 4)):
            x, family = self.x(), self.rng.choice((6, 7, 8, 8, 8, 8))
            if family < 8:
                self.add(family << 12 | x << 8 | self.byte())
            else:
                self.add(0x8000 | x << 8 | self.y() << 4 | self.rng.choice((0, 1, 2, 3, 4, 5, 6, 7, 14)))
            self.note(x)

    def skip(self) -> None:
        """A skip by registers. In half of the cases both are made equal."""
        x, y, kind = self.x(), self.y(), self.rng.choice((0x3000, 0x4000, 0x5000, 0x9000))
        value = self.byte()
        if self.rng.randrange(2):
            self.add(0x6000 | x << 8 | value, 0x8000 | x << 8 | y << 4 if kind > 0x4000 else 0x6000 | x << 8 | value)
        self.add(kind | x << 8 | (value if kind < 0x5000 else y << 4), self.count(), self.count())

    def long_skip(self) -> None:
        """A skip over F000, of which XO-CHIP skips the next word too."""
        x, value = self.x(), self.byte()
        y = self.rng.choice([y for y in range(SUM) if y != x])
        self.add(0x6000 | x << 8 | value, 0x6000 | y << 8 | value)
        self.add(self.rng.choice((0x3000 | x << 8 | value, 0x4000 | x << 8 | value ^ 1, 0x5000 | x << 8 | y << 4)))
        self.add(0xF000, self.count(), self.count())

    def random_byte(self) -> None:
        x = self.x()
        self.add(0xC000 | x << 8 | self.byte())
        self.note(x)

    def call(self) -> None:
        """Calls what stands behind a jump over it."""
        inner = self.at + 4
        self.add(0x2000 | inner, 0x1000 | inner + 6, self.count(), self.count(), 0x00EE)

    def deep(self) -> None:
        """Sixteen calls, each inside the one before: as many as fit."""
        calls, inner = 16, self.at + 4
        self.add(0x2000 | inner, 0x1000 | inner + 6 * calls - 2)
        for number in range(1, calls):
            self.add(0x2000 | inner + 6 * number, self.count(), 0x00EE)
        self.add(self.count(), 0x00EE)

    def jump(self) -> None:
        """JP V0 over some words, others by V0 than by the register of the address's top digit."""
        first, second = self.rng.sample((0, 2, 4), 2)
        target = self.at + 6
        self.add(0x6000 | first, 0x6000 | target & 0xF00 | second, 0xB000 | target, self.count(), self.count(), self.count())

    def odd(self) -> None:
        """Words at odd addresses."""
        self.add(0x1000 | self.at + 3)
        self.code += b"\xff"
        self.add(self.count(), 0x2000 | self.at + 6, 0x1000 | self.at + 11, self.count(), 0x00EE)
        self.code += b"\xff"

    def modify(self) -> None:
        """Stores V0 into the operand of a word, before it is executed or behind it. Each round of the loop executes it again."""
        x, is_before = self.x(), self.rng.randrange(2)
        target = self.at + (4 if is_before else 0)
        store, word = (0xA000 | target + 1, 0xF055), (0x6000 | x << 8 | self.byte(),)
        self.add(*(store + word if is_before else word + store))
        self.note(x)

    # -- the memory

    def at_end(self) -> None:
        """Calls the last words of the memory, or loads or draws the last bytes."""
        count = self.rng.randrange(1, 16)
        first = 0xA000 | MEMORY_BYTES - count
        kind = self.rng.randrange(3)
        if kind == 0:
            self.add(0x2000 | LAST_CALL)
        elif kind == 1:
            self.add(first, 0xD000 | self.x() << 8 | self.y() << 4 | count)
        else:
            # VE is one of fifteen registers
            count = min(count, SUM)
            self.add(0xA000 | MEMORY_BYTES - count, 0xF065 | count - 1 << 8)
            self.note(count - 1)

    def decimal(self) -> None:
        at, x = self.data(), self.x()
        self.add(at, 0xF033 | x << 8, at, 0xF265)
        self.note(0, 1, 2)

    def block(self) -> None:
        """A load or a store, and a store where I is then."""
        x = self.rng.randrange(SUM)
        self.add(self.data(), self.rng.choice((0xF055, 0xF065)) | x << 8)
        if self.rng.randrange(2):
            self.add(0xF055 | self.rng.randrange(4) << 8)
        self.note(x)

    def index(self) -> None:
        x = self.rng.randrange(8)
        self.add(0xA000 | DATA, 0xF01E | self.x() << 8)
        self.note()
        self.add(self.rng.choice((0xF055, 0xF065)) | x << 8)
        self.note(x)

    def digit(self) -> None:
        self.add(0xF029 | self.x() << 8, 0xD005 | self.x() << 8 | self.y() << 4)
        self.note()
        self.add(0xF029 | self.x() << 8, 0xF265)
        self.note(0, 1, 2)

    # -- the screen, timers and keys

    def draw(self) -> None:
        self.add(0xA000 | self.rng.choice((self.rng.randrange(160), START + self.byte(), DATA)))
        self.add(0xD000 | self.x() << 8 | self.y() << 4 | self.rng.randrange(16))
        self.note()

    def clear(self) -> None:
        if self.rng.randrange(3) == 0:
            self.add(0x00E0)

    def timers(self) -> None:
        x = self.x()
        self.add(self.rng.choice((0xF007, 0xF015, 0xF018)) | x << 8)
        self.note(x)

    def wait(self) -> None:
        """Waits until the delay timer is at 0."""
        x = self.rng.randrange(SUM)
        self.add(0x6000 | x << 8 | self.rng.randrange(1, 5), 0xF015 | x << 8)
        back = self.at
        self.add(0xF007 | x << 8, 0x3000 | x << 8, 0x1000 | back)

    def keys(self) -> None:
        self.add(self.rng.choice((0xE09E, 0xE0A1)) | self.x() << 8, self.count(), self.count())

    def wait_for_key(self) -> None:
        """Waits for a key, with the timers at other values before and after."""
        x = self.x()
        self.add(0xF015 | self.x() << 8, 0xF018 | self.x() << 8, 0xF00A | x << 8)
        self.note(x)
        self.add(0xF007 | x << 8)
        self.note(x)

    # -- what SUPER-CHIP alone has

    def scroll(self) -> None:
        self.add(self.rng.choice((0x00C0 | self.rng.randrange(16), 0x00FB, 0x00FC)))

    def resize(self) -> None:
        self.add(self.rng.choice((0x00FE, 0x00FF)))

    def flags(self) -> None:
        x = self.rng.randrange(8)
        self.add(self.rng.choice((0xF075, 0xF085)) | x << 8)
        self.note(x)

    def large_digit(self) -> None:
        x = self.x()
        self.add(0x6000 | x << 8 | self.rng.randrange(10), 0xF030 | x << 8, 0xF565, 0xF030 | x << 8)
        self.note(0, 5)
        self.add(0xD00A | self.x() << 8 | self.y() << 4)

    # -- endings

    def end(self, stop: str) -> None:
        """Sets both timers, so that a tick shows, and stops the machine."""
        self.add(0x60C8, 0xF015, 0xF018)
        self.add(*self.rng.choice(self.endings(stop)))

    def endings(self, stop: str) -> list[tuple[int, ...]]:
        """Ways to a stop. Under a machine without SUPER-CHIP's instructions the ways to S1 and S7 lead to S2."""
        past, here = 0xA000 | MEMORY_BYTES - 3, self.at
        found: dict[str, list[tuple[int, ...]]] = {
            "S1": [(0x00FD,)],
            "S2": [(0xF000,), (0x3000 | 0x55, 0xF000), (0x5121,), (0x0230,), (0xF1FF,)],
            "S3": [(0x1FFF,), (0x60FF, 0x6FFF, 0xBFFF)],
            "S4": [(self.count(), 0x2000 | here)],
            "S5": [(0x00EE,)],
            "S6": [
                (past, 0xF355),
                (past, 0xF365),
                (past, 0x6002, 0xF01E, 0xF033),
                (past, 0x6104, 0x6204, 0xD124),
                (0xAFFF, 0x6001, 0xF01E, 0xF055),
            ],
            "S7": [(0xF875,), (0xF885,), (0xFF75,)],
        }
        return found[stop]
