"""One case: a state and an instruction, at random but for what a kind of case sets."""

from __future__ import annotations

import contextlib
import random
from collections.abc import Callable, Sequence
from dataclasses import dataclass
from typing import Any, NamedTuple

from .setup import MEMORY_BYTES, START, NoRoom, Sprite, Wanted

EDGES = (0, 1, 127, 128, 255)
LAST = MEMORY_BYTES - 1
DEEPEST = 16
F = 15
# where sprites that are drawn before the step have their bytes, as a case puts them there
SHEET = 0xE00
SOLID = (0xFF,) * 16
# the flag registers of rows that don't use them
SOME_FLAGS = (0x13, 0x57, 0x9B, 0xDF, 0x24, 0x68, 0xAC, 0xE1)
# a second word that XO-CHIP skips together with the first
LONG = (0xF0, 0x00, 0x12, 0x34)
# how many bytes of the memory before and after I a case shows
BEFORE_INDEX, AFTER_INDEX = 2, 34
# how often a case is made anew where its bytes leave no place for the code that sets it up
ATTEMPTS = 20


class Case:
    """A state and an instruction. `x`, `y`, `n`, `kk` and `address` are the operands, of which a pattern takes its own."""

    def __init__(self, rng: random.Random, has_super: bool) -> None:
        self.rng, self.has_super = rng, has_super
        self.about = "random"
        self.state = Wanted(v=[self.byte() for _ in range(16)])
        self.x, self.y = rng.sample(range(F), 2)
        self.n, self.kk, self.address = rng.randrange(16), self.byte(), rng.randrange(MEMORY_BYTES)
        state = self.state
        state.pc = 2 * rng.randrange(0x110, 0x6F0) + (rng.randrange(4) == 0)
        state.i = rng.randrange(MEMORY_BYTES - AFTER_INDEX)
        state.delay, state.sound = (rng.choice((*EDGES, rng.randrange(256))) for _ in range(2))
        state.is_tick = rng.randrange(4) == 0
        state.random_bytes_used = rng.randrange(4)
        state.keys = sorted(rng.sample(range(16), rng.randrange(4)))
        # made under each profile, so that all else is the same
        self.flags, is_high = [self.byte() for _ in range(8)], rng.randrange(2) == 0
        if has_super:
            state.flags, state.is_high = list(SOME_FLAGS), is_high
        # what is made from the rest once a kind has set it
        self.depth = rng.choice((0, 0, 1, 2, 3, 5))
        self.last_call: int | None = None
        self.after: Sequence[int] = ()
        self.whole_word = 0

    def byte(self) -> int:
        """A byte, at an edge in one of three."""
        return self.rng.choice(EDGES) if self.rng.randrange(3) == 0 else self.rng.randrange(256)

    # -- operands and their values

    @property
    def vx(self) -> int:
        return self.state.v[self.x]

    @vx.setter
    def vx(self, value: int) -> None:
        self.state.v[self.x] = value

    @property
    def vy(self) -> int:
        return self.state.v[self.y]

    @vy.setter
    def vy(self, value: int) -> None:
        self.state.v[self.y] = value

    def word(self, pattern: str) -> int:
        """The word of a pattern such as 8XY4, or the whole word where there is none."""
        if not pattern:
            return self.whole_word
        address, kk = f"{self.address:03X}", f"{self.kk:02X}"
        text = pattern.replace("NNN", address).replace("KK", kk)
        for letter, value in (("X", self.x), ("Y", self.y), ("N", self.n)):
            text = text.replace(letter, f"{value:X}")
        return int(text, 16)

    # -- the screen

    @property
    def size(self) -> tuple[int, int]:
        """The columns and rows of the size."""
        return (128, 64) if self.state.is_high else (64, 32)

    def draw(self, column: int, row: int, content: Sequence[int], is_high: bool | None = None) -> None:
        """Draws a sprite of at most 15 rows before the step. Its bytes stand on the sheet."""
        at = SHEET + sum(sprite.height for sprite in self.state.sprites)
        self.state.put(at, content)
        size = self.state.is_high if is_high is None else is_high and self.has_super
        self.state.sprites.append(Sprite(column, row, len(content), at, size))

    def draw_at_random(self, most: int) -> None:
        for _ in range(self.rng.randrange(most + 1)):
            self.draw(self.byte(), self.byte(), [self.rng.randrange(256) for _ in range(self.rng.randrange(1, 12))])

    def draw_around(self) -> None:
        """Lights pixels at all four edges and in the middle."""
        width, height = self.size
        for column in (0, width // 2 - 3, width - 8):
            for row in (0, height // 2, height - 5):
                self.draw(column, row, [self.rng.randrange(256) | 0x81 for _ in range(5)])

    # -- the rest of the state

    def finish(self, row: Row) -> None:
        """Puts the instruction into the memory, bytes around I where the row shows them, and chooses the open calls."""
        state = self.state
        word = self.word(row.pattern)
        if row.shows_index:
            # the digits stay
            window = range(max(state.i - BEFORE_INDEX, START), min(state.i + AFTER_INDEX, MEMORY_BYTES))
            state.put(window.start, [state.memory.get(at, self.rng.randrange(256)) for at in window])
        state.put(state.pc, (word >> 8, word & 255, *self.after))
        self._call(self.depth)

    def _call(self, depth: int) -> None:
        """Makes calls at random, the newest one where it is wanted."""
        calls = self.state.calls
        if self.last_call is not None:
            calls.append(self.last_call)
        code = self.state.code_place()
        while len(calls) < depth:
            at = self.rng.randrange(START + 2, LAST)
            taken = {near for call in calls for near in (call - 1, call, call + 1)} | self.state.memory.keys()
            if taken.isdisjoint((at, at + 1)) and at not in code and at + 1 not in code:
                calls.insert(0, at)


class Kind(NamedTuple):
    """A kind of cases: what it is, in few words, its variants, and what one of them sets in a case. `at_once` of the variants
    come in each turn of the kinds."""

    about: str
    variants: Sequence[Any]
    apply: Callable[[Case, Any], None]
    at_once: int = 1


@dataclass(frozen=True)
class Row:
    """A row of the instruction table, or the words that stop the machine for another reason."""

    name: str
    pattern: str
    kinds: Sequence[Kind]
    # what each case of the row needs, also the random ones
    prepare: Callable[[Case], None]
    # whether the bytes at I are shown, and those behind the word
    shows_index: bool = False
    shows_next: bool = False

    def order(self) -> list[tuple[Kind, Any]]:
        """The kinds with their variants, in turns."""
        turns: list[tuple[int, int, Kind, Any]] = []
        for place, kind in enumerate(self.kinds):
            turns += [(number // kind.at_once, place, kind, variant) for number, variant in enumerate(kind.variants)]
        turns.sort(key=lambda turn: turn[:2])
        return [(kind, variant) for _, _, kind, variant in turns]

    def case(self, number: int, seed: int, has_super: bool) -> Case:
        """Case `number`, counted from 0, of a seed. How many are asked for changes nothing, and the profile only the parts that
        SUPER-CHIP alone has, and the screen."""
        for attempt in range(ATTEMPTS):
            with contextlib.suppress(NoRoom):
                return self._attempt(number, random.Random(f"{seed} {self.name} {number} {attempt}"), has_super)
        raise NoRoom

    def _attempt(self, number: int, rng: random.Random, has_super: bool) -> Case:
        case = Case(rng, has_super)
        listed = self.order()
        self.prepare(case)
        if number < len(listed):
            kind, variant = listed[number]
            case.about = kind.about
            kind.apply(case, variant)
        case.finish(self)
        return case
