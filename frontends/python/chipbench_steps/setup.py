"""Programs that bring the machine to a state before one step. Nothing here says what the step does."""

from __future__ import annotations

from collections.abc import Iterable
from dataclasses import dataclass, field
from typing import NamedTuple

START = 0x200
MEMORY_BYTES = 4096
REGISTERS = 16
LOW, HIGH = 0x00FE, 0x00FF
# The code that sets a state up stands in the first of these places that holds nothing else: bytes from each on.
PLACES = (0x210, 0x500, 0x7F0, 0xAE0)
PLACE_BYTES = 0x2F0
# What the machine executes where nothing is to change: LD V0, 0.
IDLE = 0x6000


class NoRoom(Exception):
    """A state needs its bytes where each place for the code is."""


class Sprite(NamedTuple):
    """A sprite that is drawn before the step: its bytes at an address, and the size in which it is drawn."""

    column: int
    row: int
    height: int
    address: int
    is_high: bool


@dataclass
class Wanted:
    """A state before one step, with the keys and the tick of that step."""

    pc: int = START
    v: list[int] = field(default_factory=lambda: [0] * REGISTERS)
    i: int = 0
    delay: int = 0
    sound: int = 0
    # the addresses of the calls that are open, the oldest first: each return address is two above
    calls: list[int] = field(default_factory=list)
    flags: list[int] | None = None
    is_high: bool = False
    sprites: list[Sprite] = field(default_factory=list)
    # bytes of the memory by their addresses
    memory: dict[int, int] = field(default_factory=dict)
    keys: list[int] = field(default_factory=list)
    random_bytes_used: int = 0
    is_tick: bool = False

    def put(self, address: int, content: Iterable[int]) -> None:
        """Has bytes from an address on. Those outside the memory are left out, and those where the program begins."""
        for at, byte in enumerate(content, address):
            if 0 <= at < MEMORY_BYTES and at not in (START, START + 1):
                self.memory[at] = byte

    def code_place(self) -> range:
        """Where the code that sets the state up stands."""
        taken = {*self.memory, *(at + byte for at in self.calls for byte in (0, 1))}
        for place in PLACES:
            if taken.isdisjoint(range(place, place + PLACE_BYTES)):
                return range(place, place + PLACE_BYTES)
        raise NoRoom


class Setup:
    """A program after which the machine is in a state: its bytes by their addresses, and how many steps it makes.

    `idle` steps that change nothing come first. `NoRoom` where the state leaves no place for the code."""

    def __init__(self, wanted: Wanted, idle: int = 0) -> None:
        self.bytes: dict[int, int] = {}
        self.steps = 0
        self._at = START
        place = wanted.code_place()
        self._go_to(place.start)
        for _ in range(idle):
            self._do(IDLE)
        self._store(wanted)
        self._draw(wanted)
        if wanted.flags is not None:
            self._load(wanted.flags)
            self._do(0xF075 | len(wanted.flags) - 1 << 8)
        for _ in range(wanted.random_bytes_used):
            self._do(0xC0FF)
        self._do(0x6000 | wanted.delay, 0xF015, 0x6000 | wanted.sound, 0xF018)
        self._call(wanted.calls)
        self._point(wanted.i)
        self._load(wanted.v)
        self._arrive(wanted.pc)
        if self._at > place.stop:
            raise NoRoom
        # the state's own bytes are there from the start, but for those below the program
        self.bytes.update((at, byte) for at, byte in wanted.memory.items() if at >= START)

    def _do(self, *words: int) -> None:
        """Words that are executed one after another."""
        for word in words:
            self.bytes[self._at], self.bytes[self._at + 1] = word >> 8, word & 255
            self._at += 2
            self.steps += 1

    def _go_to(self, address: int) -> None:
        self._do(0x1000 | address)
        self._at = address

    def _load(self, values: list[int]) -> None:
        self._do(*(0x6000 | number << 8 | value for number, value in enumerate(values)))

    def _store(self, wanted: Wanted) -> None:
        """Stores the bytes below the program."""
        for at, byte in sorted(wanted.memory.items()):
            if at < START:
                self._do(0x6000 | byte, 0xA000 | at, 0xF055)

    def _draw(self, wanted: Wanted) -> None:
        """Draws the sprites, and leaves the size that is wanted."""
        is_high = False
        for sprite in wanted.sprites:
            is_high = self._size(is_high, sprite.is_high)
            self._load([sprite.column, sprite.row])
            self._do(0xA000 | sprite.address, 0xD010 | sprite.height)
        self._size(is_high, wanted.is_high)

    def _size(self, is_high: bool, is_wanted: bool) -> bool:
        if is_high != is_wanted:
            self._do(HIGH if is_wanted else LOW)
        return is_wanted

    def _call(self, calls: list[int]) -> None:
        """Makes the calls, each where the one before leads, and goes on behind them."""
        if not calls:
            return
        after = self._at + 2
        self._go_to(calls[0])
        for target in [*calls[1:], after]:
            self._do(0x2000 | target)
            self._at = target

    def _point(self, index: int) -> None:
        """I, above 4095 by sums. It uses V0."""
        self._do(0xA000 | min(index, 0xFFF))
        whole, rest = divmod(max(index - 0xFFF, 0), 255)
        if whole:
            self._do(0x60FF, *[0xF01E] * whole)
        if rest:
            self._do(0x6000 | rest, 0xF01E)

    def _arrive(self, pc: int) -> None:
        """Goes to the instruction. Above 4095 the sum of #FFF and V0 or VF, which are the same, leads there."""
        self._do(0x1000 | pc if pc <= 0xFFF else 0xBFFF)
