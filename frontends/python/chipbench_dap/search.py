"""Finds the steps of a run at which something holds, forward and back.

Only this module finds steps: it reads the lines of `chipbench trace`, and asks the session for anything that these don't have.
The other modules describe what they look for as `Wanted`, whose conditions and subjects have texts too.
"""

from __future__ import annotations

import re
from collections.abc import Callable, Generator, Iterator, Sequence
from contextlib import closing
from dataclasses import dataclass, field

from chipbench import Bench, ChipbenchError, Screen, State
from chipbench_shell.game import Game
from chipbench_shell.search import COLUMNS, LAST_STEP, WORD, Search, depth_of
from chipbench_shell.values import Mistake

from .expressions import REGISTERS, Condition, NoValue, Subject

#: The number of lines after which a search reports its step, so that it can be interrupted.
SLICE = 4000
#: The number of steps that a search back looks at first. Each further piece has twice as many.
FIRST_PIECE = 4000
#: The instructions that read keys, and those that write memory, by their last byte.
STORES = (b"33", b"55")
DRAWS_FIELD = re.compile(rb" ([0-9]+) ")
HIT_FORM = re.compile(r"\s*(==?|>=|<=|>|<|%)?\s*([0-9]{1,9})\s*")


def reads_keys(word: bytes) -> bool:
    """Whether the next instruction is SKP, SKNP or LD Vx, K."""
    return (word[:1] == b"e" and word[2:] in (b"9e", b"a1")) or (word[:1] == b"f" and word[2:] == b"0a")


class StateView:
    """A state as expressions look at it."""

    def __init__(self, state: State) -> None:
        self.state = state

    def item(self, name: str) -> int:
        state = self.state
        if name.startswith("V"):
            return state.v[int(name[1:], 16)]
        if name == "KEYS":
            return int(state.pc < 4095 and reads_keys(state.memory[state.pc : state.pc + 2].hex().encode()))
        return {
            "I": state.i, "PC": state.pc, "DT": state.delay_timer, "ST": state.sound_timer, "DEPTH": len(state.call_stack),
            "HIGH": int(state.is_high), "DRAWS": state.random_bytes_used, "STEP": state.step,
        }[name]

    def byte(self, address: int) -> int:
        return state_byte(self.state, address)

    def pixel(self, column: int, row: int) -> int:
        return lit(self.state.screen, column, row)


def state_byte(state: State, address: int) -> int:
    return state.memory[address]


def lit(screen: Screen, column: int, row: int) -> int:
    try:
        return int(screen.is_lit(column, row))
    except IndexError:
        raise NoValue from None


class LineView:
    """A line of a trace as expressions look at it. It asks the session for bytes and pixels, and asks again only after a step that
    may have changed them."""

    def __init__(self, bench: Bench) -> None:
        self._bench = bench
        self.step = -1
        self._line = b""
        self._bytes: dict[int, int] = {}
        self._shown: Screen | None = None

    def take(self, step: int, line: bytes) -> None:
        before = self._line[WORD]
        if step != self.step + 1:
            self._bytes, self._shown = {}, None
        else:
            if before[2:] in STORES:
                self._bytes = {}
            if before[:1] == b"d" or before[:2] == b"00":
                self._shown = None
        self.step, self._line = step, line

    def item(self, name: str) -> int:
        if name in REGISTERS:
            return int(self._line[COLUMNS[name]], 16)
        if name == "KEYS":
            return int(reads_keys(self._line[WORD]))
        if name == "DEPTH":
            return depth_of(self._line)
        if name == "STEP":
            return self.step
        if name == "DRAWS":
            found = DRAWS_FIELD.search(self._line, len(self._line[:69]) + len(str(depth_of(self._line))))
            return int(found[1]) if found is not None else 0
        return int(self._screen().high)

    def _screen(self) -> Screen:
        """The screen at this step, or at an earlier one after which no step drew."""
        if self._shown is None:
            size, *rows = self._bench.ask(f"screen {self.step}").split("\n")[:-2]
            self._shown = Screen(size == "high", {int(row[:2]): int(row[3:], 16) for row in rows})
        return self._shown

    def byte(self, address: int) -> int:
        if address not in self._bytes:
            self._bytes[address] = int(self._bench.ask(f"mem {self.step} {address} 1"), 16)
        return self._bytes[address]

    def pixel(self, column: int, row: int) -> int:
        return lit(self._screen(), column, row)


@dataclass(frozen=True)
class Hits:
    """A hit count: which of a breakpoint's hits stop the run. Hits are counted from step 0 in both directions, so that a count
    means the same going back."""

    sign: str
    number: int

    def fits(self, count: int) -> bool:
        if self.sign == "%":
            return count % self.number == 0
        return {
            "": count == self.number, "=": count == self.number, "==": count == self.number, ">=": count >= self.number,
            "<=": count <= self.number, ">": count > self.number, "<": count < self.number,
        }[self.sign]


def read_hits(text: str) -> Hits:
    """Reads a hit count: `5` or `= 5` is only the fifth hit, `>= 5` is every hit from then on, and `% 5` is every fifth.

    >>> read_hits("% 5").fits(10), read_hits(">= 3").fits(2)
    (True, False)
    """
    found = HIT_FORM.fullmatch(text)
    if found is None or (found[1] == "%" and int(found[2]) == 0):
        raise Mistake(f"'{text.strip()}' is not a hit count: expected 5, >= 5, or % 5 for each fifth time")
    return Hits(found[1] or "", int(found[2]))


@dataclass(frozen=True)
class Wanted:
    """The step that ends a search: pc is at `address`, `condition` holds, and `changed` has another value than at the step
    before. None means that anything will do. With `told` the step doesn't end the search; `told` is called instead."""

    number: int
    address: int | None = None
    condition: Condition | None = None
    changed: Subject | None = None
    hits: Hits | None = None
    told: Callable[[int, LineView], None] | None = None


@dataclass(frozen=True)
class Found:
    """The result of a search: `step`, or None, and the numbers of the `Wanted` that hold there. `last` is the last step that was
    looked at, and the machine has stopped there if `is_stopped`. The step `changed_by` has changed a subject from `before` to
    `after`."""

    step: int | None
    numbers: tuple[int, ...] = ()
    last: int = 0
    is_stopped: bool = False
    changed_by: int | None = None
    before: tuple[int, ...] = ()
    after: tuple[int, ...] = ()


#: A search yields the step that it has reached now and then, and returns its result.
Task = Generator[int, None, Found]


@dataclass
class Counted:
    """One `Wanted` as a search goes over the lines."""

    wanted: Wanted
    address: bytes | None
    count: int = 0
    before: tuple[int, ...] | None = None
    values: tuple[tuple[int, ...], tuple[int, ...]] = field(default=((), ()))

    def holds(self, view: LineView, line: bytes) -> bool:
        """Whether the step of a line is wanted. Must be called for each line, in order."""
        wanted = self.wanted
        if wanted.changed is not None:
            before, now = self.before, wanted.changed.read(view)
            self.before = now
            if before is None or before == now:
                return False
            self.values = before, now
        if self.address is not None and not line.startswith(self.address):
            return False
        if wanted.condition is not None and not wanted.condition.holds(view):
            return False
        self.count += 1
        return wanted.hits is None or wanted.hits.fits(self.count)


class Finder:
    """Searches of one game."""

    def __init__(self, game: Game) -> None:
        self._game = game

    def _lines(self, first: int, last: int) -> Iterator[tuple[int, bytes]]:
        return Search(self._game, lambda step: None).lines(first, last)

    def _counted(self, wanted: Sequence[Wanted]) -> list[Counted]:
        return [Counted(one, None if one.address is None else b"%04x" % one.address) for one in wanted]

    def forward(self, wanted: Sequence[Wanted], after: int) -> Task:
        """The first step after one at which something wanted holds. A step at which the machine has stopped doesn't count."""
        start = 0 if any(one.hits for one in wanted) else max(after, 0)
        for step, view, held, is_last in self._matches(wanted, start, LAST_STEP):
            if is_last is not None:
                return Found(None, (), step, is_last)
            if held and step <= after:
                # this line was looked at before
                continue
            for one in held:
                if one.wanted.told is not None:
                    one.wanted.told(step, view)
            stopping = [one for one in held if one.wanted.told is None]
            if stopping:
                return found_of(step, stopping, step - 1)
            yield step
        return Found(None, (), max(after, 0), False)

    def _matches(
        self, wanted: Sequence[Wanted], first: int, last: int
    ) -> Iterator[tuple[int, LineView, list[Counted], bool | None]]:
        """Each step at which something wanted holds; now and then another step; and the last one, with whether the machine has
        stopped there."""
        counted = self._counted(wanted)
        is_plain = all(one.address is not None and one.wanted.changed is None for one in counted)
        addresses = {one.address for one in counted}
        view, step, line = LineView(self._game.bench), first, b""
        with closing(self._lines(first, last)) as lines:  # type: ignore[type-var]
            for step, line in lines:
                if step % SLICE == 0:
                    yield step, view, [], None
                if (is_plain and line[:4] not in addresses) or is_stop(line):
                    continue
                view.take(step, line)
                held = [one for one in counted if one.holds(view, line)]
                if held:
                    yield step, view, held, None
        is_over = is_stop(line)
        if step < last and not is_over:
            raise ChipbenchError("the search has ended early, because its program was killed")
        yield step, view, [], is_over

    def backward(self, wanted: Sequence[Wanted], before: int) -> Task:
        """The last earlier step at which something wanted holds. For a change it is the step that makes the change."""
        is_counted = any(one.hits for one in wanted)
        end, size = before, FIRST_PIECE
        while end > 0:
            start = 0 if is_counted else max(0, end - size)
            found: Found | None = None
            # a change is seen at the step after it
            for step, _, held, _ in self._matches(wanted, start, end):
                if not held:
                    yield step
                    continue
                at = {one.wanted.number: step - (one.wanted.changed is not None) for one in held}
                for place in sorted(set(at.values())):
                    if place < before and place <= end and (found is None or found.step is None or place >= found.step):
                        found = found_of(place, [one for one in held if at[one.wanted.number] == place], place)
            if found is not None:
                return found
            end, size = start, size * 2
        return Found(None, (), 0, False)


def found_of(step: int, held: Sequence[Counted], changed_by: int) -> Found:
    """The numbers of the `Wanted` that hold at a step, and the change of the first subject among them."""
    numbers = tuple(one.wanted.number for one in held)
    changed = next((one for one in held if one.wanted.changed is not None), None)
    if changed is None:
        return Found(step, numbers, step)
    return Found(step, numbers, step, False, changed_by, *changed.values)


def is_stop(line: bytes) -> bool:
    """Whether the machine has stopped at a line. The last line of a trace then has the code of the stop as its text."""
    text = line[line.rindex(b" ") + 1 :] if line else b""
    return len(text) == 2 and text[:1] == b"S" and text[1:].isdigit()
