"""The run that is debugged: a source and its key events, the current step, and the addresses of the lines."""

from __future__ import annotations

import bisect
from collections.abc import Callable
from dataclasses import dataclass
from pathlib import Path

import chipbench
from chipbench import ListingLine, Refused, State, Symbol
from chipbench_files import read_file, shown
from chipbench_shell import views
from chipbench_shell.base import Commands, Snapshot
from chipbench_shell.game import Game, Settings
from chipbench_shell.search import LAST_STEP
from chipbench_shell.values import Mistake, counted

from .expressions import Condition, Subject, read_condition
from .search import Finder, Found, Task, Wanted

MEMORY_BYTES = 4096
CALL_BYTES = 2
#: The numbers of the conditions that end a step and aren't breakpoints.
STEPPED = -1


@dataclass(frozen=True)
class Frame:
    """A call that is open: the address of its next instruction, or of the call that it made, and the name of its subroutine."""

    address: int
    name: str
    line: int | None
    depth: int


class Layout:
    """The addresses of the lines, for one edition of the source."""

    def __init__(self, listing: list[ListingLine], symbols: dict[str, Symbol]) -> None:
        self.listing = listing
        self.symbols = symbols
        self._lines: list[int | None] = [None] * MEMORY_BYTES
        self.sizes: dict[int, int] = {}
        for place, line in enumerate(listing):
            if line.code and line.address is not None:
                self._add(place, line, line.address)
        self.labels = {
            symbol.value: name for name, symbol in reversed(symbols.items()) if self._is_label(symbol)
        }

    def _add(self, place: int, line: ListingLine, address: int) -> None:
        size = len(line.code)
        if line.more:
            later = (other.address for other in self.listing[place + 1 :] if other.address is not None)
            size = next(later, MEMORY_BYTES) - address
        self.sizes[line.number] = size
        end = min(address + size, MEMORY_BYTES)
        self._lines[address:end] = [line.number] * (end - address)

    def _is_label(self, symbol: Symbol) -> bool:
        return self.listing[symbol.line - 1].value is None

    def line_at(self, address: int) -> int | None:
        """The line whose bytes are at an address."""
        return self._lines[address] if 0 <= address < MEMORY_BYTES else None

    def with_code(self, number: int) -> ListingLine | None:
        """A line, or the first one after it, that has bytes."""
        for line in self.listing[max(number, 1) - 1 :]:
            if line.code and line.address is not None:
                return line
        return None

    def is_label(self, name: str) -> bool:
        return name in self.symbols and self._is_label(self.symbols[name])

    def label_at(self, address: int) -> str:
        """The label of an address, or the address."""
        return self.labels.get(address, f"#{address:03X}")


class Run(Commands):
    """The game that is debugged, at one of its steps."""

    def __init__(self, path: Path | None, image: Path | None, keys: Path | None, settings: Settings, program: str | None) -> None:
        content = None if image is None else needed(image)
        if path is not None:
            needed(path)
        self.game = Game(path, content, settings, program)
        try:
            if keys is not None:
                self.game.read_keys(needed(keys), keys)
        except BaseException:
            self.game.close()
            raise
        self.path, self.image = path, image
        self.finder = Finder(self.game)
        self._known: tuple[object, int, Layout] | None = None

    @property
    def step(self) -> int:
        return self.game.step

    @step.setter
    def step(self, step: int) -> None:
        self.game.step = step

    def close(self) -> None:
        self.game.close()

    def layout(self) -> Layout:
        bench = self.game.bench
        if self._known is None or self._known[0] is not bench or self._known[1] != bench.edition:
            self._known = bench, bench.edition, Layout(bench.listing, bench.symbols)
        return self._known[2]

    def state(self, step: int | None = None) -> State:
        return self.game.state(step)

    def first_fault(self) -> str | None:
        """The first fault of the source, with its place; None if it has no fault."""
        faults = self.faults_of(b"".join(line + b"\n" for line in self.game.bench.lines))
        return faults[0] if faults else None

    def faults_of(self, content: bytes) -> list[str]:
        found = [fault for fault in chipbench.check(content, self.game.bench.program) if not fault.is_warning]
        name = self.path.name if self.path is not None else "the source"
        return [f"{name}:{one.line}:{(one.start or 0) + 1}: {one.code}: {one.sentence}" for one in found]

    # -- frames

    def frames(self) -> list[Frame]:
        """The calls that are open, the newest first. A call is just before the address to which it returns."""
        state = self.state()
        addresses = [state.pc, *(address - CALL_BYTES for address in reversed(state.call_stack))]
        found = []
        for place, address in enumerate(addresses):
            depth = len(addresses) - 1 - place
            name = self._subroutine(state, addresses[place + 1]) if depth else "the program"
            found.append(Frame(address, name, self.layout().line_at(address), depth))
        return found

    def _subroutine(self, state: State, call: int) -> str:
        """The name of the subroutine that a call leads to."""
        word = int.from_bytes(state.memory[call : call + CALL_BYTES], "big") if 0 <= call < MEMORY_BYTES - 1 else 0
        return self.layout().label_at(word & 0xFFF) if word >> 12 == 2 else "a subroutine"

    # -- moves: each is a search that yields the steps that it has reached

    def forward(self, wanted: list[Wanted], after: int) -> Task:
        return self.finder.forward(wanted, after)

    def backward(self, wanted: list[Wanted], before: int) -> Task:
        return self.finder.backward(wanted, before)

    def until(self, condition: Condition, wanted: list[Wanted], after: int) -> Task:
        """The first step after one at which a condition holds, or a breakpoint."""
        return self.forward([Wanted(STEPPED, condition=condition), *wanted], after)

    def over(self, wanted: list[Wanted], after: int, depth: int) -> Task:
        """The next step in a subroutine of this depth, or outside it. A whole call is one step."""
        return self.until(not_deeper(depth), wanted, after)

    def back_over(self, wanted: list[Wanted], before: int, depth: int) -> Task:
        """The last earlier step in a subroutine of this depth, or outside it."""
        return self.backward([Wanted(STEPPED, condition=not_deeper(depth)), *wanted], before)

    def entry(self, depth: int, before: int) -> Task:
        """The last earlier step that has fewer calls open. The step after it is the first one of the call."""
        return self.backward([Wanted(STEPPED, condition=not_deeper(depth - 1))], before)

    def last_of_stop(self, step: int) -> int:
        """The first step at which the machine has stopped, if it has stopped at this one."""
        return bisect.bisect_left(range(step), True, key=lambda at: self.state(at).stopped is not None)

    def go(self, step: int) -> None:
        """Goes to a step; past a stop of the machine, to the stop."""
        if not 0 <= step <= LAST_STEP:
            raise Mistake(f"no step {step}: the steps are 0 to {LAST_STEP}")
        self.step = self.last_of_stop(step) if self.state(step).stopped else step

    # -- the file

    def take_edit(self) -> str | None:
        """Takes over the file that an editor has written, and says what changed. A source with faults isn't taken."""
        content = self.game.look_at_file()
        if content is None:
            return None
        name = self.path.name if self.path is not None else ""
        faults = self.faults_of(content) if len(content) <= LONGEST_SOURCE else []
        if faults:
            return f"{faults[0]}\n{name} has faults: the run keeps the lines from before this edit\n"
        written = content

        def take() -> str:
            return f"changed: {counted(self.game.take(written), 'line')}"

        return self.changed(take, name)

    def changed(self, edit: Callable[[], str], subject: str) -> str:
        """Makes an edit, and says what differs at the current step."""
        snapshot = Snapshot(self.game)
        try:
            done = edit()
        except (Mistake, Refused) as refused:
            return f"{subject}: {refused}\n"
        text = f"{subject} {done}; {self.difference(snapshot)}\n"
        if self.game.state_or_none() is not None:
            self.go(self.step)
        return text

    def key_event(self, key: int, step: int, down: bool) -> None:
        bench = self.game.bench
        if (step, key) in bench.events:
            bench.change_event(key, at=step, down=down)
        else:
            (bench.press if down else bench.release)(key, at=step)

    # -- words

    def line_text(self, number: int) -> str:
        return views.printable(self.layout().listing[number - 1].text.strip())

    def place_text(self, step: int) -> str:
        """The line of a step, or its instruction."""
        return self.where(self.state(step))

    def change_text(self, subject: Subject, found: Found) -> str:
        """Says what a step has changed, and which line did it."""
        place = self.place_text(found.changed_by or 0)
        return f"{subject.text} {subject.shown(found.before)} -> {subject.shown(found.after)} by {place}"


#: A source has 4,000 lines of 200 bytes; what is longer is refused by its lines.
LONGEST_SOURCE = 808_001


def not_deeper(depth: int) -> Condition:
    """At most so many calls are open."""
    return read_condition(f"DEPTH <= {depth}", {})


def needed(path: Path) -> bytes:
    content = read_file(path)
    if content is None:
        raise Mistake(f"there is no file {shown(path)}")
    return content
