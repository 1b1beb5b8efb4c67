"""Breakpoints as the client sets them, and the `Wanted` that each gives a search."""

from __future__ import annotations

import re
from collections.abc import Callable, Iterator
from dataclasses import dataclass

from chipbench_shell.values import Mistake, near

from .expressions import Subject, read_condition, read_subject, read_sum, value_or_none
from .run import Layout, Run
from .search import LineView, Wanted, read_hits
from .wire import Arguments, optional, required

LAST_ADDRESS = 4095
FIELD = re.compile(r"\{([^{}]*)\}")
#: The name of each kind when the machine stops at it.
REASONS = {
    "line": "breakpoint", "function": "function breakpoint", "instruction": "instruction breakpoint", "data": "data breakpoint",
}

#: Writes the text of a log point.
Tell = Callable[[str], None]


@dataclass
class Breakpoint:
    """One breakpoint. `place` is the line, the label, the address or the subject, as the client has named it."""

    number: int
    kind: str
    place: int | str
    condition: str = ""
    hits: str = ""
    log: str = ""
    column: int | None = None
    line: int | None = None
    address: int | None = None
    subject: Subject | None = None
    wanted: Wanted | None = None
    problem: str = ""


class Breakpoints:
    """All breakpoints. One that can't be set stays unverified with a message, and is tried again after an edit."""

    def __init__(self, run: Run, tell: Tell) -> None:
        self.run = run
        self._tell = tell
        self._last = 0
        self.points: dict[str, list[Breakpoint]] = {kind: [] for kind in REASONS}

    def __iter__(self) -> Iterator[Breakpoint]:
        return (point for points in self.points.values() for point in points)

    def of(self, number: int) -> Breakpoint | None:
        return next((point for point in self if point.number == number), None)

    def wanted(self) -> list[Wanted]:
        return [point.wanted for point in self if point.wanted is not None]

    def replace(self, kind: str, given: list[Arguments], place: Callable[[Arguments], int | str]) -> list[Breakpoint]:
        """Replaces all breakpoints of a kind by these. A breakpoint that was set before keeps its number."""
        made: list[Breakpoint] = []
        for one in given:
            point = Breakpoint(
                0, kind, place(one), optional(one, "condition", str) or "", optional(one, "hitCondition", str) or "",
                optional(one, "logMessage", str) or "", optional(one, "column", int),
            )
            point.number = self._number_of(kind, point.place, {new.number for new in made})
            made.append(point)
        self.points[kind] = made
        for point in made:
            self.resolve(point)
        return made

    def _number_of(self, kind: str, place: int | str, taken: set[int]) -> int:
        """The number of the breakpoint that was set there, or a new one."""
        for old in self.points[kind]:
            if old.place == place and old.number not in taken:
                return old.number
        self._last += 1
        return self._last

    def take_over(self, old: Breakpoints) -> None:
        """Sets the breakpoints of an earlier run again."""
        self._last, self.points = old._last, old.points
        for point in self:
            self.resolve(point)

    def resolve(self, point: Breakpoint) -> None:
        """Finds the address of a breakpoint, and the `Wanted` that it gives a search."""
        point.wanted, point.problem, point.line, point.address = None, "", None, None
        layout = self.run.layout()
        try:
            self._place(point, layout)
            symbols = layout.symbols
            condition = read_condition(point.condition, symbols) if point.condition.strip() else None
            hits = read_hits(point.hits) if point.hits.strip() else None
            told = self._teller(point) if point.log else None
            point.wanted = Wanted(point.number, point.address, condition, point.subject, hits, told)
        except Mistake as mistake:
            point.problem = str(mistake)

    def _place(self, point: Breakpoint, layout: Layout) -> None:
        if point.kind == "line":
            line = layout.with_code(int(point.place))
            if line is None:
                raise Mistake(f"neither line {point.place} nor any line after it has code")
            point.line, point.address = line.number, line.address
        elif point.kind == "function":
            point.address = label_address(layout, str(point.place))
            point.line = layout.line_at(point.address)
        elif point.kind == "instruction":
            point.address = int(point.place)
            if not 0 <= point.address <= LAST_ADDRESS:
                raise Mistake(f"#{point.address:X} is no address: the memory has the addresses 0 to {LAST_ADDRESS}")
            point.line = layout.line_at(point.address)
        else:
            point.subject = read_subject(str(point.place), layout.symbols)

    def _teller(self, point: Breakpoint) -> Callable[[int, LineView], None]:
        """Writes the text of a log point, with values in place of the expressions between braces."""
        symbols = self.run.layout().symbols
        sums = {text: read_sum(text, symbols) for text in FIELD.findall(point.log)}

        def told(step: int, view: LineView) -> None:
            def value(found: re.Match[str]) -> str:
                return str(value_or_none(sums[found[1]], view))

            self._tell(f"step {step}: {FIELD.sub(value, point.log)}\n")

        return told

    def move(self, moved: Callable[[int], int | None]) -> list[Breakpoint]:
        """Finds all breakpoints anew after an edit. A breakpoint on a line stays with its line. Returns those that changed."""
        changed = []
        for point in self:
            before = (point.line, point.address, point.problem)
            if point.kind == "line":
                place = moved(int(point.place))
                point.place = int(point.place) if place is None else place
            self.resolve(point)
            if before != (point.line, point.address, point.problem):
                changed.append(point)
        return changed


def label_address(layout: Layout, name: str) -> int:
    """The address of a label."""
    plain = name.strip().upper()
    if not layout.is_label(plain):
        labels = [label for label in layout.symbols if layout.is_label(label)]
        raise Mistake(f"no label {name.strip()} in the source{near(plain, labels)}")
    address = layout.symbols[plain].value
    if not 0 <= address <= LAST_ADDRESS:
        raise Mistake(f"{plain} is {address}: the memory has the addresses 0 to {LAST_ADDRESS}")
    return address


def reference(text: str) -> int:
    """The address of a memory reference, such as `0x0204`."""
    try:
        return int(text, 0)
    except ValueError:
        raise Mistake(f"'{text}' is not a memory reference: expected an address such as 0x0204") from None


def instruction_place(one: Arguments) -> int:
    return reference(required(one, "instructionReference", str)) + (optional(one, "offset", int) or 0)
