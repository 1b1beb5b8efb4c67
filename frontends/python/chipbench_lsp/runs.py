"""`run to here`: the machine at the first step at which pc is on a line."""

from __future__ import annotations

import functools
from typing import Any

from chipbench import BATCH, Bench, ChipbenchError, ListingLine, State

from .document import Document, OverLimits
from .language import read_line
from .positions import Columns, escaped
from .progress import Work
from .tables import STOPS
from .wire import REQUEST_FAILED, Encoded, Failed

COMMAND = "chipbench.runTo"
TITLE = "run to here"
LAST_STEP = 100_000


def command(document: Document, number: int) -> dict[str, Any]:
    return {"title": TITLE, "command": COMMAND, "arguments": [document.uri, number]}


def is_code(row: ListingLine | None) -> bool:
    return row is not None and row.address is not None and bool(row.code) and row.value is None


@functools.lru_cache(maxsize=20_000)
def lens(text: str, unit: str, uri: str) -> str:
    """The lens of a line as JSON, with %d in place of its number; empty if the line isn't the label of an instruction."""
    line = read_line(text)
    if line.form != "label" or (line.head is not None and line.mnemonic is None):
        return ""
    place = Columns(unit).range_text(text, 0, len(text))
    return f'{{"range":{place},"command":{{"title":"{TITLE}","command":"{COMMAND}","arguments":[{escaped(uri)},%d]}}}}'


def lenses(document: Document) -> Encoded:
    """A lens above each label of an instruction."""
    rows = ((number, lens(text, document.columns.unit, document.uri)) for number, text in document.numbered())
    return Encoded(text % (number, number, number) for number, text in rows if text)


def has_run(document: Document) -> bool:
    """Whether the source runs: it has no fault, and the program opens it."""
    try:
        return not document.faults
    except (OverLimits, ChipbenchError):
        return False


def actions(document: Document, number: int) -> list[dict[str, Any]]:
    """The command for the line of the cursor, if it has an instruction and the source runs."""
    if document.read(number).mnemonic is None or not has_run(document):
        return []
    return [{"title": f"Run to line {number + 1}", "kind": "source", "command": command(document, number)}]


def address_of(document: Document, number: int) -> int:
    """The address of a line for pc. A line without bytes has the address of the next one."""
    row = document.listing(number)
    if row is None or row.address is None:
        raise Failed(REQUEST_FAILED, "the line isn't active")
    return row.address


def run_to(bench: Bench, address: int, work: Work) -> dict[str, Any]:
    """The registers and the screen at the first step with pc at an address, or a sentence that says why there is none."""
    step, last = first_step(bench, address, work)
    if step is None:
        text = f"pc doesn't reach #{address:03X} in the first {last.step} steps"
        if last.stopped is not None:
            text = f"the program stops at step {last.step} ({because(last)}) before pc reaches #{address:03X}"
        return {"step": None, "text": text}
    state = bench.at(step)
    text = f"step {step}: pc is at #{address:03X}\n\n{state.answer}\n{state.screen}"
    return {"step": step, "registers": state.answer, "screen": str(state.screen), "text": text}


def because(state: State) -> str:
    return f"{state.stopped}, {STOPS.get(state.stopped or '', '').replace('`', '')}"


def first_step(bench: Bench, address: int, work: Work) -> tuple[int | None, State]:
    """The first step at an address, and the last state that was looked at."""
    state = bench.at(0)
    for start in range(0, LAST_STEP + 1, BATCH):
        if work.is_set():
            raise work.failure()
        for state in bench.steps(start, min(start + BATCH, LAST_STEP + 1)):
            if state.pc == address:
                return state.step, state
            if state.stopped is not None:
                return None, state
    return None, state
