"""Use the workbench `chipbench` from Python.

A `Bench` is one running program `chipbench debug` on one source. Its methods edit the source and the key events, and its
properties read what the program answers:

>>> with Bench("LD V0, 5\\nLOOP: ADD V0, 1\\nJP LOOP") as bench:
...     print(bench.image.hex())
...     print(bench.at(3).v[0])
600570011202
6

A refused command raises `Refused`, with the code and the sentence of the program. The module needs only the standard library.
"""

from .bench import BATCH, Bench, event_command, read_number
from .errors import ChipbenchError, Ended, Refused, Stale, TooMuch, WrongType, WrongValue
from .program import Program, answer_end, command_of, find_program, refusal, run_once, sentences
from .sources import (
    Fault,
    ListingLine,
    Symbol,
    Word,
    check,
    disassemble,
    join_lines,
    read_check,
    read_listing_line,
    split_lines,
    to_bytes,
    to_text,
)
from .states import Screen, State

__all__ = [
    "BATCH",
    "Bench",
    "ChipbenchError",
    "Ended",
    "Fault",
    "ListingLine",
    "Program",
    "Refused",
    "Screen",
    "Stale",
    "State",
    "Symbol",
    "TooMuch",
    "Word",
    "WrongType",
    "WrongValue",
    "answer_end",
    "check",
    "command_of",
    "disassemble",
    "event_command",
    "find_program",
    "join_lines",
    "read_check",
    "read_listing_line",
    "read_number",
    "refusal",
    "run_once",
    "sentences",
    "split_lines",
    "to_bytes",
    "to_text",
]

# errors are shown by the names under which they are imported
for _error in (ChipbenchError, Ended, Refused, Stale, TooMuch, WrongType, WrongValue):
    _error.__module__ = __name__
