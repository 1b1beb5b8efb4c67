"""The flat form of the files: a line for each case, its fields in a fixed order with blanks between them.

Counts (the format, the number of a case or a program, rates and steps) are decimal, and all other numbers hexadecimal. A stop
is its number, 0 where the machine goes on.
"""

from __future__ import annotations

from collections.abc import Iterable
from typing import Any

from .words import Run


def heading(kind: str, record: dict[str, Any]) -> str:
    return f"{kind} {record['format']} {record['profile']}"


def stop_number(stop: str | None) -> int:
    """The number of S1 to S7; 0 of None and of what isn't a stop."""
    return int(stop[1:]) if stop and stop[0] == "S" and stop[1:].isdigit() else 0


def listed(items: Iterable[str]) -> str:
    """How many items there are, and the items."""
    found = list(items)
    return " ".join([f"{len(found):x}", *found])


def state(parts: dict[str, Any], random_bytes: list[int]) -> str:
    """pc, I, delay, sound, high; V0 to VF, the flag registers; and lists: stack, memory, screen, random bytes."""
    return " ".join([
        f"{parts['pc']:04x} {parts['i']:04x} {parts['dt']:02x} {parts['st']:02x} {parts['high']:d}",
        bytes(parts["v"]).hex(),
        bytes(parts["flags"]).hex(),
        listed(f"{address:04x}" for address in parts["stack"]),
        listed(f"{address:04x} {byte:02x}" for address, byte in parts["memory"]),
        listed(f"{row:02x} {pixels}" for row, pixels in parts["screen"]),
        listed(f"{byte:02x}" for byte in random_bytes),
    ])


def case_line(record: dict[str, Any]) -> str:
    """A case: heading, row, number, the stop, the keys as a mask, the tick, the state before, the state after, text and kind.

    Of the state after, memory and screen are the bytes and rows that changed."""
    initial, final = record["initial"], record["final"]
    keys = sum(1 << key for key in initial["keys"])
    after: dict[str, Any] = {**initial, "memory": [], "screen": [], **final}
    return " ".join([
        heading("step", record),
        record["name"],
        f"{stop_number(record['stops'])} {keys:04x} {initial['tick']:d}",
        state(initial, initial["random"]),
        state(after, after["random"]),
        f"{record['text']}: {record['about']}",
    ]) + "\n"


def word_lines(marks: dict[str, Any], runs: Iterable[Run]) -> str:
    """The runs of words, each with its row, or - where the machine stops with S2."""
    return "".join(f"{heading('words', marks)} {run.first:04x} {run.last:04x} {run.row or '-'}\n" for run in runs)


def program_lines(record: dict[str, Any]) -> str:
    """A program: a line with its heading, number, rate, tape and image, one for each key event, and one for each state."""
    number = record["name"].split()[1]
    lines = [f"{heading('program', record)} {number} {record['rate']} {record['tape']} {record['image']}"]
    lines += [f"key {step} {key:x} {is_down:d}" for step, key, is_down in record["keys"]]
    for found in record["states"]:
        registers = bytes(found[f"v{number:x}"] for number in range(16)).hex()
        lines.append(
            f"state {found['step']} {found['pc']:04x} {found['i']:04x} {found['dt']:02x} {found['st']:02x} {found['depth']:x} "
            f"{registers} {found['screen']} {found['memory']} {stop_number(found['text'])}"
        )
    return "\n".join(lines) + "\n"
