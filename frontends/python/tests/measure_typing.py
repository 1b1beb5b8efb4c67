#!/usr/bin/env python3
"""Measures the time from a change in the middle of a source of 4,000 lines to its diagnostics.

    frontends/python/tests/measure_typing.py [PROGRAM]

Each kind of edit is made 200 times, in a source with few labels and in one with 1,700 that no line uses, of which each has a
warning. With each change of the second one the client also asks what an editor asks then. The figures are milliseconds of the
clock, as the client sees them. The status is 1 where the median of an edit in the middle is over 20.
"""

from __future__ import annotations

import sys
import time
from collections.abc import Iterator
from pathlib import Path
from typing import Any

sys.path.insert(0, str(Path(__file__).resolve().parent))

from client import URI, Client, span  # noqa: E402
from programs import program  # noqa: E402

LINES = 4000
MIDDLE = 2000
TIMES = 200
MOST_MILLISECONDS = 20
# This edit is at the top, and changes the code of half the lines.
EVERYWHERE = "a constant that all lines use"
KINDS = ("a letter in a comment", "a line more, a line less", "a fault comes and goes", EVERYWHERE)


def source() -> str:
    """Labels, jumps, constants, and comments, as a long game has them. Its lines with bytes are 1,700: memory holds no more."""
    lines = ["STEP    EQU 3", "SIZE    EQU STEP * 2"]
    while len(lines) < LINES - 1:
        at = len(lines)
        if at % 7 == 0:
            lines.append(f"L{at}:  LD V{at % 15:X}, SIZE")
        elif at % 7 in (2, 4):
            lines.append(f"        ADD V1, STEP       ; on the way {at}")
        else:
            lines.append(f"; a comment on what follows, {at}")
    return "\n".join(lines) + "\n"


def labelled() -> str:
    """1,700 labels that no line uses, with comments between them."""
    lines = ["STEP    EQU 3", "SIZE    EQU STEP * 2"]
    while len(lines) < LINES - 1:
        at = len(lines)
        lines.append(f"L{at}:  LD V{at % 15:X}, SIZE" if at % 2 == 0 and at < 3402 else f"; a comment on what follows, {at}")
    return "\n".join(lines) + "\n"


def ask_as_editors_do(client: Client) -> int:
    """Sends what an editor asks after a change, and returns how many requests that are."""
    document, near = {"textDocument": {"uri": URI}}, span((MIDDLE - 20, 0), (MIDDLE + 20, 0))
    requests: dict[str, dict[str, Any]] = {
        "codeLens": {}, "documentSymbol": {}, "foldingRange": {}, "semanticTokens/full": {}, "inlayHint": {"range": near},
        "documentHighlight": {"position": {"line": MIDDLE, "character": 1}},
        "codeAction": {"range": near, "context": {"diagnostics": []}},
        "completion": {"position": {"line": MIDDLE, "character": 17}},
    }
    for method, more in requests.items():
        client.begin(f"textDocument/{method}", {**document, **more})
    return len(requests)


def timed_edits(client: Client, kind: str, asks: bool) -> list[float]:
    """The times from each edit to its diagnostics, in milliseconds, the shortest first."""
    times = []
    for start, end, text in edits(kind):
        begun = time.perf_counter()
        client.change({"range": span(start, end), "text": text})
        count = ask_as_editors_do(client) if asks else 0
        client.shown()
        times.append((time.perf_counter() - begun) * 1000)
        for _ in range(count):
            client.next_answer()
    return sorted(times)


def edits(kind: str) -> Iterator[tuple[tuple[int, int], tuple[int, int], str]]:
    """Edits of one kind in turn; each second one takes the first back."""
    for _ in range(TIMES // 2):
        if kind == "a letter in a comment":
            yield (MIDDLE, 2), (MIDDLE, 2), "x"
            yield (MIDDLE, 2), (MIDDLE, 3), ""
        elif kind == "a line more, a line less":
            yield (MIDDLE, 0), (MIDDLE, 0), "        CLS\n"
            yield (MIDDLE, 0), (MIDDLE + 1, 0), ""
        elif kind == "a fault comes and goes":
            yield (MIDDLE, 0), (MIDDLE, 0), "JP NONE "
            yield (MIDDLE, 0), (MIDDLE, 8), ""
        else:
            yield (0, 12), (0, 13), "4"
            yield (0, 12), (0, 13), "3"


def main(words: list[str]) -> int:
    found = words[0] if words else program()
    if found is None:
        print("typing: no program is built, so nothing is measured")
        return 0
    slow = 0
    for name, text in (("few labels", source()), ("1,700 labels", labelled())):
        is_labelled = name != "few labels"
        for kind in KINDS:
            client = Client(found)
            client.open(text)
            if is_labelled:
                # the warnings come after a pause
                client.shown()
            times = timed_edits(client, kind, asks=is_labelled)
            client.close()
            median, most = times[len(times) // 2], times[-1]
            within = times[len(times) * 9 // 10]
            print(f"typing, {name}, {kind}: {median:.1f} ms, nine of ten within {within:.1f}, at most {most:.1f}")
            slow += kind != EVERYWHERE and median > MOST_MILLISECONDS
    return 1 if slow else 0


if __name__ == "__main__":
    sys.exit(main(sys.argv[1:]))
