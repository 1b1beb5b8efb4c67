"""The lines of a source beside a running session: their limits, and the edits that change them to other lines."""

from __future__ import annotations

from collections.abc import Sequence
from typing import AnyStr

LINE_BYTES = 200
MOST_LINES = 4000


def over_limits(lines: Sequence[bytes]) -> list[tuple[int, str, str]]:
    """The lines over 200 bytes, and the first line over 4,000: each with its number from 0, a code and a sentence."""
    found = [
        (number, "O1", f"the line has {len(line)} bytes; a source's line has at most {LINE_BYTES}")
        for number, line in enumerate(lines)
        if len(line) > LINE_BYTES
    ]
    if len(lines) > MOST_LINES:
        found.append((MOST_LINES, "O2", f"the source has {len(lines)} lines; at most {MOST_LINES} are allowed"))
    return found


def same_ends(old: Sequence[AnyStr], new: Sequence[AnyStr]) -> tuple[int, int]:
    """The number of equal lines at the beginning, and of the others at the end.

    >>> same_ends("abcd", "abxyd")
    (2, 1)
    >>> same_ends("aa", "aaa")
    (2, 0)
    """
    least = min(len(old), len(new))
    first = 0
    while first < least and old[first] == new[first]:
        first += 1
    last = 0
    while last < least - first and old[-1 - last] == new[-1 - last]:
        last += 1
    return first, last


def line_edits(old: Sequence[bytes], new: Sequence[bytes]) -> list[bytes]:
    """Commands that change the old lines to the new ones. Equal lines at both ends stay.

    >>> line_edits([b"A", b"B", b"C"], [b"A", b"X", b"Y", b"C"])
    [b'rep 2 X', b'ins 3 Y']
    >>> line_edits([b"A", b"B", b"C"], [b"C"])
    [b'del 2', b'del 1']
    """
    first, last = same_ends(old, new)
    old_end, new_end = len(old) - last, len(new) - last
    both = min(old_end, new_end)
    edits = [b"rep %d %s" % (place + 1, new[place]) for place in range(first, both) if old[place] != new[place]]
    edits += [b"del %d" % (place + 1) for place in range(old_end - 1, both - 1, -1)]
    edits += [b"ins %d %s" % (place + 1, new[place]) for place in range(both, new_end)]
    return edits
