"""A file of key events that a shell reads and writes. Comments and blank lines stay."""

from __future__ import annotations

import re
from collections.abc import Mapping, Sequence
from dataclasses import dataclass

from chipbench import read_number, split_lines

#: For step and key, whether the key is down from then on.
Events = Mapping[tuple[int, int], bool]
# a line whose key is a letter
KEY_LETTER = re.compile(rb"^(\S+ +)([A-Fa-f])(?= |$)")
DIRECTIONS = {True: b"down", False: b"up"}


@dataclass(frozen=True)
class KeyLine:
    """A line of the file, and its event; None if it is blank or a comment."""

    text: bytes
    event: tuple[int, int] | None
    is_down: bool = False

    def turned(self) -> bytes:
        """The line with the other direction."""
        code, mark, comment = self.text.partition(b";")
        old, new = DIRECTIONS[self.is_down], DIRECTIONS[not self.is_down]
        return new.join(code.rsplit(old, 1)) + mark + comment


def command_of(line: bytes) -> bytes:
    """The event of a line as the session reads it, with its key as a number; empty if the line has no event."""
    return KEY_LETTER.sub(rb"\1#\2", line.partition(b";")[0].strip(b" "))


def read_key_line(line: bytes) -> KeyLine:
    """A line that the session has accepted."""
    words = command_of(line).split()
    if not words:
        return KeyLine(line, None)
    return KeyLine(line, (read_number(words[0]), read_number(words[1])), words[2] == b"down")


def event_line(event: tuple[int, int], is_down: bool) -> bytes:
    return b"%d %d %s" % (*event, DIRECTIONS[is_down])


def key_file(content: bytes, events: Events) -> bytes:
    """A file with these events. Lines of `content` stay if their events do; a new event goes before those of later steps.

    >>> key_file(b"; start\\n10 4 down ; go\\n30 4 up\\n", {(10, 4): True, (20, 5): True})
    b'; start\\n10 4 down ; go\\n20 5 down\\n'
    """
    lines = [read_key_line(line) for line in split_lines(content)]
    known = {line.event for line in lines}
    new = sorted(event for event in events if event not in known)
    written: list[bytes] = []
    for line in lines:
        if line.event is None:
            written.append(line.text)
            continue
        while new and new[0] < line.event:
            written.append(event_line(new[0], events[new.pop(0)]))
        if line.event in events:
            written.append(line.text if events[line.event] == line.is_down else line.turned())
    written += [event_line(event, events[event]) for event in new]
    return b"".join(line + b"\n" for line in written)


def lines_of(events: Events) -> Sequence[str]:
    """The events as the lines of a file, in the order of their steps."""
    return [event_line(event, events[event]).decode() for event in sorted(events)]
