"""Compares expected lines with answered ones."""
import difflib
import itertools

# A line that stands for any lines, also for none.
ANY = "..."
# What is shown of a diff, and of a line of it, at most.
LINES, CHARACTERS = 100, 200


def _length_of_prefix(expected, answered):
    """How many first lines are the same."""
    length = 0
    for one, other in zip(expected, answered):
        if one != other:
            break
        length += 1
    return length


def _find(part, lines, start):
    """Where a part stands first in the lines from that place on, or None."""
    for place in range(start, len(lines) - len(part) + 1):
        if lines[place : place + len(part)] == part:
            return place
    return None


def _parts(expected):
    """The runs of lines between the lines `...`, each with its place."""
    parts, begun = [], 0
    for place, line in enumerate(expected):
        if line == ANY:
            parts.append((begun, expected[begun:place]))
            begun = place + 1
    parts.append((begun, expected[begun:]))
    return parts


def first_difference(expected, answered):
    """The place of the first expected line that isn't answered, or None where all are.

    The place is the length of the expected lines where more was answered.
    """
    parts = _parts(expected)
    _, first = parts[0]
    length = _length_of_prefix(first, answered)
    if length < len(first) or (len(parts) == 1 and length < len(answered)):
        return length
    at = len(first)
    for begun, part in parts[1:-1]:
        found = _find(part, answered, at)
        if found is None:
            return begun
        at = found + len(part)
    if len(parts) > 1:
        begun, last = parts[-1]
        start = len(answered) - len(last)
        if start < at or answered[start:] != last:
            return begun
    return None


def _shown(lines):
    """Lines as a diff shows them: control characters, and blanks at an end, are written as in Python."""
    shown = []
    for line in lines:
        front = line[:CHARACTERS]
        is_plain = front.isprintable() and not front.endswith(" ")
        shown.append((front if is_plain else repr(front)) + (" .." if len(line) > CHARACTERS else ""))
    return shown


def diff(expected, answered):
    """The front of a unified diff of expected and answered lines."""
    lines = difflib.unified_diff(_shown(expected), _shown(answered), "expected", "answered", lineterm="")
    return "\n".join(itertools.islice(lines, LINES))


def lines_of(output):
    """The lines of an output. A last line without an end says so."""
    lines = output.decode("utf-8", "backslashreplace").split("\n")
    last = lines.pop()
    return lines + ([f"{last} (no line end)"] if last else [])
