"""Suggests what to type instead of the words of other debuggers, and of texts that are nearly a command."""

from __future__ import annotations

import os
import re
import shutil
from collections.abc import Callable
from pathlib import Path
from typing import TypeVar

from .values import COMPARISON, REGISTERS, Mistake

Read = TypeVar("Read")

#: Where a clone of the repository has its tools.
PACKAGING = Path(__file__).resolve().parents[3] / "packaging"


def tool(name: str) -> str:
    """The command that starts a tool: its name if the PATH has it, otherwise its path in a clone."""
    path = PACKAGING / name
    if shutil.which(name) is not None or not path.is_file():
        return name
    try:
        return os.fspath(path.relative_to(Path.cwd()))
    except (OSError, ValueError):
        return os.fspath(path)


SHELL = tool("chipbench-shell")
GO_TO_START = "goto 0 goes to the start, and run from there to the first breakpoint"
NOTHING_SETS = "a state follows from the lines and the keys, and can't be set: edit changes a line, press and release change keys"
ONE_SOURCE = f"a shell has one source: quit, and start {SHELL} FILE"
KEYS = "press KEY holds a key, release KEY lets go of it, and keys shows the events"
FILES_OF_KEYS = f"save keys FILE writes the key events, and {SHELL} game.asm --keys FILE plays them"
AT_START = f"the settings are chosen at the start, as in {SHELL} game.asm --rate 15 --seed 7; profile shows them"
CALLS = "backtrace shows the calls that haven't returned"
COMMENT = "a comment begins with `#` here"
CONDITION = "give a condition with its breakpoint: break PLACE if V0 = 5"
HITS = "breakpoints don't count hits: continue goes on to the next one, and break PLACE if V0 = 5 stops only where that holds"
#: Settings that are chosen at the start, each by an option with its name.
OPTIONS = ("rate", "seed", "tape", "quirks", "every")
#: Words that users type in place of a label when they mean the end of the run.
ENDS = ("crash", "stop", "end", "halt", *(f"s{number}" for number in range(1, 8)))
#: Words that other debuggers have, and the advice for each.
OTHER_WORDS = {
    **dict.fromkeys(("reset", "restart", "start", "rewind"), GO_TO_START),
    **dict.fromkeys(("set", "let", "poke", "jump"), NOTHING_SETS),
    **dict.fromkeys(("load", "open", "file"), ONE_SOURCE),
    **dict.fromkeys(("key", "hold", "keydown", "keyup"), KEYS),
    **dict.fromkeys(("record", "replay", "macro"), FILES_OF_KEYS),
    **dict.fromkeys(("rate", "speed", "seed", "tape", "quirks", "every"), AT_START),
    **dict.fromkeys(("frame", "up", "down"), CALLS),
    **dict.fromkeys(("replace", "change"), "edit LINE TEXT replaces a line"),
    **dict.fromkeys(("append", "add"), "insert LINE TEXT puts a line before another one"),
    "condition": CONDITION,
    "ignore": HITS,
    "disable": "clear removes a breakpoint",
    "play": f"{tool('chipbench-page')} game.asm opens the page, where you can play",
    "source": f"{SHELL} game.asm < FILE carries out the commands of a file",
    "version": "chipbench --version prints the version",
    "search": "until goes to the next step at which a comparison becomes true",
}
#: Words that follow `step` in other debuggers, and the advice for each.
STEP_WORDS = {
    **dict.fromkeys(("back", "backward", "backwards"), "step only goes forward: back goes one step back, back 3 goes three"),
    **dict.fromkeys(("over",), "next steps over a call"),
    **dict.fromkeys(("out",), "finish goes out of a subroutine"),
    **dict.fromkeys(("in", "into"), "step already goes into calls"),
}
#: Options that the shell doesn't have, and the advice for each.
OTHER_OPTIONS = dict.fromkeys(("--step", "--steps", "--at", "--goto"), "the command goto 5 goes to step 5")
BREAK_WORDS = ("break", "breaks", "breakpoint", "breakpoints", "bp", "b")
SUBJECT = rf"(?:\[[^\]]*\]|(?:{'|'.join(REGISTERS)})\b)"
#: A comparison without its sign, or with a word in place of it.
WITHOUT_SIGN = re.compile(rf"({SUBJECT})\s*(?:(?:is|equals?|becomes|to|at|eq)\s+)?(\S+)", re.IGNORECASE)


def with_sign(text: str) -> str | None:
    """The comparison that a subject followed by a number means; None if the text isn't of that form.

    >>> with_sign("V3 6"), with_sign("v3 is 4"), with_sign("LOOP")
    ('V3 = 6', 'v3 = 4', None)
    """
    found = WITHOUT_SIGN.fullmatch(text.strip())
    return f"{found[1]} = {found[2]}" if found is not None and not COMPARISON.search(text) else None


def for_break(text: str) -> str | None:
    """Advice for a breakpoint whose place or whose `if` is missing; None if both are there.

    >>> for_break("if V3 = 2")
    'break takes a place first: break PLACE if V3 = 2; until V3 = 2 goes to where it becomes true at any place'
    >>> for_break("HIT when V3 = 2")
    'break takes `if` before a comparison: break HIT if V3 = 2'
    >>> for_break("HIT, V3 = 2")
    'break takes `if` before a comparison: break HIT if V3 = 2'
    """
    words = text.split()
    lower = [word.lower() for word in words]
    condition = text.partition(words[0])[2].strip() if lower[0] == "if" else text
    if lower[0] == "if" or re.match(rf"{SUBJECT}\s*[=!<>]", text, re.IGNORECASE) or with_sign(text):
        if not condition:
            return "break takes a place and a comparison: break PLACE if V3 = 2"
        shown = with_sign(condition) or condition
        return f"break takes a place first: break PLACE if {shown}; until {shown} goes to where it becomes true at any place"
    if "if" in lower:
        return None
    found = re.fullmatch(rf"(\S+?),?\s+(?:(?:when|where|and)\s+)?({SUBJECT}.*)", text, re.IGNORECASE)
    if found is None:
        return None
    return f"break takes `if` before a comparison: break {found[1]} if {with_sign(found[2]) or found[2]}"


def for_register(name: str, what: str) -> str:
    """Advice for a register that was typed in place of a place or a step."""
    return f"{name} is a register, not a {what}: watch {name} goes to the next step that changes it, until {name} = 5 to where it becomes 5"


def for_place(text: str, what: str = "place") -> str | None:
    """Advice for a place, a line or a step that has no value; None if there is no advice.

    >>> for_place("line 13")
    'give a line by its number alone: 13'
    >>> for_place("line 13", "step")
    'line 13 is a place, not a step: until 13 goes to the next step there'
    >>> for_place("step 100"), for_place("LOOP:")
    ('goto 100 goes to step 100', 'type a label without its colon: LOOP')
    >>> for_place("crash")
    'continue goes to where the machine stops'
    """
    step = re.fullmatch(r"step\s+([0-9]+)", text.strip(), re.IGNORECASE)
    if step is not None:
        return f"goto {step[1]} goes to step {step[1]}"
    label = re.fullmatch(r"([A-Za-z_]\w*):", text.strip())
    if label is not None:
        return f"type a label without its colon: {label[1]}"
    found = re.fullmatch(r"line\s+([0-9]+)", text.strip(), re.IGNORECASE)
    if found is not None and what == "step":
        return f"line {found[1]} is a place, not a step: until {found[1]} goes to the next step there"
    if found is not None:
        return f"give a line by its number alone: {found[1]}"
    return "continue goes to where the machine stops" if text.strip().lower() in ENDS else None


def for_setting(text: str) -> str | None:
    """Advice for `set` before a setting or a key; None for anything else, which may be a part of the state.

    >>> for_setting("profile vip"), for_setting("keys 4")
    ('profile vip runs the same lines and keys under that profile', 'press 4 holds key 4, and release 4 lets go of it')
    """
    name, *values = text.replace("=", " ").split() or [""]
    name, value = name.lower(), (values or [""])[0]
    if name in OPTIONS:
        return f"the settings are chosen at the start, as in {SHELL} game.asm --{name} {value or 'VALUE'}; profile shows them"
    if name == "profile":
        return f"profile {value or 'NAME'} runs the same lines and keys under that profile"
    if name in ("key", "keys"):
        key = value or "KEY"
        return f"press {key} holds {'a key' if key == 'KEY' else f'key {key}'}, and release {key} lets go of it"
    return None


def for_line(line: str) -> str | None:
    """Advice for a line that isn't a command; None if there is no advice.

    >>> for_line("100"), for_line(";! V0 <= 63")
    ('goto 100 goes to step 100', 'a property is a line of the source: insert LINE ;! V0 <= 63')
    >>> for_line("condition 1 V0 = 5")
    'give a condition with its breakpoint: break PLACE if V0 = 5'
    """
    text = line.strip()
    word, _, rest = text.partition(" ")
    if text.isdecimal():
        return f"goto {text} goes to step {text}"
    if text.startswith(";!"):
        return f"a property is a line of the source: insert LINE {text}"
    condition = re.fullmatch(r"condition\s+[0-9]+\s+(\S.*)", text, re.IGNORECASE)
    if condition is not None:
        return f"give a condition with its breakpoint: break PLACE if {with_sign(condition[1]) or condition[1]}"
    return for_setting(rest) if word.lower() == "set" else None


def for_comment(line: str) -> str | None:
    """Advice for a comment that is only a hexadecimal number; None for any other comment.

    >>> for_comment("#210"), for_comment("# 210"), for_comment("#add")
    ('a comment begins with `#`: until #210 goes to that address, and x #210 shows its bytes', None, None)
    """
    text = line.strip()
    if not re.fullmatch(r"#(?=[A-Fa-f]*[0-9])[0-9A-Fa-f]+", text):
        return None
    return f"a comment begins with `#`: until {text} goes to that address, and x {text} shows its bytes"


def for_keys(text: str) -> str:
    """Advice for `keys` followed by a text.

    >>> for_keys("4 down")
    'press 4 holds a key, release 4 lets go of it, and keys > FILE writes the key events'
    >>> for_keys("60 4 up")
    'release 4 at 60 lets go of a key, press 4 at 60 holds it, and keys > FILE writes the key events'
    """
    found = re.fullmatch(r"(?:([0-9]+)\s+)?([0-9]{1,2}|[A-Fa-f])(?:\s+(down|up))?", text.strip(), re.IGNORECASE)
    if found is None:
        return f"keys shows the key events: keys > {text} writes them to a file, press and release add some"
    event = found[2] + (f" at {found[1]}" if found[1] else "")
    release, press = f"release {event} lets go of", f"press {event} holds"
    both = f"{release} a key, {press} it" if (found[3] or "").lower() == "up" else f"{press} a key, {release} it"
    return f"{both}, and keys > FILE writes the key events"


def told(text: str, read: Callable[[str], Read], what: str = "place") -> Read:
    """Reads a text. If that fails, the mistake names what to type, if there is advice for the text."""
    try:
        return read(text)
    except Mistake as mistake:
        raise Mistake(for_place(text, what) or str(mistake)) from None
