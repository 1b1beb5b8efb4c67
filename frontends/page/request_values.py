"""What the values of a request, and of the command line's settings, have to be."""

from __future__ import annotations

import re
from typing import Any

from files import Refused

MAX_BODY = 8_000_000

#: The page tells which of these the program refuses.
OPTION_VALUES = {
    "rate": re.compile(r"[0-9]{1,9}"),
    "tape": re.compile(r"[0-9a-fA-F]{2,8192}"),
    "seed": re.compile(r"[0-9]{1,20}"),
    "profile": re.compile(r"[a-z0-9-]{1,20}"),
    "quirks": re.compile(r"[a-z0-9=,+]{1,300}"),
    "every": re.compile(r"[0-9]{1,9}"),
}
#: What each of them takes, for whoever types it.
OPTION_FORMS = {
    "rate": "a number, as in --rate 10",
    "tape": "two hexadecimal digits for each byte, without 0x or #, as in --tape 2a07",
    "seed": "a number, as in --seed 7",
    "profile": "a name, as in --profile vip",
    "quirks": "choices separated by commas, as in --quirks shift=vy,edges=wrap",
    "every": "a number, as in --every 1000",
}


def bytes_of(value: Any, most: int) -> bytes:
    """The bytes of a text in which each character stands for one byte."""
    if not isinstance(value, str) or len(value) > most:
        raise Refused(400, "a text is missing or too long")
    try:
        return value.encode("latin-1")
    except UnicodeEncodeError:
        raise Refused(400, "a character that isn't a byte") from None
