"""Checks the arguments of a call. The error for a wrong argument names it."""

from __future__ import annotations

import os
import re
from collections.abc import Mapping

from .errors import WrongType, WrongValue

#: A text of one line that is the name of a file. It can't be a source, which has no full stop outside texts.
FILE_NAME = re.compile(r"[^\n;\"']*\.(?:asm|s|src|8o|txt|ch8|c8|rom|sc8|xo8)", re.IGNORECASE)


def whole_number(name: str, value: object) -> int:
    """A number from 0 on. Raises `WrongType` if it isn't a whole number, and `WrongValue` if it is below 0."""
    if isinstance(value, bool) or not hasattr(value, "__index__"):
        raise WrongType(f"{name} must be a whole number, not {described(value)}")
    number: int = value.__index__()
    if number < 0:
        raise WrongValue(f"{name} must be a number from 0 on, not {number}")
    return number


def text_or_bytes(name: str, value: object) -> str | bytes:
    """A text, or bytes. Raises `WrongType` for anything else."""
    if isinstance(value, (str, bytes)):
        return value
    if isinstance(value, (bytearray, memoryview)):
        return bytes(value)
    raise WrongType(f"{name} must be text or bytes, not {described(value)}")


def bytes_only(name: str, value: object) -> bytes:
    """Bytes. Raises `WrongType` for anything else."""
    if isinstance(value, (bytes, bytearray, memoryview)):
        return bytes(value)
    hint = f": bytes.fromhex({value!r}) makes bytes from digits" if isinstance(value, str) else ""
    raise WrongType(f"{name} must be bytes, not {described(value)}{hint}")


def source_text(value: object) -> str | bytes:
    """The text of a source. Raises `WrongValue` if it is the name of a file."""
    if isinstance(value, os.PathLike):
        raise WrongType(f"source must be text or bytes, not {described(value)}: Bench.open({os.fspath(value)!r}) opens a file")
    text = text_or_bytes("source", value)
    if isinstance(text, str) and FILE_NAME.fullmatch(text.strip()):
        raise WrongValue(f"source must be the text of a source, and {text!r} is the name of a file: Bench.open({text!r}) opens it")
    return text


def file_name(name: str, value: object) -> str:
    """The name of a file. Raises `WrongType` for anything else."""
    if not isinstance(value, (str, os.PathLike)):
        raise WrongType(f"{name} must be the name of a file, not {described(value)}")
    found = os.fspath(value)
    return os.fsdecode(found)


def option_texts(settings: Mapping[str, object]) -> dict[str, str]:
    """The settings that were given, as texts for the program's options of these names."""
    given = {name: value for name, value in settings.items() if value is not None}
    if "tape" in given and "seed" in given:
        raise WrongValue("give tape or seed, not both: a seed makes a tape")
    texts = {}
    for name, value in given.items():
        if name == "tape":
            texts[name] = bytes_only(name, value).hex()
            if not texts[name]:
                raise WrongValue("tape is empty: expected at least one byte")
        elif name in ("profile", "quirks"):
            if not isinstance(value, str):
                raise WrongType(f"{name} must be text, not {described(value)}")
            texts[name] = value
        elif name == "seed" and isinstance(value, str):
            # settings of editors have it as a text, since it may have more digits than their numbers
            if not (value.isascii() and value.isdecimal()):
                raise WrongValue(f"seed must be a whole number from 0 on, not {value!r}")
            texts[name] = value
        else:
            texts[name] = str(whole_number(name, value))
    return texts


def described(value: object) -> str:
    """A value with its type, for a message.

    >>> described(1.5), described(None)
    ('1.5 (float)', 'None')
    """
    shown = repr(value)
    shown = shown if len(shown) <= 40 else shown[:38] + ".."
    return shown if value is None else f"{shown} ({type(value).__name__})"
