"""The arguments that describe the game to debug."""

from __future__ import annotations

import os
from dataclasses import dataclass
from pathlib import Path
from typing import Any
from urllib.parse import unquote, urlsplit

from chipbench_shell.game import Settings
from chipbench_shell.values import near

from .wire import Arguments, Refusal, optional

#: The arguments of `launch`, each with its kind. `chipbench` is the program.
KINDS: dict[str, type] = {
    "source": str, "image": str, "keys": str, "profile": str, "quirks": str, "rate": int, "tape": str, "every": int,
    "stopOnEntry": bool, "noDebug": bool, "cwd": str, "chipbench": str,
}
#: `seed` may be a number or a text, because not every JSON reader has numbers of 64 bits.
KNOWN = (*KINDS, "seed")
MOST_SEED = (1 << 64) - 1


@dataclass(frozen=True)
class Launch:
    """The arguments of `launch`. Paths are absolute."""

    source: Path | None
    image: Path | None
    keys: Path | None
    settings: Settings
    program: str | None
    stops_on_entry: bool
    is_debugged: bool


def path_of(uri: str) -> str:
    """The path of a file URI. Raises `Refusal` for any other URI."""
    parts = urlsplit(uri)
    if parts.scheme != "file":
        raise Refusal(f"expected the URI of a file, found {uri[:60]}")
    return unquote(parts.path)


def full_path(arguments: Arguments, name: str, is_uri: bool) -> Path | None:
    text = optional(arguments, name, str)
    if text is None or text == "":
        return None
    if "\0" in text:
        raise Refusal(f"{name} isn't a valid path")
    if is_uri and "://" in text:
        text = path_of(text)
    return Path(os.path.abspath(os.path.join(optional(arguments, "cwd", str) or os.getcwd(), os.path.expanduser(text))))


def read_seed(value: Any) -> int | None:
    if value is None or value == "":
        return None
    text = "" if isinstance(value, bool) else str(value) if isinstance(value, (int, str)) else ""
    if not (text.isascii() and text.isdigit() and len(text) <= 20) or int(text) > MOST_SEED:
        raise Refusal("seed must be a number of 64 bits, or such a number as a text")
    return int(text)


def read_tape(text: str | None) -> bytes | None:
    if not text:
        return None
    try:
        return bytes.fromhex(text)
    except ValueError:
        raise Refusal("tape must be bytes in hexadecimal, such as \"3f80\"") from None


def read_launch(arguments: Any, program: str | None, is_uri: bool) -> Launch:
    """Reads the arguments of `launch`. Raises a `Refusal` that names the wrong argument."""
    if not isinstance(arguments, dict):
        raise Refusal("launch has no arguments: \"source\" names the file to debug")
    found = {name: optional(arguments, name, kind) for name, kind in KINDS.items()}
    source, image = full_path(arguments, "source", is_uri), full_path(arguments, "image", is_uri)
    if (source is None) == (image is None):
        raise Refusal("give one of \"source\", the file to debug, and \"image\"")
    settings = Settings(
        profile=found["profile"] or None, rate=found["rate"], tape=read_tape(found["tape"]),
        seed=read_seed(arguments.get("seed")), every=found["every"], quirks=found["quirks"] or None,
    )
    if settings.tape is not None and settings.seed is not None:
        raise Refusal("give \"tape\" or \"seed\", not both")
    return Launch(
        source, image, full_path(arguments, "keys", is_uri), settings, found["chipbench"] or program,
        found["stopOnEntry"] is not False and found["noDebug"] is not True, found["noDebug"] is not True,
    )


def misspelled(arguments: Arguments) -> list[str]:
    """Warnings about unknown arguments that are spelled like known ones."""
    unknown = [name for name in arguments if name not in KNOWN]
    likely = [(name, near(name, KNOWN)) for name in unknown if name not in ("type", "request", "name", "program")]
    return [f"launch: there is no argument {name}{question}" for name, question in likely if question]
