"""Files that are the old ones or the new ones at each moment, lists in JSON, and progress on a terminal."""

from __future__ import annotations

import contextlib
import json
import os
import sys
import time
from pathlib import Path
from typing import Any


# how often progress is shown
SECONDS = 0.2
shown_at = 0.0


def progress(text: str) -> None:
    """Shows on a terminal what is being made; an empty text clears it."""
    global shown_at
    now = time.monotonic()
    if sys.stderr.isatty() and (not text or now > shown_at + SECONDS):
        shown_at = now
        print(f"\r\x1b[K{text}", end="", file=sys.stderr, flush=True)


def replace(path: Path, text: str | bytes) -> None:
    """Writes a file, which is the old one or the new one at each moment."""
    part = path.with_name(path.name + ".part")
    try:
        part.write_bytes(text.encode() if isinstance(text, str) else text)
        os.replace(part, path)
    except BaseException:
        with contextlib.suppress(OSError):
            part.unlink()
        raise


def lines(records: list[Any]) -> str:
    """A list in JSON with an element a line."""
    return "[\n" + ",\n".join(json.dumps(record, separators=(",", ":")) for record in records) + "\n]\n"
