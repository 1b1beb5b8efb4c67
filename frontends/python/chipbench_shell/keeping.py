"""Files that keep unsaved edits, so that a shell that is killed loses none."""

from __future__ import annotations

import contextlib
import itertools
import os
import tempfile
from collections.abc import Iterator
from pathlib import Path

from chipbench_files import replace_file

from .console import state_folder

PREFIX = "unsaved-"


class Keeper:
    """A new file for the lines, and one for the key events. Each exists as long as there is something unsaved."""

    def __init__(self, beside: Path) -> None:
        # if the folder of the history can't be written, the source's folder and the temporary folder are tried
        self._folders = (state_folder(), beside, Path(tempfile.gettempdir()))
        self._kept: dict[str, tuple[Path, bytes]] = {}

    def keep(self, what: str, name: str, content: bytes | None) -> None:
        """Writes a content to a file of this name, or to the file that already keeps `what`; None removes it. Raises `OSError` if
        no folder can be written."""
        path, known = self._kept.get(what, (None, b""))
        if content is None:
            if path is not None:
                with contextlib.suppress(OSError):
                    path.unlink()
                del self._kept[what]
        elif path is None:
            self._kept[what] = self._write_new(name, content), content
        elif content != known:
            replace_file(path, content)
            self._kept[what] = path, content

    def path(self, what: str) -> Path | None:
        """The file that keeps `what`; None if there is none."""
        return self._kept[what][0] if what in self._kept else None

    def _write_new(self, name: str, content: bytes) -> Path:
        for folder in self._folders[:-1]:
            with contextlib.suppress(OSError):
                return write_new(folder, name, content)
        return write_new(self._folders[-1], name, content)


def names_of(name: str) -> Iterator[str]:
    """The names that a file of unsaved edits may have, in their order."""
    return (f"{PREFIX}{number}-{name}" if number else f"{PREFIX}{name}" for number in itertools.count())


def write_new(folder: Path, name: str, content: bytes) -> Path:
    """Writes a file under the first name that isn't taken, for its owner alone."""
    folder.mkdir(mode=0o700, parents=True, exist_ok=True)
    for one in names_of(name):
        path = folder / one
        try:
            os.close(os.open(path, os.O_CREAT | os.O_EXCL | os.O_WRONLY, 0o600))
        except FileExistsError:
            continue
        replace_file(path, content)
        return path
    raise AssertionError("there is a next name")


def kept_before(name: str) -> list[Path]:
    """The files of unsaved edits that earlier shells have left for a file of this name, the newest first."""
    folder = state_folder()
    found = []
    for one in names_of(name):
        path = folder / one
        try:
            found.append((path.stat().st_mtime, path))
        except OSError:
            break
    return [path for _, path in sorted(found, reverse=True)]
