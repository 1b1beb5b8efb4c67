"""The files of the author: SOURCE, and those beside it. One is written only where the page is told to save."""

from __future__ import annotations

import contextlib
import hashlib
import os
import sys
from pathlib import Path
from typing import Any

sys.path.append(str(Path(__file__).resolve().parent.parent / "python"))

import chipbench_files  # noqa: E402
from chipbench_files import MAX_FILE, FileError, replace_file, shown  # noqa: E402

__all__ = ["MAX_FILE", "Files", "Refused", "digest_of", "encoded", "read_file", "shown"]

MAX_NAMES = 1000
KINDS = (".asm", ".s", ".txt", ".ch8", ".rom", ".bin", ".keys")


class Refused(Exception):
    """A request that isn't carried out: a status of HTTP, and why."""

    def __init__(self, status: int, reason: str) -> None:
        super().__init__(reason)
        self.status = status
        self.reason = reason


def digest_of(content: bytes | None) -> str | None:
    return None if content is None else hashlib.sha256(content).hexdigest()


def encoded(name: str) -> bytes:
    """The bytes of a file's name. JSON can hold one half of a pair of surrogates, which is no text and stands for no byte."""
    try:
        return os.fsencode(name)
    except UnicodeEncodeError:
        raise Refused(400, "a file's name has a character that can't be in one") from None


class Files:
    """SOURCE, where there is one, and the folder that the page may read files from and save them to, by their plain names: that of
    SOURCE, else `folder`, else the current one."""

    def __init__(self, source: Path | None, folder: Path | None = None) -> None:
        self.source = source
        self.folder = (source.parent if source is not None else folder or Path.cwd()).absolute()

    def path_of(self, name: Any) -> Path:
        """The path of a plain name in the folder, where no link leads out of it. SOURCE's own name is always one."""
        if self.source is not None and name == self.source.name:
            return self.source
        if not isinstance(name, str) or not 0 < len(encoded(name)) < 256 or name.startswith("."):
            raise Refused(400, "a file's name has 1 to 255 bytes and doesn't begin with a full stop")
        if any(character in name for character in "/\\\0\n\r"):
            raise Refused(400, "a file's name has no slash: files are read from and saved to one folder")
        path = self.folder / name
        if not self._is_inside(path):
            raise Refused(409, f"{shown(name)} leads out of the folder: files are read from and saved to one folder")
        return path

    def _is_inside(self, path: Path) -> bool:
        """Whether what a path leads to, link after link, is in the folder."""
        return Path(os.path.realpath(path)).is_relative_to(os.path.realpath(self.folder))

    def names(self) -> list[dict[str, Any]]:
        """The files that the page can open, by name."""
        found = []
        with os.scandir(self.folder) as entries:
            for entry in entries:
                if entry.name.startswith(".") or not entry.name.lower().endswith(KINDS):
                    continue
                with contextlib.suppress(OSError, Refused):
                    self.path_of(entry.name)
                    if entry.is_file():
                        found.append({"name": entry.name, "size": entry.stat().st_size})
        return sorted(found, key=lambda file: file["name"].lower())[:MAX_NAMES]

    def read(self, name: str) -> bytes | None:
        """The content of a file, or none where there is no such file."""
        return read_file(self.path_of(name))

    def save(self, name: str, content: bytes, known: str | None) -> bool:
        """Writes the content, unless the file is no longer the one with the digest `known`."""
        if digest_of(self.read(name)) != known:
            return False
        replace_file(self.path_of(name), content)
        return True


def read_file(path: Path) -> bytes | None:
    """The content of a file, or none where there is no such file."""
    try:
        return chipbench_files.read_file(path)
    except FileError as error:
        raise Refused(413 if error.is_too_long else 409, str(error)) from None
