"""Reads and writes the author's files. At each moment a file is the old one or the new one."""

from __future__ import annotations

import contextlib
import os
import stat
import tempfile
from pathlib import Path
from typing import Any

MAX_FILE = 2_000_000


class FileError(Exception):
    """A file that can't be taken. `is_too_long` says that it has over `MAX_FILE` bytes."""

    def __init__(self, reason: str, is_too_long: bool = False) -> None:
        super().__init__(reason)
        self.is_too_long = is_too_long


def shown(path: Path | str) -> str:
    """A name as text that can be printed and sent, even if its bytes aren't UTF-8."""
    return os.fsencode(path).decode("utf-8", "replace")


def read_file(path: Path) -> bytes | None:
    """The content of a file, or None if there is no such file."""
    try:
        # a pipe without a writer must not block
        handle = os.open(path, os.O_RDONLY | os.O_NONBLOCK | os.O_CLOEXEC)
    except FileNotFoundError:
        return None
    except OSError as error:
        raise FileError(f"{shown(path)} can't be read: {error.strerror}") from None
    if not stat.S_ISREG(os.fstat(handle).st_mode):
        os.close(handle)
        raise FileError(f"{shown(path)} is not a file")
    with os.fdopen(handle, "rb") as file:
        content = file.read(MAX_FILE + 1)
    if len(content) > MAX_FILE:
        raise FileError(f"{shown(path)} is too long for a source", True)
    return content


def replace_file(path: Path, content: bytes) -> None:
    """Writes a new file in the same folder, and gives it the file's name. Links are followed. A file with several names, or with
    another owner, is written in place."""
    target = path.resolve()
    try:
        before = target.stat()
    except FileNotFoundError:
        before = None
    handle, part = tempfile.mkstemp(prefix=".chipbench-", dir=target.parent)
    try:
        with os.fdopen(handle, "wb") as file:
            write_through(file, content)
            is_replaced = before is None or takes_its_place(os.fstat(file.fileno()), before)
        if is_replaced:
            os.chmod(part, stat.S_IMODE(before.st_mode) if before is not None else 0o666 & ~current_umask())
            os.replace(part, target)
            return
        write_in_place(target, content)
    finally:
        with contextlib.suppress(OSError):
            os.unlink(part)


def takes_its_place(new: os.stat_result, old: os.stat_result) -> bool:
    """Whether a new file can take the place of one: it has no other name, and the same owner and group."""
    return old.st_nlink == 1 and (new.st_uid, new.st_gid) == (old.st_uid, old.st_gid)


def write_in_place(target: Path, content: bytes) -> None:
    """Writes a file that keeps its names and its owner. Room is reserved first, so that a full disk leaves the file as it was."""
    with target.open("r+b") as file:
        size = os.fstat(file.fileno()).st_size
        try:
            if len(content) > size:
                os.posix_fallocate(file.fileno(), size, len(content) - size)
        except OSError:
            file.truncate(size)
            raise
        write_through(file, content)
        file.truncate(len(content))


def write_through(file: Any, content: bytes) -> None:
    file.write(content)
    file.flush()
    os.fsync(file.fileno())


def current_umask() -> int:
    mask = os.umask(0)
    os.umask(mask)
    return mask
