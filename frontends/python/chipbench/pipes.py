"""The streams of a running program: a script goes in, and the output is read piece by piece."""

from __future__ import annotations

import os
import queue
import select
import subprocess
import threading
import time
from collections.abc import Iterator
from typing import Protocol

PIECE_BYTES = 1 << 18
WRITTEN_BYTES = 1 << 16
# the number of bytes that always fit into an empty pipe
SHORT_SCRIPT = 4096


class Pipes(Protocol):
    """The standard input and output of one program."""

    def pieces(self, script: bytes, seconds: float) -> Iterator[bytes]:
        """Writes a script, and yields the output of the program as it comes; an empty piece is its end. Raises `TimeoutError` after
        that many seconds. A caller that has read enough stops asking."""


class SelectedPipes:
    """Uses `select`, on systems that can wait for pipes."""

    def __init__(self, process: subprocess.Popen[bytes]) -> None:
        assert process.stdin is not None and process.stdout is not None
        self._input, self._output = process.stdin.fileno(), process.stdout.fileno()
        os.set_blocking(self._input, False)
        os.set_blocking(self._output, False)

    def pieces(self, script: bytes, seconds: float) -> Iterator[bytes]:
        to_write = memoryview(script)
        deadline = time.monotonic() + seconds
        while True:
            left = deadline - time.monotonic()
            if left <= 0:
                raise TimeoutError
            readable, writable, _ = select.select([self._output], [self._input] if to_write else [], [], left)
            if writable:
                to_write = self._write(to_write)
            if readable:
                yield os.read(self._output, PIECE_BYTES)

    def _write(self, to_write: memoryview) -> memoryview:
        try:
            return to_write[os.write(self._input, to_write[:WRITTEN_BYTES]) :]
        except BrokenPipeError:
            return to_write[:0]


class ThreadedPipes:
    """Uses a thread that reads, and one that writes a long script, because Windows can't wait for pipes."""

    def __init__(self, process: subprocess.Popen[bytes]) -> None:
        assert process.stdin is not None and process.stdout is not None
        self._input, self._output = process.stdin.fileno(), process.stdout.fileno()
        self._read: queue.SimpleQueue[bytes] = queue.SimpleQueue()
        threading.Thread(target=read_all, args=(self._output, self._read), daemon=True).start()

    def pieces(self, script: bytes, seconds: float) -> Iterator[bytes]:
        deadline = time.monotonic() + seconds
        if len(script) <= SHORT_SCRIPT:
            write_all(self._input, script)
        else:
            threading.Thread(target=write_all, args=(self._input, script), daemon=True).start()
        while True:
            try:
                yield self._read.get(timeout=max(0.0, deadline - time.monotonic()))
            except queue.Empty:
                raise TimeoutError from None


def read_all(output: int, read: queue.SimpleQueue[bytes]) -> None:
    """Reads up to the end, which is an empty piece; a stream that is closed here meanwhile has ended too."""
    piece = b"-"
    while piece:
        try:
            piece = os.read(output, PIECE_BYTES)
        except OSError:
            piece = b""
        read.put(piece)


def write_all(target: int, script: bytes) -> None:
    """Writes a script. A program that has ended takes no more of it, and its output shows that."""
    left = memoryview(script)
    while left:
        try:
            left = left[os.write(target, left[:WRITTEN_BYTES]) :]
        except OSError:
            return


def pipes_of(process: subprocess.Popen[bytes]) -> Pipes:
    """The pipes of a program, of the kind that this system supports."""
    if os.name == "nt":
        return ThreadedPipes(process)
    return SelectedPipes(process)
