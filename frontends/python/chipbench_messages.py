"""Messages between an editor and a program that it starts: JSON after a header with its length, on standard input and output.

The language server and the debug adapter both use them.
"""

from __future__ import annotations

import json
import os
import queue
import sys
import threading
from collections.abc import Callable
from typing import Any, BinaryIO, NoReturn

HEADER = b"content-length:"
LONGEST_HEADER = 10_000
LONGEST_MESSAGE = 1 << 28
#: The value that `Incoming` gives after the last message.
END = object()


class BadMessage(Exception):
    """Bytes that aren't a message. The bytes after them can be read."""


def read_length(stream: BinaryIO) -> int | None:
    """The length that the next header names; None at the end of the stream. Other lines are skipped."""
    length: int | None = None
    while True:
        line = stream.readline(LONGEST_HEADER)
        if not line:
            return None
        if not line.strip():
            if length is not None:
                return length
            continue
        if line.lower().startswith(HEADER):
            digits = line[len(HEADER) :].strip()
            if not digits.isdigit() or len(digits) > 9 or int(digits) > LONGEST_MESSAGE:
                raise BadMessage("the header Content-Length doesn't have the length of a message")
            length = int(digits)


def read_message(stream: BinaryIO) -> Any:
    """The next message; None at the end of the stream."""
    length = read_length(stream)
    if length is None:
        return None
    body = stream.read(length)
    if len(body) < length:
        return None
    try:
        message = json.loads(body)
    except (ValueError, RecursionError):
        raise BadMessage("the message isn't JSON") from None
    if not isinstance(message, dict):
        raise BadMessage("the message isn't an object")
    return message


class Incoming(queue.Queue[Any]):
    """Messages in order, with a `BadMessage` for bytes that aren't a message, and `END` after the last one.

    One thread reads them, and `hear` has each one before its turn, so that a request can be cancelled while it is answered.
    """

    def __init__(self, stream: BinaryIO, hear: Callable[[dict[str, Any]], None]) -> None:
        super().__init__()
        self._stream = stream
        self._hear = hear

    def start(self) -> None:
        threading.Thread(target=self._read, daemon=True).start()

    def _read(self) -> None:
        while True:
            try:
                message = read_message(self._stream)
            except BadMessage as bad:
                self.put(bad)
                continue
            except (OSError, ValueError, MemoryError):
                message = None
            if message is None:
                self.put(END)
                return
            self._hear(message)
            self.put(message)


class Outgoing:
    """Messages that are written, from several threads."""

    def __init__(self, stream: BinaryIO) -> None:
        self._stream = stream
        self._lock = threading.Lock()

    def send(self, body: bytes) -> None:
        with self._lock:
            self._stream.write(b"Content-Length: %d\r\n\r\n" % len(body) + body)
            self._stream.flush()


def serve_streams(serve: Callable[[BinaryIO, BinaryIO], int]) -> NoReturn:
    """Serves on standard input and output, and ends the process. Anything printed by mistake goes to standard error."""
    output = os.fdopen(os.dup(1), "wb")
    os.dup2(2, 1)
    status = serve(sys.stdin.buffer, output)
    # the thread that reads may still wait for a message: Python can't end it
    os._exit(status)


def dig(value: Any, *keys: str) -> Any:
    """The value under some keys, or None where one is missing."""
    for key in keys:
        value = value.get(key) if isinstance(value, dict) else None
    return value
