"""The shell at a pseudo-terminal, as a user types to it."""

from __future__ import annotations

import contextlib
import fcntl
import os
import pty
import re
import select
import signal
import struct
import subprocess
import sys
import termios
import time
from pathlib import Path

from programs import PYTHON

# Nothing takes as long on the busiest machine.
SECONDS = 1800.0
PROMPT = "> "
#: Sequences of a terminal that move the cursor, paint, or switch a mode.
SEQUENCE = re.compile(r"\x1b\[[0-9;?]*[A-Za-z]|\x1b[=>]|\x07")


def has_terminals() -> bool:
    """Whether this machine gives pseudo-terminals."""
    try:
        first, second = pty.openpty()
    except OSError:
        return False
    os.close(first)
    os.close(second)
    return True


class Terminal:
    """A running shell, in a folder or another place; its home is the folder. What it prints is kept as it came in `raw`."""

    def __init__(
        self,
        arguments: list[str],
        folder: Path,
        columns: int = 80,
        term: str = "xterm",
        place: Path | None = None,
        **environment: str,
    ) -> None:
        self._master, slave = pty.openpty()
        self.resize(columns)
        kept = {name: value for name, value in os.environ.items() if name not in ("NO_COLOR", "INPUTRC", "COLUMNS", "LINES")}
        given = {"TERM": term, "HOME": str(folder), "XDG_STATE_HOME": str(folder / "state"), "INPUTRC": "/dev/null"}
        self._process = subprocess.Popen(
            [sys.executable, "-B", str(PYTHON / "chipbench_shell"), *arguments],
            stdin=slave,
            stdout=slave,
            stderr=slave,
            cwd=place or folder,
            env={**kept, "LC_ALL": "C.UTF-8", **given, **environment},
            start_new_session=True,
            preexec_fn=begin_session,
        )
        os.close(slave)
        self.raw = ""

    def resize(self, columns: int) -> None:
        fcntl.ioctl(self._master, termios.TIOCSWINSZ, struct.pack("HHHH", 24, columns, 0, 0))

    def read_until(self, end: str, seconds: float = SECONDS) -> str:
        """What is printed up to a text at the end of it, without sequences and CR."""
        read, deadline = b"", time.monotonic() + seconds
        while not (shown := plain(read.decode("utf-8", "replace"))).endswith(end):
            left = deadline - time.monotonic()
            if left <= 0 or not select.select([self._master], [], [], left)[0]:
                raise AssertionError(f"the shell didn't come to {end!r}: {shown!r}")
            piece = b""
            with contextlib.suppress(OSError):
                piece = os.read(self._master, 1 << 16)
            if not piece:
                raise AssertionError(f"the shell ended before {end!r}: {shown!r}")
            read += piece
        self.raw += read.decode("utf-8", "replace")
        return shown

    def send(self, keys: str) -> None:
        os.write(self._master, keys.encode())

    def interrupt(self, end: str = "\n" + PROMPT) -> str:
        """Types Ctrl+C, and returns what is printed up to a text. A signal in the moment before Python waits for a key is seen only
        with the next one, so it is typed again after a while."""
        for _ in range(20):
            self.send("\x03")
            with contextlib.suppress(AssertionError):
                return self.read_until(end, 10.0)
        raise AssertionError("Ctrl+C has no effect")

    def ask(self, line: str, end: str = PROMPT) -> str:
        """Types a line, and returns what is printed below it, up to the next prompt."""
        self.send(line + "\r")
        shown = self.read_until("\n" + end)
        return shown[shown.index("\n") + 1 :].removesuffix(end).removesuffix("\n")

    def wait(self) -> tuple[int, str]:
        """The status at the end, and what was printed until then."""
        read = b""
        deadline = time.monotonic() + SECONDS
        while time.monotonic() < deadline:
            try:
                piece = os.read(self._master, 1 << 16) if select.select([self._master], [], [], 0.05)[0] else None
            except OSError:
                break
            if piece == b"":
                break
            read += piece or b""
        return self._process.wait(SECONDS), plain(read.decode("utf-8", "replace"))

    def kill(self, number: int = signal.SIGKILL) -> None:
        with contextlib.suppress(ProcessLookupError):
            self._process.send_signal(number)

    def end_by(self, number: int) -> int:
        """Sends a signal until the program has ended, and returns its status. One that comes just before Python waits for a key is
        seen with the next one alone."""
        deadline = time.monotonic() + SECONDS
        while time.monotonic() < deadline:
            self.kill(number)
            with contextlib.suppress(subprocess.TimeoutExpired):
                return self._process.wait(10)
        raise AssertionError("the signal has no effect")

    def hang_up(self) -> int:
        """The terminal goes away; the status of the shell."""
        os.close(self._master)
        self._master = -1
        return self._process.wait(SECONDS)

    def close(self) -> None:
        if self._master >= 0:
            self.kill()
            self._process.wait()
            os.close(self._master)
            self._master = -1


def begin_session() -> None:
    """Makes the terminal that of the session, in which Ctrl+C is ignored, as by the children of some shells."""
    signal.signal(signal.SIGINT, signal.SIG_IGN)
    fcntl.ioctl(0, termios.TIOCSCTTY, 0)


def plain(text: str) -> str:
    """A text without sequences of the terminal, with LF alone at the ends of lines. What stands before a CR is written over."""
    return re.sub(r"[^\n]*\r", "", SEQUENCE.sub("", text).replace("\r\n", "\n"))
