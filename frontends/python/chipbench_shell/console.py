"""The terminal or the pipe where the shell reads and writes: width, colours, the line that is edited, the history."""

from __future__ import annotations

import contextlib
import io
import os
import shutil
import sys
from collections.abc import Iterator
from pathlib import Path

from .views import printable

try:
    import readline
except ImportError:  # a Python that was built without it
    readline = None  # type: ignore[assignment]

PLAIN_WIDTH = 80
HISTORY_LINES = 2000
COLOURS = {"mark": "1;34", "error": "1;31", "strong": "1"}


def state_folder() -> Path:
    """Where the history is kept: $XDG_STATE_HOME/chipbench, by default ~/.local/state/chipbench. A relative path doesn't count."""
    named = os.environ.get("XDG_STATE_HOME", "")
    home = Path(named) if os.path.isabs(named) else Path.home() / ".local/state"
    return home / "chipbench"


class OutputGone(Exception):
    """The output can't be written: its terminal or its reader has gone away. The text says why; it is empty for a reader."""


class Console:
    """Standard input and output. A prompt, editing of the line and a history need both to be a terminal."""

    def __init__(self, echoes: bool = False) -> None:
        self.is_terminal = sys.stdin.isatty() and sys.stdout.isatty()
        self._echoes = echoes and not self.is_terminal
        is_dumb = os.environ.get("TERM", "dumb") in ("dumb", "")
        self.has_colours = self.is_terminal and not is_dumb and not os.environ.get("NO_COLOR")
        self.has_blocks = self._can_print("▀▄█▘")
        self._tells = self.is_terminal and not is_dumb and sys.stderr.isatty()
        self._is_told = False
        self._pasted: list[str] = []
        self.line = 0
        # bytes that are not UTF-8 stay as they are, and unprintable characters are escaped
        for stream, errors in ((sys.stdin, "surrogateescape"), (sys.stdout, "backslashreplace"), (sys.stderr, "backslashreplace")):
            if isinstance(stream, io.TextIOWrapper):
                stream.reconfigure(errors=errors)

    @staticmethod
    def _can_print(letters: str) -> bool:
        try:
            letters.encode(sys.stdout.encoding or "ascii")
        except (UnicodeEncodeError, LookupError):
            return False
        return True

    @property
    def width(self) -> int:
        """The columns of the window, as it is now; 80 where there is none."""
        if not self.is_terminal:
            return PLAIN_WIDTH
        # COLUMNS may be older than the window
        with contextlib.suppress(OSError):
            return os.get_terminal_size(sys.stdout.fileno()).columns or PLAIN_WIDTH
        return shutil.get_terminal_size((PLAIN_WIDTH, 24)).columns

    def paint(self, kind: str, text: str) -> str:
        return f"\x1b[{COLOURS[kind]}m{text}\x1b[0m" if self.has_colours and text else text

    def say(self, *lines: str) -> None:
        self.end_report()
        try:
            for line in lines:
                sys.stdout.write(line + "\n")
            sys.stdout.flush()
        except OSError as error:
            is_reader = isinstance(error, BrokenPipeError) or self.is_terminal
            raise OutputGone("" if is_reader else f"the output can't be written: {error.strerror}") from None

    def complain(self, text: str) -> None:
        """A refusal, on standard error; from a pipe or a file with the number of its line."""
        self.end_report()
        # the text may quote what the user typed, with any characters
        plain = "\n".join(map(printable, text.split("\n")))
        shown = self.paint("error", plain) if self.is_terminal else f"line {self.line}: {plain}"
        # a failure of standard error is ignored, as by the program
        with contextlib.suppress(OSError):
            sys.stderr.write(shown + "\n")
            sys.stderr.flush()

    # -- progress of a search

    def report(self, step: int) -> None:
        if self._tells:
            self._is_told = True
            sys.stderr.write(f"\rsearching: step {step}; Ctrl+C stops")
            sys.stderr.flush()

    def end_report(self) -> None:
        if self._is_told:
            self._is_told = False
            sys.stderr.write("\r\x1b[K")
            sys.stderr.flush()

    # -- lines

    def read(self, prompt: str, text: str = "") -> str:
        """A line without its LF; at a terminal after a prompt, with a text that can be edited. Raises EOFError at the end."""
        self.line += 1
        if not self.is_terminal:
            line = sys.stdin.readline()
            if not line:
                raise EOFError
            line = line.removesuffix("\n").removesuffix("\r")
            if self._echoes:
                self.say(printable(prompt + line).rstrip())
            return line
        if self._pasted:
            return self._pasted.pop(0)
        with self._prefilled(text):
            # a paste may hold several lines
            line, *self._pasted = input(prompt).split("\n")
        return line

    @contextlib.contextmanager
    def _prefilled(self, text: str) -> Iterator[None]:
        if not text or readline is None:
            yield
            return
        readline.set_startup_hook(lambda: readline.insert_text(text))
        try:
            yield
        finally:
            readline.set_startup_hook()

    @contextlib.contextmanager
    def without_history(self) -> Iterator[None]:
        """Keeps the lines that are read meanwhile out of the history, because they aren't commands."""
        if readline is None or not self.is_terminal:
            yield
            return
        readline.set_auto_history(False)
        try:
            yield
        finally:
            readline.set_auto_history(True)


class History:
    """The commands that were typed, kept in a file from one session to the next."""

    def __init__(self, console: Console) -> None:
        self.path = state_folder() / "history"
        self._is_kept = console.is_terminal and hasattr(readline, "append_history_file")
        self._length = 0

    def load(self) -> None:
        if not self._is_kept:
            return
        readline.clear_history()
        readline.set_history_length(HISTORY_LINES)
        with contextlib.suppress(OSError, UnicodeDecodeError):
            readline.read_history_file(self.path)
        self._length = readline.get_current_history_length()

    def add(self) -> None:
        """Adds the lines typed since to the file. If it can't be written, the session goes on without it."""
        if not self._is_kept:
            return
        length = readline.get_current_history_length()
        if length <= self._length:
            return
        with contextlib.suppress(OSError):
            self.path.parent.mkdir(mode=0o700, parents=True, exist_ok=True)
            os.close(os.open(self.path, os.O_CREAT | os.O_WRONLY, 0o600))
            readline.append_history_file(length - self._length, self.path)
        self._length = length
