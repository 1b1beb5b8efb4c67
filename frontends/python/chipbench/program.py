"""The program: its path, one run of it, and the protocol of `debug`. Nothing here knows the language."""

from __future__ import annotations

import contextlib
import functools
import os
import re
import shutil
import subprocess
import tempfile
import weakref
from collections.abc import Callable, Sequence
from pathlib import Path
from typing import IO, Any

from .errors import ChipbenchError, Ended, Refused, TooMuch
from .pipes import Pipes, pipes_of

ANSWER_SECONDS = 60.0
ONCE_SECONDS = 20.0

# The most bytes of the answers of one exchange, unless a program has another bound.
MOST_BYTES = 1 << 30

# An answer whose first line is `no CODE` ends there. Other answers to these commands end with a line `.`, or have several lines.
ENDED_BY_DOT = {b"syms", b"list", b"faults", b"screen", b"dis"}
LINES = {b"regs": 3}
# The program's output, in place of all answers, for a source that doesn't open.
NOT_OPENED = b"no O"
# The codes of sources that don't open.
UNOPENED = ("O1", "O2")
#: The command that runs the program in WebAssembly.
NODE = "node"
#: The arguments that start a program that Ctrl+C doesn't reach.
OWN_SESSION: dict[str, Any] = {"creationflags": 0x200} if os.name == "nt" else {"start_new_session": True}


def answer_end(command: bytes, read: bytes | bytearray, start: int) -> int:
    """The end of the answer that begins at `start`, or -1 if the answer isn't whole yet.

    >>> answer_end(b"image", b"00e0\\nok\\n", 0)
    5
    >>> answer_end(b"faults", b"1 F9\\n", 0)
    -1
    """
    end = read.find(b"\n", start) + 1
    if end == 0:
        return -1
    if read.startswith(b"no ", start):
        return end
    word = command.split(b" ", 1)[0]
    if word in ENDED_BY_DOT:
        if read.startswith(b".\n", start):
            return start + 2
        at = read.find(b"\n.\n", start)
        return at + 3 if at >= 0 else -1
    for _ in range(LINES.get(word, 1) - 1):
        end = read.find(b"\n", end) + 1
        if end == 0:
            return -1
    return end


class Program:
    """One running program `chipbench debug`, for one thread at a time. If it isn't closed, it ends with this object."""

    def __init__(
        self, arguments: Sequence[str], most_bytes: int = MOST_BYTES, pipes: Callable[[subprocess.Popen[bytes]], Pipes] = pipes_of
    ) -> None:
        self._errors = tempfile.TemporaryFile()
        try:
            # in a separate session, because Ctrl+C at the terminal is for the script that reads the answers
            self._process = subprocess.Popen(
                command_of(arguments),
                stdin=subprocess.PIPE,
                stdout=subprocess.PIPE,
                stderr=self._errors,
                bufsize=0,
                **OWN_SESSION,
            )
        except OSError:
            self._errors.close()
            raise
        self._pipes = pipes(self._process)
        self._finalizer = weakref.finalize(self, end_unclosed, self._process, self._errors, os.getpid())
        self._most_bytes = most_bytes
        self.commands = self.bytes = 0

    @property
    def process_id(self) -> int:
        return self._process.pid

    def exchange(self, commands: Sequence[bytes], seconds: float = ANSWER_SECONDS) -> list[bytes]:
        """Gives commands to the program and returns their answers, one each.

        Each command is one line without its LF, and isn't blank, so that it has an answer."""
        script = b"".join(command + b"\n" for command in commands)
        self.commands += len(commands)
        self.bytes += len(script)
        answers: list[bytes] = []
        if not commands:
            return answers
        try:
            self._read_answers(commands, script, seconds, answers)
        except TimeoutError:
            raise self._ended("the program gave no answer in time and was ended", answers) from None
        return answers

    def _read_answers(self, commands: Sequence[bytes], script: bytes, seconds: float, answers: list[bytes]) -> None:
        read, size = bytearray(), 0
        for piece in self._pipes.pieces(script, seconds):
            if not piece:
                raise self._ended(read.decode("latin-1"), answers)
            read += piece
            size += len(piece)
            if size > self._most_bytes:
                raise TooMuch(f"the answers have over {self._most_bytes} bytes")
            self._take(commands, read, answers)
            if len(answers) == len(commands):
                return

    def _take(self, commands: Sequence[bytes], read: bytearray, answers: list[bytes]) -> None:
        """Moves the whole answers from what was read to the answers."""
        start = 0
        while len(answers) < len(commands):
            end = answer_end(commands[len(answers)], read, start)
            if end < 0:
                break
            answer = bytes(read[start:end])
            if answer.startswith(NOT_OPENED):
                raise self._ended(answer.decode("latin-1"), answers)
            answers.append(answer)
            start = end
        del read[:start]

    def _ended(self, said: str, answers: list[bytes]) -> Ended:
        status = self._end()
        self._errors.seek(0)
        error = self._errors.read(10_000).decode("utf-8", "replace")
        self._errors.close()
        return Ended(status, (said + error).strip(), answers)

    def close(self) -> None:
        """Ends the program. Further calls do nothing."""
        self._finalizer.detach()
        self._end()
        self._errors.close()

    def _end(self) -> int:
        return end(self._process)


def end(process: subprocess.Popen[bytes]) -> int:
    """Ends a program by closing its streams, or by force, and returns its status."""
    for stream in (process.stdin, process.stdout):
        assert stream is not None
        with contextlib.suppress(OSError):
            stream.close()
    try:
        return process.wait(1.0)
    except subprocess.TimeoutExpired:
        process.kill()
        return process.wait()


def end_unclosed(process: subprocess.Popen[bytes], errors: IO[bytes], owner: int) -> None:
    """Ends the program of an object that nobody uses any more. A forked process only closes its own ends of the streams, because
    the program belongs to its parent and goes on."""
    if os.getpid() == owner:
        end(process)
    else:
        for stream in (process.stdin, process.stdout):
            assert stream is not None
            stream.close()
        process.returncode = 0
    errors.close()


def find_program() -> str:
    """The program: $CHIPBENCH, the one inside this package, the one built, released or installed beside it, or `chipbench` on
    the PATH."""
    named = os.environ.get("CHIPBENCH")
    if named:
        return named
    package = Path(__file__).resolve().parent
    # the package is in frontends/python of the repository, or in share/chipbench/python of an installation
    top, prefix = package.parent / "../..", package.parent / "../../.."
    inside = inner_program()
    if inside is not None:
        return inside
    built, released, installed = top / "crates/chipbench/out/chipbench", top / "release/chipbench", prefix / "bin/chipbench"
    for place in (built, released, installed):
        if place.is_file() and os.access(place, os.X_OK):
            return str(place.resolve())
    found = shutil.which("chipbench")
    if found is None:
        raise ChipbenchError("no program chipbench was found: give program=, set $CHIPBENCH, or put chipbench on the PATH")
    return found


def inner_program() -> str | None:
    """The program inside this package: the one for this system, or the one in WebAssembly, which needs node; None if there is
    none."""
    package = Path(__file__).resolve().parent
    native, portable = package / "bin/chipbench", package / "wasm/chipbench.mjs"
    if native.is_file():
        return str(native)
    if not portable.is_file():
        return None
    if shutil.which(NODE) is None:
        raise ChipbenchError("the program in this package needs node 20 or later on the PATH; or set $CHIPBENCH")
    return str(portable)


def command_of(arguments: Sequence[str]) -> list[str]:
    """The words that run a program: node runs the one in WebAssembly.

    >>> command_of(["chipbench.mjs", "debug"])
    ['node', 'chipbench.mjs', 'debug']
    """
    return [NODE, *arguments] if arguments[0].endswith(".mjs") else list(arguments)


def run_once(arguments: Sequence[str], given: bytes = b"", seconds: float = ONCE_SECONDS) -> tuple[int, bytes, str]:
    """Runs a program with `given` as its standard input, and returns its status, its output and its errors."""
    try:
        done = subprocess.run(command_of(arguments), input=given, capture_output=True, timeout=seconds)
    except subprocess.TimeoutExpired:
        return -9, b"", "the program gave no answer in time"
    except OSError as error:
        raise cannot_run(arguments[0], error) from None
    return done.returncode, done.stdout, done.stderr.decode("utf-8", "replace")


def cannot_run(program: str, error: OSError) -> ChipbenchError:
    return ChipbenchError(f"cannot run {program}: {error.strerror}")


def what_it_is(program: str) -> str | None:
    """A sentence that says why a program that ends at once isn't chipbench; None if it is chipbench."""
    status, output, _ = run_once([program, "--version"])
    if status == 0 and output.startswith(b"chipbench "):
        return None
    first = output.decode("utf-8", "replace").partition("\n")[0].strip()
    return f"{program} is not chipbench: `{program} --version` printed {first[:80]!r}, with status {status}"


@functools.lru_cache(maxsize=8)
def sentences(program: str) -> dict[str, str]:
    """The sentence of each code, from the program's `explain`; empty if the program lacks that command."""
    try:
        status, output, _ = run_once([program, "explain"])
    except ChipbenchError:
        return {}
    found = re.findall(r"^([A-Z][0-9]+)  (.*)$", output.decode("utf-8", "replace"), re.MULTILINE)
    return dict(found) if status == 0 else {}


def refusal(program: str, code: str) -> Refused:
    """The error for a code, with the program's sentence."""
    return Refused(code, sentences(program).get(code, ""))
