"""Runs of the programs that are tested."""
import contextlib
import resource
import signal
import subprocess
from dataclasses import dataclass

# The processor time that no run takes, where nothing else is said: beside other work a run takes longer, and not more of it.
SECONDS = 120
# The time by the clock that nothing takes on the busiest machine: what has no end by then waits in vain.
HANG_SECONDS = 600


class TookTooLong(Exception):
    """A run was ended, since it took too much processor time."""


@dataclass(frozen=True)
class Ran:
    """How a run ended, and what it printed."""

    status: int
    stdout: bytes
    stderr: bytes


def limited(words, stdin=b"", seconds=SECONDS, **options):
    """A run that is ended once it took so much processor time. `stdin` is what it reads, or a file."""
    is_text = isinstance(stdin, bytes)
    given = subprocess.PIPE if is_text else stdin
    with subprocess.Popen(words, stdin=given, stdout=subprocess.PIPE, stderr=subprocess.PIPE, **options) as process:
        # one that has ended takes no more
        with contextlib.suppress(ProcessLookupError):
            resource.prlimit(process.pid, resource.RLIMIT_CPU, (int(seconds), int(seconds) + 1))
        try:
            stdout, stderr = process.communicate(stdin if is_text else None, timeout=HANG_SECONDS)
        finally:
            process.kill()
    if process.returncode == -signal.SIGXCPU:
        raise TookTooLong(f"over {seconds} seconds of processor time: {' '.join(map(str, words))[:200]}")
    return Ran(process.returncode, stdout, stderr)


@dataclass(frozen=True)
class Program:
    """A built program."""

    file: str
    seconds: float = SECONDS

    def run(self, arguments, stdin=b"", folder=None):
        """A run with these arguments, in that folder."""
        return limited([self.file, *arguments], stdin, self.seconds, cwd=folder)
