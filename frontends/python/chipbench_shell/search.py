"""Finds steps of a run in the lines that `chipbench trace` prints, from the current step on."""

from __future__ import annotations

import bisect
import os
import subprocess
import tempfile
import time
from collections.abc import Callable, Iterator, Sequence
from dataclasses import dataclass
from pathlib import Path

from chipbench import Bench, ChipbenchError, Ended, command_of, join_lines

from .game import Game
from .values import Condition, ReadRegister, Subject, register_value

LAST_STEP = 1_000_000
BLOCK = 1 << 18
# the shell reports its step after so many writes that change nothing
TOLD_STEPS = 1000
# the seconds before a search first reports its step, and between two reports
SILENT_SECONDS, TOLD_SECONDS = 0.7, 0.2

#: The columns of a line after its step (docs/FORMATS.md). `depth` is decimal, and ends at the next blank.
COLUMNS = {
    "PC": slice(0, 4),
    **{f"V{register:X}": slice(10 + 3 * register, 12 + 3 * register) for register in range(16)},
    "I": slice(58, 62),
    "DT": slice(63, 65),
    "ST": slice(66, 68),
}
WORD = slice(5, 9)
DEPTH = 69
HEAD = b"# step pc word v0 v1 v2 v3 v4 v5 v6 v7 v8 v9 va vb vc vd ve vf i dt st depth draws text"

#: A step, and its line without that.
Line = tuple[int, bytes]
Test = Callable[[bytes], bool]
Report = Callable[[int], None]


@dataclass(frozen=True)
class Found:
    """The result of a search: a step, or None. `last` is the last step that was looked at; the machine may have stopped there."""

    step: int | None
    last: int
    is_stopped: bool


@dataclass(frozen=True)
class Blamed:
    """The step at which the machine stops, or None; and the key event that makes it stop, or None where no key does: its step, its
    key, and whether the key goes down."""

    stop: int | None
    event: tuple[int, int] | None
    is_press: bool = True


def depth_of(line: bytes) -> int:
    """How many return addresses are on the call stack."""
    return int(line[DEPTH : line.index(b" ", DEPTH)])


def may_write(line: bytes, address: int) -> bool:
    """Whether the step may write a byte: `LD B, Vx` and `LD [I], Vx` write at most 16 bytes from I on. Only the program knows
    whether it does."""
    return line[WORD][2:] in (b"33", b"55") and (address - int(line[COLUMNS["I"]], 16)) % 4096 < 16


def registers_of(line: bytes) -> ReadRegister:
    """The registers at a line of a trace."""
    return lambda name: int(line[COLUMNS[name]], 16)


def at_address(address: int) -> Test:
    """Whether the instruction at an address comes next."""
    wanted = b"%04x" % address
    return lambda line: line.startswith(wanted)


def not_deeper(depth: int) -> Test:
    """Whether the call stack has at most so many return addresses."""
    return lambda line: depth_of(line) <= depth


def register_test(condition: Condition) -> Test:
    """Whether a comparison of a register holds at a line of a trace, from which both sides are read."""
    name = condition.subject.register
    assert name is not None
    column = COLUMNS[name]
    return lambda line: condition.holds(int(line[column], 16), registers_of(line))


def becomes(test: Test, is_now: bool) -> Test:
    """Whether a test holds at a line and didn't hold at the line before. The result must be called with each line in turn."""
    held = is_now

    def has_become(line: bytes) -> bool:
        nonlocal held
        before, held = held, test(line)
        return held and not before

    return has_become


def becomes_of_byte(condition: Condition, is_now: bool) -> Callable[[int, bytes], bool]:
    """Whether a comparison of a byte holds and didn't hold the last time it was tested."""
    held = is_now

    def has_become(value: int, line: bytes) -> bool:
        nonlocal held
        before, held = held, condition.holds(value, registers_of(line))
        return held and not before

    return has_become


class Search:
    """The lines of a trace from one step to another, in order. `report` gets the current step now and then."""

    def __init__(self, game: Game, report: Report) -> None:
        self._game = game
        self._report = report

    def lines(self, first: int, last: int = LAST_STEP) -> Iterator[Line]:
        """The steps from `first` to `last`, or to the step at which the machine stops. Raises `Refused` if a line has a fault."""
        self._game.state()
        with tempfile.TemporaryDirectory(prefix="chipbench-shell-") as folder:
            arguments = self._arguments(Path(folder), first, last)
            with open(Path(folder, "errors"), "w+b") as errors:
                process = start(arguments, errors.fileno())
                try:
                    assert process.stdout is not None
                    yield from self._read(process.stdout.fileno(), first)
                finally:
                    # a search that has found its step, or that was interrupted, needs no further line
                    was_running = process.poll() is None
                    process.kill()
                    process.wait()
                    assert process.stdout is not None
                    process.stdout.close()
                if not was_running and process.returncode not in (0, None) and process.returncode > 0:
                    errors.seek(0)
                    raise Ended(process.returncode, errors.read(10_000).decode("utf-8", "replace").strip(), [])

    def _arguments(self, folder: Path, first: int, last: int) -> list[str]:
        source, keys = folder / "source.asm", folder / "events.keys"
        source.write_bytes(join_lines(self._game.bench.lines))
        keys.write_text(self._game.key_lines(), encoding="ascii")
        game = self._game
        steps = ["--steps", str(last), "--from", str(first)]
        return [game.bench.program, "trace", str(source), *steps, "--keys", str(keys), *game.run_options()]

    def _read(self, output: int, first: int) -> Iterator[Line]:
        begun = told = time.monotonic()
        rest, step, is_head = b"", first, True
        while piece := os.read(output, BLOCK):
            *lines, rest = (rest + piece).split(b"\n")
            for line in lines:
                if is_head:
                    if line.startswith((b"# profile ", b"# quirks ")):
                        continue
                    if line != HEAD:
                        raise ChipbenchError("the program isn't of the shell's version: its `trace` prints other columns")
                    is_head = False
                    continue
                number, _, columns = line.partition(b" ")
                step = int(number)
                yield step, columns
            now = time.monotonic()
            if now - begun > SILENT_SECONDS and now - told > TOLD_SECONDS:
                told = now
                self._report(step)

    def first(self, test: Test, after: int) -> Found:
        """The first step after one at which a test holds."""
        step, line = after, b""
        for step, line in self.lines(after + 1):
            if step > after and test(line):
                return Found(step, step, False)
        return Found(None, step, not line.endswith(b" run"))

    def last(self, test: Test, before: int) -> int | None:
        """The last step before one at which a test holds."""
        found = None
        for step, line in self.lines(0, before):
            if step < before and test(line):
                found = step
        return found

    # -- a register, or a byte of the memory

    def first_true(self, condition: Condition) -> Found:
        """The first step after the current one at which a comparison becomes true."""
        state = self._game.state()
        subject = condition.subject
        is_now = condition.holds(subject.value(state), lambda name: register_value(state, name))
        if subject.register is not None:
            return self.first(becomes(register_test(condition), is_now), state.step)
        return self._first_of_byte(subject, becomes_of_byte(condition, is_now), bool(condition.right.registers))

    def first_change(self, subject: Subject) -> Found:
        """The first step after the current one at which a register or a byte has another value."""
        state = self._game.state()
        value = subject.value(state)
        if subject.register is None:
            return self._first_of_byte(subject, lambda now, _: now != value, False)
        column, shown = COLUMNS[subject.register], b"%0*x" % (subject.digits, value)
        return self.first(lambda line: line[column] != shown, state.step)

    def _first_of_byte(self, subject: Subject, test: Callable[[int, bytes], bool], needs_each_line: bool) -> Found:
        """The first step after the current one at which a test of a byte's value and of the line holds. Unless it needs each line,
        only those behind a step that may write the byte are tested."""
        here = step = self._game.step
        value, is_written, line = subject.value(self._game.state()), False, b""
        for step, line in self.lines(here):
            if is_written:
                value = self._byte(step, subject.address)
            if step > here and (is_written or needs_each_line) and test(value, line):
                return Found(step, step, False)
            is_written = may_write(line, subject.address)
        return Found(None, step, not line.endswith(b" run"))

    def _byte(self, step: int, address: int) -> int:
        return int(self._game.bench.ask(f"mem {step} {address} 1"), 16)

    def last_change(self, subject: Subject) -> int | None:
        """The last step before the current one that changed a register or a byte; None where none did."""
        state = self._game.state()
        if subject.register is not None:
            column, shown = COLUMNS[subject.register], b"%0*x" % (subject.digits, subject.value(state))
            return self.last(lambda line: line[column] != shown, state.step)
        written = [step for step, line in self.lines(0, state.step) if step < state.step and may_write(line, subject.address)]
        for number, step in enumerate(reversed(written), 1):
            if number % TOLD_STEPS == 0:
                self._report(step)
            if self._byte(step, subject.address) != self._byte(step + 1, subject.address):
                return step
        return None

    # -- key events

    def blamed(self) -> Blamed:
        """The key event that makes the machine stop: without it and all later ones, the machine runs past that step. Raises
        `Refused` if a line has a fault."""
        stop = self.stop()
        if stop is None:
            return Blamed(None, None)
        events = sorted(self._game.bench.events.items())
        bench = self._game.opened_anew()
        try:
            if stops_by(bench, [], stop):
                return Blamed(stop, None)
            # with all of them it stops
            number = bisect.bisect_left(range(len(events) - 1), True, key=lambda place: stops_by(bench, events[: place + 1], stop or 0))
        finally:
            bench.close()
        return Blamed(stop, *events[number])

    def stop(self) -> int | None:
        """The step at which the machine stops; None where it runs up to the last one."""
        if self._game.state(LAST_STEP).stopped is None:
            return None
        return bisect.bisect_left(range(LAST_STEP), True, key=lambda at: self._game.state(at).stopped is not None)


def start(arguments: list[str], errors: int) -> subprocess.Popen[bytes]:
    """Runs a program that Ctrl+C at the terminal doesn't reach."""
    try:
        return subprocess.Popen(
            command_of(arguments), stdin=subprocess.DEVNULL, stdout=subprocess.PIPE, stderr=errors, bufsize=0, start_new_session=True
        )
    except OSError as error:
        raise ChipbenchError(f"cannot run {arguments[0]}: {error.strerror}") from None


def stops_by(bench: Bench, events: Sequence[tuple[tuple[int, int], bool]], step: int) -> bool:
    """Whether the machine has stopped by a step with these key events alone."""
    wanted = dict(events)
    for (at, key), is_down in {**wanted, **bench.events}.items():
        if (at, key) not in wanted:
            bench.remove_event(key, at=at)
        elif (at, key) not in bench.events:
            (bench.press if is_down else bench.release)(key, at=at)
    return bench.at(step).stopped is not None
