"""The session behind the shell: a source, key events, the step where one is, and what can be undone."""

from __future__ import annotations

import difflib
import os
from collections.abc import Sequence
from dataclasses import dataclass, field
from pathlib import Path

from chipbench import Bench, Fault, Refused, State, Symbol, join_lines, refusal, split_lines
from chipbench_files import FileError, read_file, replace_file
from chipbench_lines import LINE_BYTES, line_edits, over_limits, same_ends

from .advice import for_register, told
from .keeping import Keeper
from .key_file import command_of, key_file, lines_of
from .values import Mistake, Values, counted

Events = dict[tuple[int, int], bool]
# the sentences for refused lines of a file of key events, in the words of `chipbench run --keys`
KEY_LINES = {
    "C1": "expected STEP KEY down or STEP KEY up, as in `10 4 down` (KEY is 0 to 15, or A to F); a comment begins with `;`",
    "N5": "STEP is too large; expected at most 1000000",
    "N6": "there is no such KEY; expected 0 to 15, or A to F",
    "N7": "an earlier line already has an event of that STEP and KEY",
}
MEMORY_BYTES = 4096


@dataclass
class Settings:
    """The options of `chipbench debug` that were given, as `Bench` takes them."""

    profile: str | None = None
    rate: int | None = None
    tape: bytes | None = None
    seed: int | None = None
    every: int | None = None
    quirks: str | None = None


@dataclass
class Breakpoint:
    """A place where `continue` stops, as it was typed: a line by its number, or what has an address."""

    place: str
    line: int | None
    condition: str = ""
    is_temporary: bool = False

    def __str__(self) -> str:
        where = f"line {self.line}" if self.line is not None else self.place
        once = ", once" if self.is_temporary else ""
        return (f"{where} if {self.condition}" if self.condition else where) + once


@dataclass(frozen=True)
class Edition:
    """The lines and the key events between two edits."""

    lines: tuple[bytes, ...]
    events: Events = field(hash=False)


def changed_count(old: Sequence[bytes], new: Sequence[bytes]) -> int:
    """The number of lines that differ. Each replaced part counts with its longer side.

    >>> changed_count([b"A", b"B", b"C"], [b"A", b"X", b"Y", b"C"])
    2
    """
    first, last = same_ends(old, new)
    pieces = difflib.SequenceMatcher(None, old[first : len(old) - last], new[first : len(new) - last], autojunk=False)
    return sum(max(i2 - i1, j2 - j1) for tag, i1, i2, j1, j2 in pieces.get_opcodes() if tag != "equal")


def write_file(path: Path, content: bytes) -> None:
    """Writes a file atomically. `FileError` where it can't be written."""
    try:
        replace_file(path, content)
    except OSError as error:
        raise FileError(f"{path} can't be written: {error.strerror}") from None


class Game:
    """A source as it is edited, its file, and the step that is shown."""

    def __init__(
        self,
        path: Path | None,
        image: bytes | None = None,
        settings: Settings | None = None,
        program: str | None = None,
    ) -> None:
        self.path = path
        self.settings = settings or Settings()
        self._program = program
        content = read_file(path) if path is not None else None
        self.is_new = path is not None and content is None
        self.bench = self._open(content or b"", image)
        self.step = 0
        self.breakpoints: list[Breakpoint] = []
        self.saved: tuple[bytes, ...] | None = tuple(self.bench.lines)
        self.keys_path: Path | None = None
        self.saved_events: Events = {}
        self._keys_content = b""
        self._keeper = Keeper(path.parent if path is not None else Path())
        # the file's content when its lines were last taken or written, and when it was last looked at
        self._content = self._seen = content
        self._stamp = self._file_stamp()
        self._undone: list[Edition] = []
        self._done: list[Edition] = []

    def _open(self, source: bytes, image: bytes | None = None) -> Bench:
        chosen = {name: value for name, value in vars(self.settings).items() if value is not None}
        if image is not None:
            return Bench(image=image, program=self._program, **chosen)
        for number, code, sentence in over_limits(split_lines(source)):
            column = LINE_BYTES + 1 if code == "O1" else 1
            raise Mistake(f"{self.name}:{number + 1}:{column}: {code}: {sentence}")
        return Bench(source, program=self._program, **chosen)

    @property
    def name(self) -> str:
        return os.fspath(self.path) if self.path is not None else "the source"

    @property
    def is_edited(self) -> bool:
        """Whether the lines differ from the file's."""
        return tuple(self.bench.lines) != self.saved

    @property
    def has_new_keys(self) -> bool:
        """Whether the key events differ from those of their file; without a file, whether there are any."""
        return self.bench.events != self.saved_events

    @property
    def keys_name(self) -> Path:
        """The file of the key events: the one that was read or written, else one beside the source."""
        if self.keys_path is not None:
            return self.keys_path
        return self.path.with_suffix(".keys") if self.path is not None else Path("game.keys")

    @property
    def lines_name(self) -> str:
        """The name of the source's file, without its folder."""
        return self.path.name if self.path is not None else "source.asm"

    @property
    def unsaved(self) -> str:
        """Names everything that would be lost without saving; empty if nothing would."""
        lines = f"the edits of {self.name}" if self.is_edited else ""
        keys = f"the key events for {self.keys_name}" if self.has_new_keys else ""
        return " and ".join(filter(None, (lines, keys)))

    def run_options(self) -> list[str]:
        """The options of a run, as `chipbench trace` takes them."""
        rate = self.settings.rate
        return [*self.check_options(), *([] if rate is None else [f"--rate={rate}"])]

    def check_options(self) -> list[str]:
        """The options of the machine and its tape, as `chipbench check` takes them."""
        chosen = self.settings
        tape = None if chosen.tape is None else chosen.tape.hex()
        named = {"profile": chosen.profile, "quirks": chosen.quirks, "seed": chosen.seed, "tape": tape}
        return [f"--{name}={value}" for name, value in named.items() if value not in (None, "")]

    def key_lines(self) -> str:
        """The key events as the lines of a file of key events."""
        return "".join(f"{line}\n" for line in lines_of(self.bench.events))

    def read_keys(self, content: bytes, path: Path) -> None:
        """Adds the key events of a file, and takes it for their file."""
        for number, line in enumerate(split_lines(content), 1):
            command = command_of(line)
            if not command:
                continue
            answer = self.bench.exchange([b"kins " + command])[0]
            if answer != b"ok\n":
                code = answer.split()[1].decode()
                raise Mistake(f"{os.fspath(path)}:{number}: {KEY_LINES.get(code) or self.sentence(code)}")
        self.keys_path, self._keys_content, self.saved_events = path, content, self.bench.events

    def sentence(self, code: str) -> str:
        """A code with its sentence; if the source's faults are the cause, the first fault instead."""
        said = str(refusal(self.bench.program, code))
        if code != "Q1":
            return said
        fault = self.faults()[0]
        return f"line {fault.line} has a fault: {fault.code}: {fault.sentence}; the game can't run until it is fixed"

    # -- what the source and the machine are

    def faults(self) -> list[Fault]:
        return self.bench.faults

    def symbols(self) -> dict[str, Symbol]:
        return self.bench.symbols

    def state(self, step: int | None = None) -> State:
        """The machine at a step, by default at the current one."""
        return self.bench.at(self.step if step is None else step)

    def state_or_none(self) -> State | None:
        """The machine at the current step; None while a line has a fault."""
        try:
            return self.state()
        except Refused:
            return None

    def values(self) -> Values:
        return Values(self.symbols(), self.state_or_none())

    def step_number(self, text: str) -> int:
        """A number of steps. A label is refused, because its value is an address."""
        name = text.strip().upper()
        symbols = self.symbols()
        if name in symbols and self.bench.listing[symbols[name].line - 1].value is None:
            raise Mistake(f"{name} is a label, not a step: until {name} goes to the next step there")
        return told(text, self.values().number, "step")

    def line_number(self, text: str) -> int:
        """The number of a line: a name stands for the line that defines it."""
        plain = text.strip()
        symbols = self.symbols()
        number = symbols[plain.upper()].line if plain.upper() in symbols else self.values().number(plain)
        if not 1 <= number <= len(self.bench.lines):
            raise Mistake(f"no line {number}: the source has {counted(len(self.bench.lines), 'line')}")
        return number

    def place(self, text: str) -> tuple[int, int | None]:
        """The address of a place, and its line if the place is a decimal number. Anything else is an address."""
        plain = text.strip()
        if plain.isdecimal():
            number = self.line_number(plain)
            return self.address_of_line(number), number
        registers = told(plain, self.values().sum).registers
        if registers:
            raise Mistake(for_register(registers[0][1], "place"))
        return self.values().address(plain), None

    def address_of_line(self, number: int) -> int:
        """The address of the code of a line, or of the first line after it that has code."""
        for line in self.bench.listing[number - 1 :]:
            if line.code and line.address is not None:
                return line.address
        raise Mistake(f"neither line {number} nor any line after it has code")

    def line_at(self, address: int) -> int | None:
        """The line whose code is at an address."""
        found = None
        for line in self.bench.listing:
            if line.address is not None and line.code and line.address <= address:
                found = line
        if found is None or found.address is None:
            return None
        size = self._size_of(found.number, found.address, len(found.code), found.more)
        return found.number if address < found.address + size else None

    def _size_of(self, number: int, address: int, shown: int, is_longer: bool) -> int:
        """The number of bytes of a line. If the listing doesn't show all, they go up to the next address."""
        if not is_longer:
            return shown
        later = [line.address for line in self.bench.listing[number:] if line.address is not None]
        return (later[0] if later else MEMORY_BYTES) - address

    # -- edits, and what can be undone

    def edition(self) -> Edition:
        return Edition(tuple(self.bench.lines), self.bench.events)

    def note(self, before: Edition) -> bool:
        """Keeps the edition before an edit, so that it can be undone. False if nothing changed."""
        if before == self.edition():
            return False
        self._done.append(before)
        self._undone.clear()
        self._move_breakpoints(before.lines)
        return True

    def _move_breakpoints(self, old: Sequence[bytes]) -> None:
        """Breakpoints on lines stay with their lines."""
        new = self.bench.lines
        first, last = same_ends(old, new)
        for breakpoint in self.breakpoints:
            if breakpoint.line is not None and breakpoint.line > len(old) - last:
                breakpoint.line += len(new) - len(old)
        self.breakpoints = [
            point for point in self.breakpoints if point.line is None or point.line <= max(len(new), 1)
        ]

    def undo(self) -> None:
        self._exchange_editions(self._done, self._undone, "nothing to undo")

    def redo(self) -> None:
        self._exchange_editions(self._undone, self._done, "nothing to redo")

    def _exchange_editions(self, taken: list[Edition], given: list[Edition], refused: str) -> None:
        if not taken:
            raise Mistake(refused)
        now, wanted = self.edition(), taken[-1]
        self.become(wanted)
        taken.pop()
        given.append(now)
        self._move_breakpoints(now.lines)

    def become(self, wanted: Edition) -> None:
        """Changes the lines and the key events to those wanted. A text that no command can hold restarts the session."""
        edits = line_edits(self.bench.lines, wanted.lines)
        events = self.bench.events
        edits += [b"kdel %d %d" % event for event in events if event not in wanted.events]
        for (step, key), down in wanted.events.items():
            if events.get((step, key)) != down:
                word = b"krep" if (step, key) in events else b"kins"
                edits.append(b"%s %d %d %s" % (word, step, key, b"down" if down else b"up"))
        if any(b"\r" in edit for edit in edits):
            self._restart(wanted)
            return
        for answer in self.bench.exchange(edits):
            if answer != b"ok\n":
                raise Mistake(self.sentence(answer.split()[1].decode()))

    def opened_anew(self) -> Bench:
        """Another session on the same lines, without key events."""
        return self._open(join_lines(self.bench.lines))

    def _restart(self, wanted: Edition) -> None:
        bench = self._open(join_lines(wanted.lines))
        bench.exchange(b"kins %d %d %s" % (*event, b"down" if down else b"up") for event, down in wanted.events.items())
        self.bench.close()
        self.bench = bench

    def set_profile(self, name: str) -> None:
        """Runs the same lines and key events under another profile."""
        before = self.settings.profile
        self.settings.profile = name
        try:
            self._restart(self.edition())
        except BaseException:
            self.settings.profile = before
            raise

    # -- the file

    def _file_stamp(self) -> tuple[int, int, int] | None:
        try:
            found = self.path.stat() if self.path is not None else None
        except OSError:
            return None
        return (found.st_mtime_ns, found.st_size, found.st_ino) if found is not None else None

    @property
    def is_gone(self) -> bool:
        """Whether the file existed and has gone."""
        return self.path is not None and self._content is not None and self._file_stamp() is None

    def look_at_file(self) -> bytes | None:
        """The file's content if another program has written it since it was last looked at; None otherwise."""
        stamp = self._file_stamp()
        if self.path is None or stamp is None or stamp == self._stamp:
            return None
        content = read_file(self.path)
        self._stamp = stamp
        is_known = content in (self._seen, self._content)
        self._seen = content
        return None if is_known else content

    def take(self, content: bytes) -> int:
        """Takes the lines of the file, and returns how many differ. `undo` brings back an edit that wasn't saved."""
        lines = split_lines(content)
        faulty = over_limits(lines)
        if faulty:
            number, code, sentence = faulty[0]
            raise Mistake(f"line {number + 1}: {sentence} ({code}); the lines stay as they were")
        before = self.edition()
        count = changed_count(before.lines, lines)
        self.become(Edition(tuple(lines), before.events))
        self.note(before)
        self.saved, self._content = tuple(lines), content
        return count

    def file_content(self) -> bytes:
        """The present content of the file."""
        content = read_file(self.path) if self.path is not None else None
        if content is None:
            raise Mistake(f"there is no file {self.name}")
        self._seen, self._stamp = content, self._file_stamp()
        return content

    def save(self, path: Path | None, is_forced: bool) -> Path:
        """Writes the lines to the file, or to another one, atomically. Unless forced, keeps what another program wrote there."""
        target = path or self.path
        if target is None:
            raise Mistake("the source has no file yet: save FILE")
        is_own = self.path is not None and target == self.path
        there = read_file(target)
        known = self._content if is_own else None
        if there is not None and there != known and not is_forced:
            told = "has changed since it was read: reload reads it again, " if is_own else "already exists: "
            raise Mistake(f"{target} {told}save {'' if is_own else str(target) + ' '}over writes over it")
        content = self.content()
        write_file(target, content)
        if is_own or self.path is None:
            self.path = target
            self._content, self._seen, self._stamp = content, content, self._file_stamp()
            self.saved = tuple(self.bench.lines)
        return target

    def save_keys(self, path: Path | None, is_forced: bool) -> Path:
        """Writes the key events to their file, or to another one. Unless forced, keeps what another program wrote there."""
        target = path or self.keys_name
        is_own = self.keys_path is not None and target == self.keys_path
        there = read_file(target)
        known = self._keys_content if is_own else None
        if there is not None and there != known and not is_forced:
            told = "has changed since it was read" if is_own else "already exists"
            raise Mistake(f"{target} {told}: save keys {target} over writes over it")
        content = key_file(self._keys_content, self.bench.events)
        write_file(target, content)
        if is_own or self.keys_path is None:
            self.keys_path, self._keys_content, self.saved_events = target, content, self.bench.events
        return target

    def keep_unsaved(self) -> dict[str, Path]:
        """Writes everything unsaved to new files beside the history, and returns the files by their content. Removes those whose
        content was saved since."""
        keys = key_file(self._keys_content, self.bench.events) if self.has_new_keys else None
        wanted = {
            f"the edits of {self.name}": ("lines", self.lines_name, self.content() if self.is_edited else None),
            "the key events": ("keys", self.keys_name.name, keys),
        }
        for what, one, content in wanted.values():
            self._keeper.keep(what, one, content)
        kept = {told: self._keeper.path(what) for told, (what, _, _) in wanted.items()}
        return {told: path for told, path in kept.items() if path is not None}

    def drop_unsaved(self) -> None:
        """Removes the files of unsaved edits, because the user has given them up."""
        for what in ("lines", "keys"):
            self._keeper.keep(what, "", None)

    def content(self) -> bytes:
        """The lines as a file holds them: with CR where most lines of the file had one."""
        lines = self.bench.lines
        has_returns = self._content is not None and self._content.count(b"\r\n") * 2 > self._content.count(b"\n")
        return b"".join(line + b"\r\n" for line in lines) if has_returns else join_lines(lines)

    def close(self) -> None:
        self.bench.close()

