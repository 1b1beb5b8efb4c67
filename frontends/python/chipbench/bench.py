"""A source, key events, and the machine at each step."""

from __future__ import annotations

import errno
import os
import re
import tempfile
from collections.abc import Iterable, Iterator, Sequence
from pathlib import Path

from .arguments import bytes_only, file_name, option_texts, source_text, text_or_bytes, whole_number
from .errors import ChipbenchError, Ended, Refused, WrongValue
from .program import Program, cannot_run, find_program, refusal, sentences, what_it_is
from .sources import Fault, ListingLine, Symbol, Word, disassemble, join_lines, read_listing_line, split_lines, to_bytes, to_text
from .states import State

# A script of `debug` may have 100,000 lines and 50,000,000 bytes. The program is restarted before that.
SCRIPT_LINES = 90_000
SCRIPT_BYTES = 45_000_000
# A batch of commands whose answers are read together.
BATCH = 500

OK = b"ok\n"
# the answer to `kdel` if there is no such event
NO_EVENT = b"no N8\n"
# the code of a question to a source that has no image, because a line has a fault
NO_IMAGE = "Q1"


class Bench:
    """A source, key events, and the machine at each step, as one `chipbench debug` answers them.

    Give one of `source` (text or bytes), `path` (a file, as `Bench.open` takes it), and `image` (bytes, which `dis` turns into a
    source). A wrong argument raises `WrongType` or `WrongValue`, which are a `TypeError` and a `ValueError`, and whose text names
    it.
    `profile`, `quirks`, `rate`, `tape` (bytes), `seed` and `every` are the options of `chipbench debug`. `program` is the
    program's name, by default that of `find_program`.

    >>> with Bench("WAIT: LD V1, K\\nJP WAIT", rate=20) as bench:
    ...     bench.press(5, at=2)
    ...     bench.release(5, at=4)
    ...     state = bench.at(4)
    ...     state.v[1], hex(state.pc), state.stopped
    (5, '0x200', None)
    """

    def __init__(
        self,
        source: str | bytes | None = None,
        *,
        path: str | os.PathLike[str] | None = None,
        image: bytes | None = None,
        profile: str | None = None,
        rate: int | None = None,
        tape: bytes | None = None,
        seed: int | str | None = None,
        every: int | None = None,
        quirks: str | None = None,
        program: str | os.PathLike[str] | None = None,
    ) -> None:
        if sum(given is not None for given in (source, path, image)) > 1:
            raise WrongValue("give one of source, path and image")
        text = source_text(source) if source is not None else b""
        settings = {"profile": profile, "quirks": quirks, "rate": rate, "tape": tape, "seed": seed, "every": every}
        self._settings = option_texts(settings)
        self.program = file_name("program", program) if program is not None else find_program()
        self._options = [f"--{name}={value}" for name, value in self._settings.items()]
        self._running: Program | None = None
        self._is_closed = False
        self.edition = 0
        if path is not None:
            text = Path(file_name("path", path)).read_bytes()
        if image is not None:
            text = disassemble(bytes_only("image", image), self.program)
        self.lines = split_lines(to_bytes(text))
        self._events: dict[tuple[int, int], bool] = {}
        try:
            self._start()
        except Ended as ended:
            raise self._refused_start(ended) from None

    @classmethod
    def open(
        cls,
        path: str | os.PathLike[str],
        *,
        profile: str | None = None,
        rate: int | None = None,
        tape: bytes | None = None,
        seed: int | str | None = None,
        every: int | None = None,
        quirks: str | None = None,
        program: str | os.PathLike[str] | None = None,
    ) -> Bench:
        """A bench on the source in a file, with the other arguments of `Bench`. Raises `OSError` if it can't be read.

        >>> import tempfile
        >>> with tempfile.NamedTemporaryFile(suffix=".asm") as file:
        ...     _ = file.write(b"LD V0, 5")
        ...     file.flush()
        ...     with Bench.open(file.name) as bench:
        ...         bench.at(1).v[0]
        5
        """
        return cls(
            path=path, profile=profile, rate=rate, tape=tape, seed=seed, every=every, quirks=quirks, program=program
        )

    def _refused_start(self, ended: Ended) -> Exception:
        """The error for a program that ends before its first answer. If it is chipbench, the error names the wrong argument."""
        told = what_it_is(self.program)
        if told is not None:
            return ChipbenchError(told)
        # the program says first what is wrong, and then how it is used
        first = ended.text.partition("\n\n")[0]
        for name, value in self._settings.items():
            if f"--{name}" in first or f"bad {name}" in first:
                shown = {"tape": f"{len(value) // 2} bytes", "profile": repr(value), "quirks": repr(value)}.get(name, value)
                return WrongValue(f"{name}={shown}: {reason_in(first)}")
        return ended

    # -- the running program

    def __enter__(self) -> Bench:
        return self

    def __exit__(self, *_: object) -> None:
        self.close()

    def close(self) -> None:
        """Ends the program. Later questions raise `ChipbenchError`."""
        self._is_closed = True
        if self._running is not None:
            self._running.close()
            self._running = None

    @property
    def process_id(self) -> int | None:
        """The identity of the running program."""
        return self._running.process_id if self._running else None

    def _start(self) -> None:
        """Starts the program on the lines and events that the bench has."""
        handle, name = tempfile.mkstemp(prefix="chipbench-", suffix=".asm")
        try:
            with os.fdopen(handle, "wb") as file:
                file.write(join_lines(self.lines))
            try:
                self._running = Program([self.program, "debug", *self._options, name])
            except OSError as error:
                if error.errno == errno.E2BIG:
                    raise WrongValue("tape is longer than the system allows for an argument") from None
                raise cannot_run(self.program, error) from None
            # the answer shows that the source was read, because there is no event yet
            if self._exchange_now([b"kdel 0 0"]) != [NO_EVENT]:
                self._running.close()
                self._running = None
                raise ChipbenchError(what_it_is(self.program) or f"{self.program} doesn't answer as `chipbench debug` does")
        finally:
            os.unlink(name)
        events = [event_command(b"kins", step, key, down) for (step, key), down in sorted(self._events.items())]
        for start in range(0, len(events), BATCH):
            self._exchange_now(events[start : start + BATCH])

    def _exchange_now(self, commands: Sequence[bytes]) -> list[bytes]:
        assert self._running is not None
        try:
            return self._running.exchange(commands)
        except Ended as ended:
            self._running = None
            if ended.text.startswith("no O"):
                raise refusal(self.program, ended.text.split()[1]) from None
            raise
        except BaseException:
            # unread answers would be taken for those of the next commands
            self._running.close()
            self._running = None
            raise

    def exchange(self, commands: Iterable[str | bytes]) -> list[bytes]:
        """Gives commands to the program, and returns their answers as they are, with refusals. The program is restarted
        after it has ended, and before its script grows too long."""
        given = [to_bytes(text_or_bytes("command", command)) for command in commands]
        for command in given:
            if b"\n" in command or not command.strip(b" \r"):
                raise ValueError("a command must be one line that isn't blank")
        if self._is_closed:
            raise ChipbenchError("the bench is closed")
        answers: list[bytes] = []
        for start in range(0, len(given), SCRIPT_LINES):
            piece = given[start : start + SCRIPT_LINES]
            self._renew(piece)
            try:
                made = self._exchange_now(piece)
            except Ended as ended:
                self._keep_all(piece, ended.answers)
                ended.answers[:0] = answers
                raise
            self._keep_all(piece, made)
            answers += made
        return answers

    def _renew(self, commands: Sequence[bytes]) -> None:
        if self._running is not None:
            size = sum(map(len, commands)) + len(commands)
            is_full = self._running.commands + len(commands) > SCRIPT_LINES or self._running.bytes + size > SCRIPT_BYTES
            if not is_full:
                return
            self._running.close()
            self._running = None
        self._start()

    # -- the lines and events that the bench keeps, so that the program can be restarted

    def _keep_all(self, commands: Sequence[bytes], answers: Sequence[bytes]) -> None:
        for command, answer in zip(commands, answers):
            if answer == OK:
                self._keep(command.removesuffix(b"\r"))

    def _keep(self, command: bytes) -> None:
        """Makes an edit that the program has made."""
        self.edition += 1
        word, number, *rest = command.split(b" ", 2)
        if word in (b"ins", b"rep", b"del"):
            place = read_number(number) - 1
            text = rest[0] if rest else b""
            self.lines[place : place + (word != b"ins")] = [] if word == b"del" else [text]
            return
        _, step, key, *down = command.split()
        event = read_number(step), read_number(key)
        if word == b"kdel":
            del self._events[event]
        else:
            self._events[event] = down == [b"down"]

    @property
    def source(self) -> str:
        """The lines as a text, each ended by LF."""
        return to_text(b"".join(line + b"\n" for line in self.lines))

    @property
    def events(self) -> dict[tuple[int, int], bool]:
        """The key events: for step and key, whether the key is down from then on."""
        return dict(self._events)

    # -- questions

    def ask(self, command: str | bytes) -> str:
        """The answer to one command, as text.

        >>> with Bench("CLS") as bench:
        ...     bench.ask("image")
        '00e0\\n'
        """
        return self._answer(command).decode("utf-8", "surrogateescape")

    def _answer(self, command: str | bytes) -> bytes:
        return self._checked(self.exchange([command])[0])

    def _checked(self, answer: bytes) -> bytes:
        if not answer.startswith(b"no "):
            return answer
        refused = refusal(self.program, answer[3:].strip().decode("ascii"))
        if refused.code == NO_IMAGE:
            # the error names the first fault, which has to be fixed
            fault = self.faults[0]
            raise Refused(refused.code, f"{refused.sentence}: line {fault.line} has a fault: {fault.code}: {fault.sentence}")
        raise refused

    def _edit(self, word: bytes, line: int, text: str | bytes) -> None:
        number, content = whole_number("line", line), to_bytes(text_or_bytes("text", text))
        if b"\n" in content or content.endswith(b"\r"):
            raise refusal(self.program, "N4")
        self._answer(b"%s %d %s" % (word, number, content))

    def insert(self, line: int, text: str | bytes) -> None:
        """Inserts a line before a line. Lines are counted from 1."""
        self._edit(b"ins", line, text)

    def replace(self, line: int, text: str | bytes) -> None:
        """Replaces the text of a line."""
        self._edit(b"rep", line, text)

    def delete(self, line: int) -> None:
        """Removes a line."""
        self._answer(b"del %d" % whole_number("line", line))

    def press(self, key: int, *, at: int) -> None:
        """Adds a key event: the key is down from a step on."""
        self._answer(event_command(b"kins", at, key, True))

    def release(self, key: int, *, at: int) -> None:
        """Adds a key event: the key is up from a step on."""
        self._answer(event_command(b"kins", at, key, False))

    def change_event(self, key: int, *, at: int, down: bool) -> None:
        """Changes whether the key event of a step is down or up."""
        self._answer(event_command(b"krep", at, key, down))

    def remove_event(self, key: int, *, at: int) -> None:
        """Removes the key event of a step."""
        self._answer(b"kdel %d %d" % (whole_number("at", at), whole_number("key", key)))

    @property
    def image(self) -> bytes:
        """The image. Raises `Refused` with Q1 if a line has a fault."""
        return bytes.fromhex(self.ask("image"))

    @property
    def faults(self) -> list[Fault]:
        """The lines with a fault.

        >>> with Bench("CLS\\nDB NONE") as bench:
        ...     print(*bench.faults)
        line 2: F9: undefined name
        """
        known = sentences(self.program)
        pairs = (line.split() for line in self.ask("faults").splitlines()[:-1])
        return [Fault(int(line), code, known.get(code, "")) for line, code in pairs]

    @property
    def symbols(self) -> dict[str, Symbol]:
        """The names that the source defines, in the order of their lines."""
        rows = (line.split() for line in self.ask("syms").splitlines()[:-1])
        return {name: Symbol(int(value), int(line)) for name, value, line in rows}

    @property
    def listing(self) -> list[ListingLine]:
        """A line of the listing for each line of the source."""
        return [read_listing_line(line) for line in self._answer(b"list").split(b"\n")[:-2]]

    def at(self, step: int) -> State:
        """The machine after a number of steps."""
        number = whole_number("step", step)
        return State(self, number, self._answer(b"regs %d" % number))

    def steps(self, first: int, last: int) -> Iterator[State]:
        """The machine after each number of steps from `first` to before `last`, as in `range`.

        >>> with Bench("LOOP: ADD V0, 2\\nJP LOOP") as bench:
        ...     [state.v[0] for state in bench.steps(0, 5)]
        [0, 2, 2, 4, 4]
        """
        begin, end = whole_number("first", first), whole_number("last", last)
        for start in range(begin, end, BATCH):
            steps = range(start, min(start + BATCH, end))
            for step, answer in zip(steps, self.exchange(b"regs %d" % step for step in steps)):
                yield State(self, step, self._checked(answer))

    def first_step_at(self, pc: int, *, limit: int = 100_000) -> int | None:
        """The first step, up to `limit`, before which pc has a value; None if there is none.

        >>> with Bench("CLS\\nCLS\\nHALT: JP HALT") as bench:
        ...     bench.first_step_at(bench.symbols["HALT"].value)
        2
        """
        wanted, last = b"\npc %04x " % whole_number("pc", pc), whole_number("limit", limit)
        for start in range(0, last + 1, BATCH):
            steps = range(start, min(start + BATCH, last + 1))
            answers = self.exchange(b"regs %d" % step for step in steps)
            for step, answer in zip(steps, answers):
                if wanted in answer:
                    return step
            if b" run\n" not in self._checked(answers[-1]):
                return None
        return None

    def words(self, step: int, address: int, count: int) -> list[Word]:
        """Words of the memory after a number of steps, each with its text in a source."""
        numbers = whole_number("step", step), whole_number("address", address), whole_number("count", count)
        rows = (line.split(" ", 2) for line in self.ask("dis {} {} {}".format(*numbers)).splitlines()[:-1])
        return [Word(int(at, 16), int(word, 16), text) for at, word, text in rows]


def reason_in(text: str) -> str:
    """The reason why an argument is wrong, taken from the program's message.

    >>> reason_in("error: invalid value '0' for '--rate <N>': 0 is not in 1..=1000")
    '0 is not in 1..=1000'
    >>> reason_in("error: invalid value 'x' for '--profile <NAME>'\\n  [possible values: schip, vip]")
    'possible values: schip, vip'
    """
    listed = re.search(r"\n\s*\[(.*)\]", text)
    if listed is not None:
        return listed[1]
    return (text.rpartition("': ")[2] if "': " in text else text).removeprefix("chipbench: ")


def event_command(word: bytes, step: int, key: int, down: bool) -> bytes:
    return b"%s %d %d %s" % (word, whole_number("at", step), whole_number("key", key), b"down" if down else b"up")


def read_number(word: bytes) -> int:
    """A number of a command: decimal, or hexadecimal after `#`."""
    return int(word[1:], 16) if word.startswith(b"#") else int(word)
