"""The states before and after a step, as the program answers them."""

from __future__ import annotations

from typing import Any, NamedTuple

from chipbench import Bench, ChipbenchError, State, event_command

from .cases import AFTER_INDEX, BEFORE_INDEX, Case, Row
from .settings import Settings, tape_of
from .setup import MEMORY_BYTES, START, Setup

# The image is as long as a program can be, and has lines of as many bytes.
LINE_BYTES = 56
# Without a tick the step comes before the first tick. With one it is the step at one of these rates.
NO_TICK = 1000
TICKS = (128, 370)
# What is asked at a step, and what stands behind the step.
QUESTIONS = ((b"regs", b""), (b"mem", b" 0 %d" % MEMORY_BYTES), (b"screen", b""))
# how many random bytes to come are shown
RANDOM_BYTES = 2
DARK = "0" * 32
# the parts of a state that stand in a case as they are
PARTS = ("pc", "v", "i", "dt", "st", "stack", "flags", "high")


def data_line(content: bytes) -> str:
    """The line of a source that has these bytes, an even number of them."""
    return "DW #" + content.hex(",", 2).replace(",", ",#")


def lines_of(content: bytes) -> list[str]:
    return [data_line(content[at : at + LINE_BYTES]) for at in range(0, len(content), LINE_BYTES)]


class Answered(NamedTuple):
    """The states before and after a step, and the text of its instruction."""

    before: dict[str, Any]
    after: dict[str, Any]
    text: str


class Session:
    """One running program at a rate. Its image is edited from one case to the next."""

    def __init__(self, settings: Settings, tape: bytes, rate: int) -> None:
        self._image = bytes(MEMORY_BYTES - START)
        self._bench = Bench("\n".join(lines_of(self._image)), rate=rate, tape=tape, **settings.options())

    def close(self) -> None:
        self._bench.close()

    def ask(self, content: dict[int, int], keys: list[int], step: int, pc: int) -> Answered:
        """The states at a step and at the next one, for an image and the keys that are down in the step, and the text of the
        instruction at pc."""
        image = bytearray(MEMORY_BYTES - START)
        for at, byte in content.items():
            image[at - START] = byte
        edits = [*self._edits(bytes(image)), *(event_command(b"kins", step, key, True) for key in keys)]
        questions = [b"%s %d%s" % (word, at, more) for at in (step, step + 1) for word, more in QUESTIONS]
        if pc < MEMORY_BYTES - 1:
            questions.append(b"dis %d %d 1" % (step, pc))
        # the key events go again, for the next case
        after = [b"kdel %d %d" % (step, key) for key in keys]
        answers = self._bench.exchange([*edits, *questions, *after])
        for command, answer in zip([*edits, *questions, *after], answers):
            if answer.startswith(b"no "):
                raise ChipbenchError(f"the program refused {command.decode()}: {answer.decode().strip()}")
        before, memory, screen, *rest = answers[len(edits) : len(edits) + len(questions)]
        text = rest[3].decode().splitlines()[0].split(" ", 2)[2] if len(rest) > 3 else ""
        first = read_state(State(self._bench, step, before), memory, screen)
        return Answered(first, read_state(State(self._bench, step + 1, rest[0]), *rest[1:3]), text)

    def _edits(self, image: bytes) -> list[bytes]:
        """The commands that turn the image into another one."""
        edits = []
        for number, at in enumerate(range(0, len(image), LINE_BYTES), 1):
            piece = image[at : at + LINE_BYTES]
            if piece != self._image[at : at + LINE_BYTES]:
                edits.append(f"rep {number} {data_line(piece)}".encode())
        self._image = image
        return edits


def read_state(state: State, memory: bytes, screen: bytes) -> dict[str, Any]:
    """The parts of a state, with the answers of `mem` and `screen`, by the names that a case has for them."""
    rows = screen.decode().splitlines()[1:-1]
    return {
        "pc": state.pc,
        "v": list(state.v),
        "i": state.i,
        "dt": state.delay_timer,
        "st": state.sound_timer,
        "stack": list(state.call_stack),
        "flags": list(state.flags),
        "high": state.is_high,
        "memory": bytes.fromhex(memory.decode()),
        "screen": {int(row[:2]): row[3:] for row in rows},
        "used": state.random_bytes_used,
        "stops": state.stopped,
    }


class Answers:
    """The cases of a profile. Close it, which ends the programs that it runs."""

    def __init__(self, settings: Settings) -> None:
        self._settings = settings
        self._tape = tape_of(settings.seed)
        self._sessions: dict[int, Session] = {}
        self._has_super = settings.has_super()

    def __enter__(self) -> Answers:
        return self

    def __exit__(self, *_: object) -> None:
        for session in self._sessions.values():
            session.close()

    def _session(self, rate: int) -> Session:
        if rate not in self._sessions:
            self._sessions[rate] = Session(self._settings, self._tape, rate)
        return self._sessions[rate]

    def record(self, row: Row, number: int) -> dict[str, Any]:
        """Case `number` of a row, counted from 0, as it stands in a file."""
        case = row.case(number, self._settings.seed, self._has_super)
        rate, setup = NO_TICK, Setup(case.state)
        if case.state.is_tick:
            rate = next(rate for rate in TICKS if setup.steps < rate)
            setup = Setup(case.state, idle=rate - 1 - setup.steps)
        before, after, text = self._session(rate).ask(setup.bytes, case.state.keys, setup.steps, case.state.pc)
        if before["stops"] or (before["pc"], before["v"]) != (case.state.pc, case.state.v):
            raise ChipbenchError(f"{row.name} case {number + 1}: its program does not lead to its state")
        return {
            **self._settings.marks,
            "name": f"{row.name} {number + 1}",
            "text": text,
            "about": case.about,
            "initial": self._initial(row, case, before, after),
            "final": self._final(before, after),
            "stops": after["stops"],
        }

    def _initial(self, row: Row, case: Case, before: dict[str, Any], after: dict[str, Any]) -> dict[str, Any]:
        memory = before["memory"]
        initial = {name: before[name] for name in PARTS}
        initial["memory"] = [[at, memory[at]] for at in sorted(shown(row, before, after))]
        initial["screen"] = [[number, pixels] for number, pixels in before["screen"].items()]
        initial["keys"] = case.state.keys
        initial["random"] = self._random(before["used"])
        initial["tick"] = case.state.is_tick
        return initial

    def _random(self, used: int) -> list[int]:
        """The random bytes that come next."""
        return [self._tape[at % len(self._tape)] for at in range(used, used + RANDOM_BYTES)]

    def _final(self, before: dict[str, Any], after: dict[str, Any]) -> dict[str, Any]:
        """What the step changed."""
        final = {name: after[name] for name in PARTS if after[name] != before[name]}
        memory = [[at, after["memory"][at]] for at in changed(before, after)]
        old, new = before["screen"], after["screen"]
        rows = sorted(number for number in old.keys() | new.keys() if old.get(number) != new.get(number))
        screen = [[number, new.get(number, DARK)] for number in rows]
        final.update({name: value for name, value in (("memory", memory), ("screen", screen)) if value})
        if after["used"] != before["used"]:
            final["random"] = self._random(before["used"])[after["used"] - before["used"] :]
        return final


def changed(before: dict[str, Any], after: dict[str, Any]) -> list[int]:
    """The addresses whose bytes differ."""
    pairs = zip(before["memory"], after["memory"])
    return [at for at, (old, new) in enumerate(pairs) if old != new] if before["memory"] != after["memory"] else []


def shown(row: Row, before: dict[str, Any], after: dict[str, Any]) -> set[int]:
    """The addresses of the bytes that a case shows: the word, and what the row's instruction accesses, with some around it."""
    pc, index = before["pc"], before["i"]
    found = {*range(pc, pc + (4 if row.shows_next else 2)), *changed(before, after)}
    if row.shows_index:
        found.update(range(index - BEFORE_INDEX, index + AFTER_INDEX))
    return {at for at in found if 0 <= at < MEMORY_BYTES}
