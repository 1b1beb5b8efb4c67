"""The base of all commands of the shell: the session, the console, and the text for the current step."""

from __future__ import annotations

from collections.abc import Callable

from chipbench import Refused, State, sentences

from . import views
from .console import Console
from .game import Game
from .values import REGISTERS, Mistake, counted

WORD_BYTES = 2


class Snapshot:
    """The state at a step, read completely, so that it can be compared after an edit. There is none while a line has a fault."""

    def __init__(self, game: Game) -> None:
        self.step = game.step
        self.image = b""
        self.state = game.state_or_none()
        if self.state is not None:
            self.image = game.bench.image
            # the screen and the memory are read now, because after an edit they would come from another run
            _ = self.state.screen, self.state.memory


class Commands:
    """The base of the commands. Each group of commands is a subclass."""

    game: Game
    console: Console
    #: The values that `display` shows after each move.
    displayed: tuple[str, ...] = ()

    def fail(self, text: str) -> None:
        """Prints a refusal."""
        raise NotImplementedError

    def carry_out(self, line: str) -> None:
        """Carries out the command of a line."""
        raise NotImplementedError

    def keep(self) -> None:
        """Keeps unsaved edits in separate files."""
        raise NotImplementedError

    def save_keys(self, text: str) -> None:
        """Writes the key events to the file that a text names, or to their own."""
        raise NotImplementedError

    def say(self, *lines: str) -> None:
        self.console.say(*lines)

    # -- the current step

    def stop_text(self, code: str) -> str:
        sentence = sentences(self.game.bench.program).get(code, "")
        return f"{code}: {sentence}" if sentence else code

    def where(self, state: State) -> str:
        """A line that says where a state is: its step, its address, and the line of the source or the instruction."""
        at, number = f"step {state.step}, {state.pc:04x}", self.game.line_at(state.pc)
        line = self.game.bench.listing[number - 1] if number is not None else None
        past = state.pc - (line.address or 0) if line is not None else 0
        source = f"line {number}: {views.printable(line.text.strip())}" if line is not None else ""
        if state.stopped:
            # the stop comes first, since a narrow terminal shows the beginning; at S3 there is no instruction
            there = source if source and past == 0 else self.instruction(state)
            stop = f"{at}: the machine has stopped for {self.stop_text(state.stopped)}"
            return stop if state.stopped == "S3" else f"{stop}; {there}"
        if line is None:
            return f"{at}: {self.instruction(state)}"
        here = f"{at}, {source}"
        if past == 0 and len(line.code) == WORD_BYTES and not line.more:
            return here
        # an instruction has a line of two bytes: this one is data, or pc is at an odd address
        where = f"pc is {counted(past, 'byte')} past the start of this line" if past else "pc is at this data"
        return f"{here}; {where}, and {self.instruction(state)} comes next"

    def instruction(self, state: State) -> str:
        words = self.game.bench.words(state.step, state.pc, 1) if state.pc < 4095 else []
        return words[0].text if words else "past the memory"

    def show_place(self, old: State | None = None) -> None:
        """Says where a move has led, which registers have changed since an older state, and what is displayed."""
        self.show_where(old)
        self.show_displayed()

    def show_where(self, old: State | None = None) -> None:
        """Shows the current step, and which registers have changed since an older state."""
        state = self.game.state()
        changed = views.changes(old, state) if old is not None else ""
        if changed:
            self.say(views.cut(changed, self.console.width) if self.console.is_terminal else changed)
        self.say(views.cut(self.where(state), self.console.width) if self.console.is_terminal else self.where(state))

    def show_displayed(self) -> None:
        """Shows the values that are displayed after each move."""
        for text in self.displayed:
            try:
                self.say(self.value_text(text))
            except Mistake as mistake:
                self.say(f"{views.printable(text)}: {mistake}")

    def value_text(self, text: str) -> str:
        """A value in decimal, hexadecimal and binary, as `print` shows it."""
        values = self.game.values()
        is_subject = text.startswith("[") or (text.upper() in REGISTERS and text.upper() not in self.game.symbols())
        number = values.subject(text).value(self.game.state()) if is_subject else values.number(text)
        return f"{views.printable(text)} = {number} = #{number:02x} = ${number:08b}"

    # -- edits

    def edit(self, change: Callable[[], None], done: str) -> None:
        """Makes an edit that can be undone, and says what differs at the current step."""
        before, snapshot = self.game.edition(), Snapshot(self.game)
        try:
            change()
        finally:
            self.game.note(before)
        self.tell_difference(done, snapshot)

    def tell_difference(self, done: str, snapshot: Snapshot) -> None:
        self.say(f"{done}; {self.difference(snapshot)}")

    def difference(self, snapshot: Snapshot) -> str:
        """Says what differs at the current step from a state before an edit."""
        step = self.game.step
        try:
            state = self.game.state()
        except Refused:
            return self.game.sentence("Q1")
        if snapshot.state is None:
            return f"no line has a fault any more: the state at step {step} can be shown"
        image = self.game.bench.image
        size = max(len(image), len(snapshot.image))
        old, new = snapshot.image.ljust(size, b"\0"), image.ljust(size, b"\0")
        changed = {512 + place for place in range(size) if old[place] != new[place]}
        found = views.differences(snapshot.state, state, changed)
        return f"the state at step {step} " + (f"differs in {', '.join(found)}" if found else "is as it was")

    def words_of(self, text: str, most: int, form: str) -> list[str]:
        """The words of a command's text, at most so many."""
        words = text.split()
        if len(words) > most:
            raise Mistake(f"too many words after the command; expected {form}")
        return words
