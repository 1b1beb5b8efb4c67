"""The loop of the shell: reads a line, finds its command by its first letters, carries it out, and reports what was refused."""

from __future__ import annotations

import contextlib
import inspect
import re
import signal
import textwrap
from collections.abc import Callable, Iterator

from chipbench import ChipbenchError, Refused, sentences
from chipbench_files import FileError

from . import advice, views
from .base import Snapshot
from .console import Console, History
from .edits import Edits
from .game import Game
from .keeping import kept_before
from .looks import PROFILES, Looks
from .moves import Moves
from .session import SESSION_WORDS, SessionWords, is_of_session
from .values import REGISTERS, Mistake, counted, near

try:
    import readline
except ImportError:  # a Python that was built without it
    readline = None  # type: ignore[assignment]

GROUPS = {
    "Go": "step back goto next finish until continue reverse reverse-next reverse-finish run watch who blame break tbreak clear",
    "Look": "regs screen list x dis print display undisplay backtrace info keys check explain profile",
    "Edit": "edit insert delete undo redo press release save reload",
    "Other": "assert session help quit",
}
COMMANDS = tuple(" ".join(GROUPS.values()).split())
# short forms that several commands begin with, and the command that each means, as in GDB
PREFERRED = {
    **{"reverse"[:length]: "reverse" for length in range(3, 7)},
    "s": "step", "b": "break", "ba": "back", "bac": "back", "n": "next", "c": "continue", "l": "list", "f": "finish", "u": "until",
    "p": "print", "r": "run", "h": "help", "d": "delete", "w": "watch", "e": "edit", "i": "insert", "q": "quit", "k": "keys",
    "bt": "backtrace", "where": "backtrace", "disassemble": "dis", "exit": "quit", "?": "help", "tb": "tbreak",
    "stepi": "step", "si": "step", "nexti": "next", "ni": "next", "fin": "finish", "cont": "continue",
    "reverse-step": "back", "reverse-stepi": "back", "rs": "back", "rsi": "back", "reverse-continue": "reverse", "rc": "reverse",
    "reverse-nexti": "reverse-next", "rn": "reverse-next", "rni": "reverse-next",
}
# commands of the program that aren't commands here
OUTSIDE = ("asm", "explore", "picture", "prove", "test", "trace")
REPEATED = {"step", "back", "next", "finish", "until", "continue", "reverse", "reverse-next", "reverse-finish", "watch", "who"}
# commands that take a name of the source
WITH_NAMES = {
    *"until break tbreak clear list x dis print display undisplay assert edit insert delete goto watch who".split(),
}
# commands that take a register
WITH_REGISTERS = {"watch", "until", "who", "print", "display", "assert"}
PROMPT = "> "
#: The answers to the question at the end.
ANSWERS = {"yes": "writes the lines to the file, and ends", "no": "ends without writing them", "stay": "goes back to the shell"}
FORM_WIDTH = 26


def form_of(command: Callable[..., None]) -> tuple[str, str]:
    """The form of a command, and the text of its help."""
    form, _, about = (inspect.getdoc(command) or "").partition("\n\n")
    return form, " ".join(about.split())


def command_named(word: str) -> str:
    """The command that a word begins, in letters of either case.

    >>> command_named("ste"), command_named("S"), command_named("regs")
    ('step', 'step', 'regs')
    """
    small = word.lower()
    if small in COMMANDS:
        return small
    if small in PREFERRED:
        return PREFERRED[small]
    found = [name for name in COMMANDS if name.startswith(small)]
    if len(found) == 1:
        return found[0]
    if found:
        raise Mistake(f"'{word}' begins several commands: {', '.join(found)}")
    if small.startswith((";", "//")):
        raise Mistake(advice.COMMENT)
    if small in OUTSIDE:
        raise Mistake(f"'{small}' isn't a command of the shell: save, and run `chipbench {small}` outside it")
    if small in advice.OTHER_WORDS:
        raise Mistake(f"no command '{word}': {advice.OTHER_WORDS[small]}")
    raise Mistake(f"no command '{word}'{near(small, [*COMMANDS, *SESSION_WORDS])}; help lists the commands")


class Shell(Moves, Looks, Edits, SessionWords):
    """The commands over one game, and the loop that reads them."""

    def __init__(self, game: Game, console: Console, is_strict: bool = False) -> None:
        self.game = game
        self.console = console
        self.is_strict = is_strict
        self.has_failed = False
        self.is_ended = False
        self._repeated = ""
        self._last_command = ""
        self._offered: list[str] = []
        self._is_gone_told = False
        self._is_given_up = False
        self._typed = ""

    # -- the loop

    def banner(self) -> str:
        faults = self.game.faults()
        kind = "; a new file, which save makes" if self.game.is_new else ""
        lines = counted(len(self.game.bench.lines), "line")
        state = counted(len(faults), "fault") + ": check shows them" if faults else "no faults"
        return f"{self.game.name}: {lines}, {state}{kind}; help lists the commands"

    def left_before(self) -> list[str]:
        """Names the files with the edits that another shell on a source of this name has left."""
        lines = kept_before(self.game.lines_name)[:1]
        keys = kept_before(self.game.keys_name.name)[:1]
        told = [f"another shell left unsaved edits in {path}" for path in lines]
        return told + [f"another shell left unsaved key events in {path}" for path in keys]

    def run(self) -> int:
        """Reads commands up to the end, and returns the status. However it ends, it keeps unsaved edits."""
        history = History(self.console)
        history.load()
        with self._completing(), self._signals_taken():
            try:
                while not self.is_ended and not (self.has_failed and self.is_strict):
                    # Ctrl+C between two commands stops nothing
                    with contextlib.suppress(KeyboardInterrupt):
                        self._read_one(history)
            finally:
                is_kept = self._keep_at_end()
        is_broken = (self.has_asserted_wrongly or is_kept) and not self.console.is_terminal
        return 1 if is_broken or (self.has_failed and self.is_strict) else 0

    def _read_one(self, history: History) -> None:
        try:
            line = self.console.read(PROMPT)
            history.add()
        except EOFError:
            if self.console.is_terminal:
                self.say("")
            line = "quit"
        except KeyboardInterrupt:
            self._check_is_typed()
            self.say("")
            return
        self.onecmd(line)

    def _check_is_typed(self) -> None:
        """Ctrl+C ends a shell whose commands aren't typed."""
        if not self.console.is_terminal:
            raise SystemExit(128 + signal.SIGINT)

    def onecmd(self, line: str) -> bool:
        """Carries out one line. A refused line changes nothing, and the shell says why it was refused."""
        step, breakpoints, self._typed = self.game.step, list(self.game.breakpoints), line
        try:
            self._follow_file()
            self.carry_out(line)
        except KeyboardInterrupt:
            self._check_is_typed()
            self.game.step, self.game.breakpoints = step, breakpoints
            self.fail(f"stopped; still at step {step}")
        except Refused as refused:
            self.game.step = step
            self.fail(self.game.sentence(refused.code) if refused.code == "Q1" else str(refused))
        except (Mistake, ChipbenchError, FileError) as error:
            self.game.step = step
            self.fail(str(error))
        except OSError as error:
            self.game.step = step
            self.fail(f"{error.filename or 'the system'}: {error.strerror}")
        finally:
            self.console.end_report()
            self.keep()
        return self.is_ended

    def fail(self, text: str) -> None:
        self.has_failed = True
        self.console.complain(views.shortened(text, self._typed))

    def carry_out(self, line: str) -> None:
        if not line.strip():
            self._repeat()
            return
        self._last_command = ""
        word, text = self._split(line)
        if is_of_session(line):
            self.check_is_no_redirection(word, text)
            self.session_command(line)
            return
        if word.startswith("#") or not word:
            meant = advice.for_comment(line)
            self.say(*([] if meant is None else [meant]))
            return
        try:
            name = command_named(word)
        except Mistake:
            self._check_is_no_value(line.strip())
            meant = advice.for_line(line)
            if meant is not None:
                raise Mistake(f"no command '{word}': {meant}") from None
            raise
        self.check_is_no_redirection(name, text)
        # everything after the blank behind a line's number is text, blanks included
        given = text if name in ("edit", "insert") else text.strip()
        self._last_command = name
        if name in REPEATED:
            self._repeated = line
        self.method(name)(given)

    def method(self, name: str) -> Callable[[str], None]:
        """The method that carries out a command."""
        found: Callable[[str], None] = getattr(self, f"do_{name.replace('-', '_')}")
        return found

    def _check_is_no_value(self, text: str) -> None:
        """Refuses a register, a byte or a name that is typed alone, or with a value to set it to."""
        shown, *given = (part.strip() for part in text.split("=", 1))
        is_named = shown.upper() in (*REGISTERS, *self.game.symbols())
        if not is_named and not re.fullmatch(r"\[[^\]]*\]", shown):
            return
        if given:
            raise Mistake(f"{advice.NOTHING_SETS}; until {shown} = {given[0]} goes to where that becomes true")
        raise Mistake(f"no command '{shown}': print {shown} shows its value")

    @staticmethod
    def _split(line: str) -> tuple[str, str]:
        """The first word of a line, and the text after the blanks that follow it. A slash ends the word, as in GDB's x/16."""
        found = re.match(r"\s*(\?|[#A-Za-z][\w-]*|\S+)(.*)", line, re.DOTALL)
        assert found is not None
        return found[1], found[2].lstrip()

    def _repeat(self) -> None:
        """Carries out an empty line at a terminal: repeats the last move, or shows the next lines, bytes or words."""
        if not self.console.is_terminal:
            return
        if self._last_command == "list":
            self.list_on()
        elif self._last_command in ("x", "dis"):
            self.go_on(self._last_command)
        elif self._repeated:
            self.carry_out(self._repeated)

    # -- the file

    def _follow_file(self) -> None:
        """Takes the lines of the file if another editor has changed it. Unsaved edits stay instead."""
        content = self.game.look_at_file()
        if self.game.is_gone and not self._is_gone_told:
            self.say(f"{self.game.name} is gone: the lines stay here, and save writes them")
        self._is_gone_told = self.game.is_gone
        if content is None:
            return
        if self.game.is_edited:
            self.say(
                f"{self.game.name} changed, but the unsaved edits here stay; "
                "reload reads the file, save over writes over it"
            )
            return
        snapshot = Snapshot(self.game)
        try:
            count = self.game.take(content)
        except Mistake as mistake:
            self.say(f"{self.game.name} changed: {mistake}")
            return
        self.say(f"{self.game.name} changed: {counted(count, 'line')}; {self.difference(snapshot)}")

    # -- help and the end

    def do_help(self, arg: str) -> None:
        """help [COMMAND]

        Lists the commands, or says what one does.
        """
        if not arg:
            self._list_commands()
            return
        word = arg.split()[0]
        if word in SESSION_WORDS and word not in COMMANDS:
            self.say(f"{SESSION_WORDS[word]}: chipbench debug answers this command")
            return
        form, about = form_of(self.method(command_named(word)))
        self.say(form, *self._filled(about))

    def _filled(self, text: str) -> list[str]:
        """A text wrapped to the width of the window."""
        return textwrap.wrap(text, max(self.console.width, 20))

    def _list_commands(self) -> None:
        for group, names in GROUPS.items():
            self.say(self.console.paint("strong", group))
            for name in names.split():
                self.say(*self._row_of(*form_of(self.method(name))))
        self.say(*self._filled("The first letters of a command are enough. help COMMAND says more."))

    def _row_of(self, form: str, about: str) -> list[str]:
        """A command and the first sentence on it, side by side; in a narrow window the form alone."""
        width = self.console.width
        if width < 2 * FORM_WIDTH:
            return [f"  {form}"]
        lines = textwrap.wrap(about.split(". ")[0].rstrip("."), width - FORM_WIDTH)
        if len(form) + 3 > FORM_WIDTH:
            lines.insert(0, "")
        return [f"{f'  {form}' if place == 0 else '':<{FORM_WIDTH}}{line}".rstrip() for place, line in enumerate(lines)]

    def do_quit(self, text: str) -> None:
        """quit [yes | no]

        Ends the shell, as Ctrl+D does. It asks first if lines or key events aren't saved: yes saves them, and no discards
        them.
        """
        if text and text not in ANSWERS:
            raise Mistake("expected quit, quit yes (saves everything) or quit no (discards everything unsaved)")
        if not self.game.unsaved or (not text and not self.console.is_terminal):
            self.is_ended = True
            return
        try:
            answer = text or self._ask_for_save()
        except KeyboardInterrupt:
            self.say("")
            return
        except EOFError:
            self.say("")
            self.is_ended = True
            return
        if answer == "yes":
            self._save_all()
        elif answer == "no":
            self._is_given_up = True
        self.is_ended = answer != "stay"

    def _save_all(self) -> None:
        if self.game.is_edited:
            self.do_save("")
        if self.game.has_new_keys:
            self.save_keys("")

    def _ask_for_save(self) -> str:
        """Asks whether to save the edits until the user answers yes, no or stay, and returns the answer."""
        while True:
            with self.console.without_history():
                typed = self.console.read(f"save {self.game.unsaved}? yes, no, or stay: ").strip().lower()
            answers = [answer for answer in ANSWERS if typed and answer.startswith(typed)]
            if answers:
                return answers[0]
            self.say(*(f"{answer:5} {what}" for answer, what in ANSWERS.items()))

    def keep(self) -> None:
        """Keeps unsaved edits that were typed at a terminal, so that a shell that is killed loses none. Edits of a script are kept
        only at the end, because the script still exists."""
        if self.console.is_terminal:
            # if no folder can be written, the shell says so at the end
            with contextlib.suppress(OSError):
                self.game.keep_unsaved()

    def _keep_at_end(self) -> bool:
        """Keeps unsaved edits, unless the user gave them up, and says where. False if there is nothing to keep."""
        try:
            if self._is_given_up:
                self.game.drop_unsaved()
                return False
            kept = self.game.keep_unsaved()
        except OSError as error:
            self.console.complain(f"{self.game.unsaved} can't be kept: {error.strerror}")
            return True
        for what, path in kept.items():
            self.console.complain(f"{what} are in {path}")
        return bool(kept)

    @contextlib.contextmanager
    def _signals_taken(self) -> Iterator[None]:
        """Handles the signals of the terminal. If it goes away, or the shell is ended from outside, `run` keeps unsaved edits."""

        def end(number: int, _: object) -> None:
            raise SystemExit(128 + number)

        before = {number: signal.signal(number, end) for number in (signal.SIGHUP, signal.SIGTERM)}
        if self.console.is_terminal:
            # the parent process may ignore Ctrl+C, but a user who types it means the shell
            before[signal.SIGINT] = signal.signal(signal.SIGINT, signal.default_int_handler)
        try:
            yield
        finally:
            for number, handler in before.items():
                signal.signal(number, handler)

    # -- completion

    @contextlib.contextmanager
    def _completing(self) -> Iterator[None]:
        if readline is None or not self.console.is_terminal:
            yield
            return
        before = readline.get_completer()
        readline.set_completer(self.complete)
        readline.set_completer_delims(" \t\n+-=[],<>!")
        readline.parse_and_bind("tab: complete")
        try:
            yield
        finally:
            readline.set_completer(before)

    def completenames(self, text: str, *_: object) -> list[str]:
        return sorted(name for name in {*COMMANDS, *SESSION_WORDS} if name.startswith(text))

    def complete(self, text: str, state: int) -> str | None:
        """Returns the completions of the typed text one after another, as readline asks for them."""
        if state == 0:
            line, start = readline.get_line_buffer(), readline.get_begidx()
            try:
                self._offered = self.completions(line[:start], text)
            except Exception:  # an unknown command has no completions
                self._offered = []
        return self._offered[state] if state < len(self._offered) else None

    def completions(self, before: str, text: str) -> list[str]:
        """The words that may replace `text`, given the words before it."""
        words = before.split()
        if not words:
            return [name + " " for name in self.completenames(text)]
        name = words[0] if words[0] in SESSION_WORDS else command_named(words[0])
        if name == "help":
            return self.completenames(text)
        if name == "explain":
            return [code for code in self.codes() if code.startswith(text.upper())]
        if name == "profile":
            return [profile for profile in PROFILES if profile.startswith(text)]
        if name in ("press", "release"):
            return ["at "] if len(words) == 2 else []
        offered = [*self.game.symbols()] if name in WITH_NAMES or name in SESSION_WORDS else []
        if name in WITH_REGISTERS:
            offered += REGISTERS
        return [one for one in offered if one.startswith(text.upper())]

    def codes(self) -> list[str]:
        return [*sentences(self.game.bench.program)]
