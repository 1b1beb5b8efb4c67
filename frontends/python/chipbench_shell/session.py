"""The commands of `chipbench debug`, taken as they are, except that a name may replace a number."""

from __future__ import annotations

import re

from .base import Commands
from .values import Mistake
from .views import printable

#: The words and their forms (docs/FORMATS.md).
SESSION_WORDS = {
    "ins": "ins LINE TEXT",
    "rep": "rep LINE TEXT",
    "del": "del LINE",
    "kins": "kins STEP KEY down|up",
    "krep": "krep STEP KEY down|up",
    "kdel": "kdel STEP KEY",
    "image": "image",
    "syms": "syms",
    "list": "list",
    "faults": "faults",
    "regs": "regs STEP",
    "mem": "mem STEP ADDRESS N",
    "screen": "screen STEP",
    "dis": "dis STEP ADDRESS N",
}
# commands that the shell has too, with the number of arguments that makes them the session's
SHARED = {"regs": 1, "screen": 1, "dis": 3}
#: The commands that show the same at the current step.
HERE = {
    "mem": "x ADDRESS [N] shows the bytes at this step",
    "regs": "regs alone shows the registers at this step",
    "screen": "screen alone draws the screen at this step",
    "dis": "dis [ADDRESS [N]] shows the instructions at this step",
}
LINES = ("ins", "rep", "del")
#: Words whose second argument is a key.
WITH_KEY = ("kins", "krep", "kdel")
KEY = 1
LETTER = re.compile(r"[A-Fa-f]")
KEPT = ("down", "up")
PLAIN = re.compile(r"[0-9]+|#[0-9A-Fa-f]+")


def is_of_session(line: str) -> bool:
    """Whether a line is a command of the session, by its first word and, if the shell has the same word, by those after it.

    >>> is_of_session("regs 1000"), is_of_session("regs"), is_of_session("del 3"), is_of_session("dis LOOP 4")
    (True, False, True, False)
    """
    words = line.split()
    if not words or words[0] == "list":
        return False
    if words[0] in SHARED:
        return len(words) - 1 == SHARED[words[0]]
    return words[0] in SESSION_WORDS


class SessionWords(Commands):
    """session, and the words of the session themselves."""

    def do_session(self, text: str) -> None:
        """session COMMAND

        Gives a command to chipbench debug, and prints its answer as it is: session list shows the whole listing.
        """
        if not text:
            raise Mistake("session takes a command of chipbench debug: " + ", ".join(SESSION_WORDS))
        self.session_command(text)

    def session_command(self, line: str) -> None:
        """Prints the answer of the session to a command, and says what a refusal means."""
        command, unknown = self._with_numbers(line.lstrip())
        before = self.game.edition()
        try:
            answer = self.game.bench.exchange([command])[0].decode("utf-8", "surrogateescape")
        finally:
            self.game.note(before)
        lines = answer.encode("utf-8", "surrogateescape").decode("utf-8", "replace").removesuffix("\n").split("\n")
        # a source may have bytes that would steer the terminal
        self.say(*(map(printable, lines) if self.console.is_terminal else lines))
        if answer.startswith("no "):
            raise Mistake(self._refusal(answer[3:].strip(), command.split()[0], unknown))

    def _refusal(self, code: str, word: str, unknown: str) -> str:
        """The sentence for a refusal. For a command that can't be read, also its form, and the unknown name in it."""
        said = self.game.sentence(code)
        if code != "C1" or word not in SESSION_WORDS:
            return said
        here = f"; {HERE[word]}" if word in HERE else ""
        return f"{said}: expected {SESSION_WORDS[word]}{f'; {unknown}' if unknown else ''}{here}"

    def _with_numbers(self, line: str) -> tuple[str, str]:
        """The command with numbers in place of names, and the mistake about the first name that has no value. That name stays,
        and the session refuses it."""
        word, *arguments = line.split(" ", 2) if line.startswith(("ins ", "rep ")) else line.split()
        if word not in SESSION_WORDS or not arguments:
            return line, ""
        count = 1 if word in LINES else len(arguments)
        unknown = ""
        for place, argument in enumerate(arguments[:count]):
            try:
                is_key = word in WITH_KEY and place == KEY
                arguments[place] = self._key_number(argument) if is_key else self._number(word, argument)
            except Mistake as mistake:
                unknown = unknown or str(mistake)
        return " ".join([word, *arguments]), unknown

    def _key_number(self, argument: str) -> str:
        """A key by its number or its letter. A name of the source that is such a letter has its value."""
        if LETTER.fullmatch(argument) and argument.upper() not in self.game.symbols():
            return f"#{argument}"
        return self._number("", argument)

    def _number(self, word: str, argument: str) -> str:
        if PLAIN.fullmatch(argument) or argument in KEPT or not argument:
            return argument
        return str(self.game.line_number(argument) if word in LINES else self.game.values().number(argument))
