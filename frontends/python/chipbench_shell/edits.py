"""Commands that edit the lines and the key events, and those that read and write the file."""

from __future__ import annotations

import re
from pathlib import Path

from chipbench import Refused, to_bytes, to_text

from .advice import BREAK_WORDS
from .base import Commands, Snapshot
from .search import LAST_STEP
from .values import Mistake, counted

END = "."
LAST_KEY = 15


class Edits(Commands):
    """edit, insert, delete, undo, redo, save, reload; press, release."""

    def do_edit(self, text: str) -> None:
        """edit LINE [TEXT]

        Replaces a line by TEXT, blanks included. Without TEXT you change the line at the terminal; Ctrl+C leaves it as it is.
        LINE is a number, or a label for its line.
        """
        number, given = self._line_and_text(text, "edit LINE [TEXT]")
        old = to_text(self.game.bench.lines[number - 1])
        if given is None:
            if not self.console.is_terminal:
                raise Mistake("without a terminal, edit needs the new text: edit LINE TEXT")
            with self.console.without_history():
                given = self.console.read(f"{number}: ", old)
        content = to_bytes(given)
        self.edit(lambda: self.game.bench.replace(number, content), f"line {number} replaced")

    def do_insert(self, text: str) -> None:
        """insert LINE [TEXT]

        Inserts TEXT before a line, blanks included. Without TEXT you type lines, and a full stop alone on a line ends them.
        """
        most = len(self.game.bench.lines) + 1
        number, given = self._line_and_text(text, "insert LINE [TEXT]", most)
        if given is not None:
            content = to_bytes(given)
            self.edit(lambda: self.game.bench.insert(number, content), f"1 line inserted before line {number}")
            return
        before, snapshot = self.game.edition(), Snapshot(self.game)
        try:
            self._insert_lines(number)
        finally:
            count = len(self.game.bench.lines) + 1 - most
            if self.game.note(before):
                self.tell_difference(f"{counted(count, 'line')} inserted before line {number}", snapshot)
        if count == 0:
            raise Mistake("nothing is inserted, because no line was given")

    def _insert_lines(self, number: int) -> None:
        """Reads lines up to a full stop, and inserts each as it comes, so that no typed line is ever lost."""
        if self.console.is_terminal:
            self.say(f"lines before line {number}; a full stop alone on a line ends them")
        with self.console.without_history():
            while True:
                try:
                    line = self.console.read(f"{number}: ")
                except EOFError:
                    return
                if line.strip() == END:
                    return
                try:
                    self.game.bench.insert(number, to_bytes(line))
                except Refused as refused:
                    self.fail(str(refused))
                    continue
                number += 1
                self.keep()

    def do_delete(self, text: str) -> None:
        """delete LINE [LAST]

        Deletes a line, or the lines from LINE to LAST. Each is a number, or a label for its line.
        """
        lines = re.fullmatch(r"(\d+)\s*(?:-|\.\.|:|,|to)\s*(\d+)", text.strip())
        if lines is not None:
            raise Mistake(f"delete takes the first and the last line with a blank between them: delete {lines[1]} {lines[2]}")
        words = self.words_of(text, 2, "delete LINE [LAST]")
        if not words:
            raise Mistake("delete takes a line: delete 12, delete 12 14")
        if words[0].lower() in BREAK_WORDS and words[0].upper() not in self.game.symbols():
            raise Mistake("delete removes lines; clear removes all breakpoints, and clear PLACE those at a place")
        first, last = self.game.line_number(words[0]), self.game.line_number(words[-1])
        if last < first:
            raise Mistake(f"line {last} is before line {first}: delete takes the first line first")

        def delete() -> None:
            for number in range(last, first - 1, -1):
                self.game.bench.delete(number)

        self.edit(delete, f"{counted(last - first + 1, 'line')} deleted")
        # GDB's delete removes the breakpoint of a number
        if len(words) == 1 and words[0].isdecimal() and first <= len(self.game.breakpoints):
            self.say("delete removes lines; undo takes this back, and clear removes breakpoints")

    def _line_and_text(self, text: str, form: str, most: int = 0) -> tuple[int, str | None]:
        """The number of a line, and the text after the one blank that follows it; None if there is no such blank."""
        found = re.fullmatch(r"(\S+)(?: (.*))?", text, re.DOTALL)
        if found is None:
            raise Mistake(f"expected a line: {form}")
        word = found[1]
        if most and word.isdecimal():
            number = int(word)
            if not 1 <= number <= most:
                raise Mistake(f"no line {number}: insert takes a line from 1 to {most}")
            return number, found[2]
        try:
            return self.game.line_number(word), found[2]
        except Mistake as mistake:
            if word.isdecimal() or found[2] is None:
                raise
            command = form.split()[0]
            raise Mistake(f"{mistake}; {command} takes a line before the text: {command} LINE {text}") from None

    def do_undo(self, text: str) -> None:
        """undo

        Takes back the last edit of the lines or the keys.
        """
        self.words_of(text, 0, "undo")
        snapshot = Snapshot(self.game)
        self.game.undo()
        self.tell_difference("undone", snapshot)

    def do_redo(self, text: str) -> None:
        """redo

        Makes the edit again that undo took back.
        """
        self.words_of(text, 0, "redo")
        snapshot = Snapshot(self.game)
        self.game.redo()
        self.tell_difference("made again", snapshot)

    # -- keys

    def do_press(self, text: str) -> None:
        """press KEY [at STEP]

        Holds a key, 0 to 15 or A to F, from a step on, or from the current one.
        """
        self._key_event(text, True, "press KEY [at STEP]")

    def do_release(self, text: str) -> None:
        """release KEY [at STEP]

        Lets go of a key from a step on, or from the current one.
        """
        self._key_event(text, False, "release KEY [at STEP]")

    def _key_event(self, text: str, down: bool, form: str) -> None:
        found = re.fullmatch(r"(\S+)(?:\s+(?:at\s+)?(\S+))?", text)
        both = re.fullmatch(r"(\w+)\s+(?:(?:at|from)\s+)?(\w+)\s*(?:\s|-|to\s)\s*(\w+)", text)
        if found is None and both is not None and down:
            raise Mistake(f"press takes one step: press {both[1]} at {both[2]}, then release {both[1]} at {both[3]}")
        if found is None:
            raise Mistake(f"expected a key, and perhaps a step: {form}")
        key = self._key(found[1])
        step = self.game.step_number(found[2]) if found[2] else self.game.step
        if step > LAST_STEP:
            raise Mistake(f"no step {step}: the steps are 0 to {LAST_STEP}")
        bench = self.game.bench
        known = bench.events.get((step, key))
        told = f"key {key:X} is {'down' if down else 'up'} from step {step} on"
        if known == down:
            raise Mistake(f"{told} already")
        if known is None:
            self.edit(lambda: (bench.press if down else bench.release)(key, at=step), told)
        else:
            self.edit(lambda: bench.change_event(key, at=step, down=down), told)

    def _key(self, text: str) -> int:
        is_letter = re.fullmatch("[A-Fa-f]", text) is not None and text.upper() not in self.game.symbols()
        try:
            key = int(text, 16) if is_letter else self.game.values().number(text)
        except Mistake:
            raise Mistake(f"no key {text}: the keys are 0 to 9 and A to F, as in press 4") from None
        if key > LAST_KEY:
            raise Mistake(f"no key {key}: the keys are 0 to 15, or 0 to 9 and A to F")
        return key

    # -- the file

    def do_save(self, text: str) -> None:
        """save [FILE] [over]

        Writes the lines to the source's file, or to FILE. If another program has written there since, it refuses, unless
        `over` is given. `save keys [FILE] [over]` writes the key events, to the file of --keys or to one beside the source.
        """
        words = text.split()
        if words[:1] == ["keys"]:
            self.save_keys(text.strip().removeprefix("keys"))
            return
        if words and "keys".startswith(words[0].lower()):
            raise Mistake(f"save keys writes the key events, and save ./{words[0]} the lines to a file of that name")
        path, is_forced = self._target(text)
        written = self.game.save(path, is_forced)
        self.say(f"{written}: {counted(len(self.game.bench.lines), 'line')} written")

    def save_keys(self, text: str) -> None:
        """Writes the key events to the file that a text names, or to their own."""
        path, is_forced = self._target(text)
        written = self.game.save_keys(path, is_forced)
        self.say(f"{written}: {counted(len(self.game.bench.events), 'key event')} written")

    @staticmethod
    def _target(text: str) -> tuple[Path | None, bool]:
        """The file that a text names, and whether it may be written over."""
        is_forced = text.split()[-1:] == ["over"]
        name = text.strip().removesuffix("over").strip() if is_forced else text.strip()
        # a user who types `save as FILE` doesn't mean a file whose name begins with `as`
        if name == "as":
            raise Mistake("save as needs a file: save FILE")
        name = re.sub(r"^as\s+", "", name)
        return (Path(name) if name else None), is_forced

    def do_reload(self, text: str) -> None:
        """reload

        Replaces the lines by those of the file. undo brings your lines back.
        """
        self.words_of(text, 0, "reload")
        snapshot = Snapshot(self.game)
        count = self.game.take(self.game.file_content())
        self.tell_difference(f"{counted(count, 'line')} taken from {self.game.name}", snapshot)
