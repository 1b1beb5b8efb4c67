"""Commands that show something, and change only what an empty line shows next."""

from __future__ import annotations

import os
import re
import tempfile
from pathlib import Path

from chipbench import ListingLine, join_lines, run_once

from . import views
from .advice import SHELL, for_keys, told, with_sign
from .base import Commands, Snapshot
from .session import SESSION_WORDS
from .values import Mistake, counted, register_value

LISTED = 11
WORDS = 8
PROFILES = ("schip", "vip", "chip48", "schip10", "schip-modern", "octo")
CHECK_SECONDS = 60.0
#: The commands whose answers can't be written to a file by `> FILE`.
SHOWING = frozenset("regs screen list x dis backtrace info check explain profile syms faults image mem".split())
#: A line that ends the source, with a label or a comment perhaps.
END_LINE = re.compile(r"\s*(?:\w+:\s*)?END\s*(?:;.*)?", re.IGNORECASE)
#: The words that GDB's `info` takes, and the commands that show the same here.
INFO = {
    "registers": "regs",
    "breakpoints": "break",
    "display": "display",
    "frame": "backtrace",
    "stack": "backtrace",
    "keys": "keys",
    "source": "list",
    "line": "list",
    "symbols": "syms",
    "variables": "syms",
}


#: The commands that show or remove one of the things that `info` shows together.
ONE_OF = {
    **dict.fromkeys(("registers", "symbols", "variables"), "print {0} shows one"),
    **dict.fromkeys(("source", "line"), "list {0} shows the lines around one"),
    "breakpoints": "breakpoints have no numbers here, and clear PLACE removes those at a place",
}


class Looks(Commands):
    """regs, screen, list, x, dis, print, display, backtrace, info, assert, keys, check, explain, profile."""

    # where the next `list`, `x` and `dis` go on, by an empty line
    list_end: int | None = None
    next_address: int | None = None
    # whether an assertion didn't hold
    has_asserted_wrongly = False

    def do_regs(self, text: str) -> None:
        """regs

        Shows the registers, the timers, the call stack and the flags. regs STEP answers as chipbench debug does.
        """
        if self._is_at_step("regs", text):
            return
        state = self.game.state()
        self.show_where()
        names = [f"keys down {self._keys_down(state.step) or 'none'}"]
        self.say(*state.rows(self.console.width, names))

    def _is_at_step(self, command: str, text: str) -> bool:
        """Whether a step follows a command; then the session answers it."""
        words = self.words_of(text, 1, f"{command}, or {command} STEP")
        if words:
            self.carry_out(f"{command} {words[0]}")
        return bool(words)

    def check_is_no_redirection(self, name: str, text: str) -> None:
        """Refuses `> FILE` after a command that shows something, because only `keys` writes a file."""
        before, mark, file = text.partition(">")
        if mark and name in SHOWING:
            # in quotes, because # begins a comment in sh
            command = f"'{name} {before.strip()}'" if before.strip() else name
            written = f"echo {command} | {SHELL} game.asm --quiet > {file.strip(' >') or 'FILE'}"
            raise Mistake(f"{name} writes no file, and only keys takes `> FILE`; outside the shell, run {written}")

    def _keys_down(self, step: int) -> str:
        held = {key: down for (at, key), down in sorted(self.game.bench.events.items()) if at <= step}
        return " ".join(f"{key:X}" for key in sorted(held) if held[key])

    def do_screen(self, text: str) -> None:
        """screen

        Draws the screen, one character for two pixels, or for four if the window is narrow. screen STEP answers as
        chipbench debug does.
        """
        if self._is_at_step("screen", text):
            return
        state = self.game.state()
        drawn = views.screen(state.screen, self.console.width, self.console.has_blocks)
        self.say(f"step {state.step}, {state.screen.width} by {state.screen.height} pixels", *drawn)

    def do_list(self, text: str) -> None:
        """list [PLACE]

        Shows the lines of the source around the current one, which has the mark =>, or around a place. A breakpoint
        has the mark *. An empty line then shows the next lines. `session list` shows the whole listing.
        """
        listing = self.game.bench.listing
        if not listing:
            raise Mistake("the source is empty: insert 1 adds lines")
        state = self.game.state_or_none()
        current = self.game.line_at(state.pc) if state is not None else None
        if text:
            first, *more = re.split(r"[\s,]+", text)
            if more and first.isdecimal():
                raise Mistake(f"list shows the lines around one place, as in list {first}; session list shows all lines")
            middle = self._line_of_place(text)
        else:
            middle = current or (self.game.faults()[0].line if state is None else 1)
        self._show_lines(listing, max(1, middle - LISTED // 2), current)

    def list_on(self) -> None:
        """Shows the lines after the last ones shown."""
        listing = self.game.bench.listing
        if self.list_end is None or self.list_end > len(listing):
            raise Mistake("this is the end of the source")
        state = self.game.state_or_none()
        self._show_lines(listing, self.list_end, self.game.line_at(state.pc) if state is not None else None)

    def _line_of_place(self, text: str) -> int:
        if text.upper() in self.game.symbols() or text.isdecimal():
            return self.game.line_number(text)
        address = told(text, self.game.values().address)
        number = self.game.line_at(address)
        if number is None:
            raise Mistake(f"no line has the address {address:04x}")
        return number

    def _show_lines(self, listing: list[ListingLine], first: int, current: int | None) -> None:
        breaks = {point.line for point in self.game.breakpoints} | self._lines_of_breakpoints()
        width = self.console.width if self.console.is_terminal else 1000
        for line in listing[first - 1 : first - 1 + LISTED]:
            mark = "=>" if line.number == current else " *" if line.number in breaks else ""
            shown = views.source_line(line, mark, width)
            self.say(self.console.paint("strong", shown) if mark == "=>" else shown)
        self.list_end = first + LISTED

    def _lines_of_breakpoints(self) -> set[int | None]:
        found: set[int | None] = set()
        for point in self.game.breakpoints:
            try:
                found.add(self.game.line_at(self.game.place(point.place)[0]))
            except Mistake:
                continue
        return found

    def do_x(self, text: str) -> None:
        """x ADDRESS [N]

        Shows N bytes of the memory, 16 by default. An address is a number, a name, a register, or a sum: x BALL 2, x I+2.
        """
        # GDB has the count in front: x/16 ADDRESS
        in_front = re.fullmatch(r"/(\d+)[a-z]*\s+(.*)", text)
        words = self.words_of(f"{in_front[2]} {in_front[1]}" if in_front else text, 2, "x ADDRESS [N]")
        if not words:
            raise Mistake("x takes an address: x #300 16, x BALL 2, x I")
        address = self.game.values().address(words[0])
        count = self.game.values().number(words[1]) if len(words) > 1 else min(views.BYTES_OF_ROW, 4096 - address)
        self._show_memory(address, count)

    def _show_memory(self, address: int, count: int) -> None:
        content = bytes.fromhex(self.game.bench.ask(f"mem {self.game.step} {address} {count}"))
        self.say(*views.memory(content, address, self.console.width))
        self.next_address = address + count

    def do_dis(self, text: str) -> None:
        """dis [ADDRESS [N]]

        Shows N words of the memory as instructions, 8 by default, from pc or from an address on.
        """
        words = self.words_of(text, 2, "dis [ADDRESS [N]]")
        state = self.game.state()
        address = self.game.values().address(words[0]) if words else state.pc
        count = self.game.values().number(words[1]) if len(words) > 1 else min(WORDS, (4096 - address) // 2)
        self._show_words(address, count)

    def _show_words(self, address: int, count: int) -> None:
        state = self.game.state()
        names = {symbol.value: name for name, symbol in self.game.symbols().items() if self._is_label(symbol.line)}
        for word in self.game.bench.words(state.step, address, count):
            mark = "=>" if word.address == state.pc else "  "
            name = f"{names[word.address]}: " if word.address in names else ""
            self.say(f"{mark} {word.address:04x} {word.word:04x}  {name}{word.text}")
        self.next_address = address + 2 * count

    def _is_label(self, line: int) -> bool:
        return self.game.bench.listing[line - 1].value is None

    def go_on(self, command: str) -> None:
        """Shows the bytes or the words after the last ones shown."""
        if self.next_address is None or self.next_address >= 4096:
            raise Mistake("this is the end of the memory")
        left = 4096 - self.next_address
        if command == "x":
            self._show_memory(self.next_address, min(views.BYTES_OF_ROW, left))
        else:
            self._show_words(self.next_address, min(WORDS, left // 2))

    def do_print(self, text: str) -> None:
        """print VALUE

        Shows a number, a name, a register, a byte such as [BALL+1], or a sum: in decimal, hexadecimal and binary.
        """
        if not text:
            raise Mistake("print takes a value: print V3, print BALL+1, print [#300]")
        self.say(self.value_text(text))

    def do_display(self, text: str) -> None:
        """display [VALUE]

        Shows a value after each move, as print shows it. Without VALUE it shows all displayed values.
        """
        if not text:
            if not self.displayed:
                raise Mistake("nothing is displayed: display V3 shows V3 after each move")
            self.show_displayed()
            return
        self.say(self.value_text(text))
        if text not in self.displayed:
            self.displayed += (text,)

    def do_undisplay(self, text: str) -> None:
        """undisplay [VALUE]

        Stops displaying a value, or all values.
        """
        left = tuple(one for one in self.displayed if text and one.upper() != text.upper())
        if len(left) == len(self.displayed):
            raise Mistake(f"{text} is not displayed: display shows all displayed values" if text else "no value is displayed")
        self.displayed = left
        self.say(f"{text} is no longer displayed" if text else "no value is displayed any more")

    def do_info(self, text: str) -> None:
        """info WHAT

        Shows what GDB shows by the same words: registers, breakpoints, display, frame, stack, keys, source, line, symbols or
        variables. regs, break, display, backtrace, keys, list and syms show the same.
        """
        words = text.split()
        found = [name for name in INFO if words and name.startswith(words[0].lower())]
        if not found:
            raise Mistake(f"info takes one of these: {', '.join(INFO)}")
        if len(words) > 1:
            one = ONE_OF.get(found[0], "it takes no second word")
            raise Mistake(f"info {found[0]} shows all of them: {one.format(words[1])}")
        self.carry_out(INFO[found[0]])

    def do_assert(self, text: str) -> None:
        """assert COMPARISON

        Reports an error if a comparison of a register or a byte doesn't hold here. A script then ends with status 1, and with
        --strict it ends at once.
        """
        condition = self.game.values().condition(text)
        if condition is None:
            raise Mistake(f"assert takes a comparison: assert {with_sign(text) or 'V3 = 5'}")
        state = self.game.state()
        value = condition.subject.value(state)
        if not condition.holds(value, lambda name: register_value(state, name)):
            self.has_asserted_wrongly = True
            raise Mistake(f"assertion failed: {condition}; {condition.subject.shown} is {value} at step {state.step}")

    def do_backtrace(self, text: str) -> None:
        """backtrace

        Shows the calls that haven't returned, the newest first.
        """
        self.words_of(text, 0, "backtrace")
        state = self.game.state()
        self.show_where()
        for address in reversed(state.call_stack):
            # the call stands before the address to which it returns
            number = self.game.line_at(address - 2)
            source = f", line {number}: {views.printable(self.game.bench.listing[number - 1].text.strip())}" if number else ""
            self.say(f"called from {address - 2:04x}{source}")

    def do_keys(self, text: str) -> None:
        """keys [> FILE]

        Shows the key events as the lines of a file for --keys, or writes them to FILE, as `save keys FILE` does. press, release
        and undo change them, and kdel STEP KEY removes one.
        """
        if text.startswith(">"):
            if not text[1:].strip():
                raise Mistake("`>` needs a file: keys > FILE")
            self.save_keys(text[1:])
            return
        if text:
            raise Mistake(for_keys(text))
        lines = self.game.key_lines().splitlines()
        self.say(*(lines or ["no key events"]))

    def do_check(self, text: str) -> None:
        """check

        Shows the faults with their places, or the warnings, as chipbench check does.
        """
        self.words_of(text, 0, "check")
        name = self.game.lines_name
        with tempfile.TemporaryDirectory(prefix="chipbench-shell-") as folder:
            path = Path(folder, name)
            path.write_bytes(join_lines(self.game.bench.lines))
            colour = "--color=always" if self.console.has_colours else "--color=never"
            answer = self._run(["check", colour, *self.game.check_options(), str(path)])
        found = answer.replace(f"{folder}{os.sep}", "").splitlines()
        self.say(*(found or ["no faults and no warnings"]), *self._behind_end())

    def _behind_end(self) -> list[str]:
        """A sentence about the lines after END, which aren't assembled; empty if there are none."""
        listing = self.game.bench.listing
        for line in listing:
            # a line that isn't active has no address
            if line.address is not None and END_LINE.fullmatch(line.text):
                behind = sum(bool(one.text.strip()) for one in listing[line.number :])
                are = "is" if behind == 1 else "are"
                sentence = f"END in line {line.number} ends the source: {counted(behind, 'line')} after it {are} not read"
                return [sentence] if behind else []
        return []

    def do_explain(self, text: str) -> None:
        """explain CODE

        Shows the page on a code such as F9, N1 or S2: what it means, an example and the fix.
        """
        words = self.words_of(text, 1, "explain CODE")
        word = "".join(words).lower()
        if hasattr(self, f"do_{word}") and word not in SESSION_WORDS:
            raise Mistake(f"{word} is a command: help {word} says what it does")
        try:
            page = self._run(["explain", *(word.upper() for word in words)])
        except Mistake:
            raise Mistake(
                f"no page on {word.upper()}: explain takes a code such as F9, W4 or S2, and without one it lists all codes; "
                "docs/MACHINE.md has the instructions"
            ) from None
        self.say(*page.splitlines())

    def _run(self, arguments: list[str]) -> str:
        status, output, errors = run_once([self.game.bench.program, *arguments], seconds=CHECK_SECONDS)
        if status not in (0, 1):
            raise Mistake(errors.strip().removeprefix("chipbench: "))
        return output.decode("utf-8", "replace")

    def do_profile(self, text: str) -> None:
        """profile [NAME]

        Shows the settings of the run; with a name the same lines and keys run under that profile from then on.
        """
        words = self.words_of(text, 1, "profile [NAME]")
        settings = self.game.settings
        if not words:
            tape = settings.tape.hex() if settings.tape is not None else "00"
            random = f"seed {settings.seed}" if settings.seed is not None else f"tape {tape}"
            self.say(f"profile {settings.profile or PROFILES[0]}, rate {settings.rate or 10}, {random}")
            return
        if words[0] not in PROFILES:
            raise Mistake(f"no profile {words[0]}: {', '.join(PROFILES[:-1])} or {PROFILES[-1]}")
        snapshot = Snapshot(self.game)
        self.game.set_profile(words[0])
        self.tell_difference(f"profile {words[0]}", snapshot)
