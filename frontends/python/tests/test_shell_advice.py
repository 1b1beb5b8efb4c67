"""The shell on what is nearly a command: each answer says what to type instead."""

from __future__ import annotations

import os
import sys
import unittest
from pathlib import Path

sys.path.insert(0, str(Path(__file__).resolve().parent))

from at_pipe import AtPipe  # noqa: E402
from at_terminal import COUNTER, AtTerminal  # noqa: E402
from programs import TOP  # noqa: E402
from terminal import Terminal  # noqa: E402

# V3 counts up by 1 and V4 down by 1 in each round of three steps, V3 first: V3 is n at TURN of round n, and V4 is 12 - n
TWO_SIDES = """        LD V4, 12
LOOP:   ADD V3, 1
        ADD V4, #FF
TURN:   JP LOOP
"""
# VA goes up by 1 in each round of five steps, and the byte KEPT is 3 from step 3 on
KEPT = """        LD V0, 3
        LD I, KEPT
        LD [I], V0
LOOP:   ADD VA, 1
        JP LOOP
KEPT:   DB 0, 0
"""
# what runs begins 2 bytes into the third line
INSIDE = """        LD V0, 1
        JP DATA+2
DATA:   DB 0, 0, #60, 5, #12, #00
"""
AT_PLACE = "until {0} goes to where it becomes true at any place"
REGISTER = "{0} is a register, not a {1}: watch {0} goes to the next step that changes it, until {0} = 5 to where it becomes 5"
AT_START = "goto 0 goes to the start, and run from there to the first breakpoint"
NOTHING_SETS = "a state follows from the lines and the keys, and can't be set: edit changes a line, press and release change keys"


ONLY_KEYS = "and only keys takes `> FILE`; outside the shell, run"
WRITTEN = "and keys > FILE writes the key events"
CHOSEN = "the settings are chosen at the start, as in chipbench-shell game.asm"


class Comparisons(AtPipe):
    def answered(self, source: str, script: str) -> list[str]:
        Path(self.folder, "game.asm").write_text(source)
        status, output, errors = self.shell(script, "game.asm", "--quiet")
        self.assertEqual((status, errors), (0, ""))
        return output.splitlines()

    def test_both_sides_of_a_breakpoint_are_read_at_each_step(self) -> None:
        # 1 + 3 * 6 - 1: V3 and V4 are 6 at TURN of round 6
        shown = self.answered(TWO_SIDES, "break TURN if V3 = V4\ncontinue\nprint V3\nprint V4\n")
        self.assertEqual(shown[1], "step 18, 0206, line 4: TURN:   JP LOOP")
        self.assertEqual([line[:6] for line in shown[2:]], ["V3 = 6", "V4 = 6"])

    def test_both_sides_of_until_are_read_at_each_step(self) -> None:
        # V3 + 1 is 7 after the first step of round 6, where V4 is 7 still
        shown = self.answered(TWO_SIDES, "until V4 = V3+1\ngoto 0\nuntil V3 > V4\n")
        self.assertEqual(shown[0], "step 17, 0204, line 3: ADD V4, #FF")
        self.assertEqual(shown[2], "step 20, 0204, line 3: ADD V4, #FF")

    def test_a_byte_beside_a_register(self) -> None:
        # VA is 3 behind the third ADD: 3 + 2 + 2 + 1 steps
        shown = self.answered(KEPT, "until [KEPT] = VA\n")
        self.assertEqual(shown, ["step 8, 0208, line 5: JP LOOP"])
        self.assertEqual(self.answered(KEPT, "until [KEPT] = 3\n"), ["step 3, 0206, line 4: LOOP:   ADD VA, 1"])


class WrongTurns(AtPipe):
    def test_what_to_type_is_told(self) -> None:
        Path(self.folder, "game.asm").write_text(COUNTER)
        pairs = (
            ("break if V3 = 2", f"break takes a place first: break PLACE if V3 = 2; {AT_PLACE.format('V3 = 2')}"),
            ("break V3 = 5", f"break takes a place first: break PLACE if V3 = 5; {AT_PLACE.format('V3 = 5')}"),
            ("break if", "break takes a place and a comparison: break PLACE if V3 = 2"),
            ("break UP when V3 = 2", "break takes `if` before a comparison: break UP if V3 = 2"),
            ("break UP V3 2", "break takes `if` before a comparison: break UP if V3 = 2"),
            ("break UP if V3 2", "`if` takes a comparison of a register: break LOOP if V3 = 2"),
            ("break UP if", "`if` takes a comparison of a register: break LOOP if V3 = 5"),
            ("break V3", REGISTER.format("V3", "place")),
            ("until I", REGISTER.format("I", "place")),
            ("until V3 6", "a comparison needs a sign: until V3 = 6"),
            ("until v3 is 4", "a comparison needs a sign: until v3 = 4"),
            ("until [BUF] 4", "a comparison needs a sign: until [BUF] = 4"),
            ("goto V3", REGISTER.format("V3", "step")),
            ("mem BUF", "C1: no such command: expected mem STEP ADDRESS N; x ADDRESS [N] shows the bytes at this step"),
            (
                "regs abc",
                "C1: no such command: expected regs STEP; no name abc in the source; regs alone shows the registers at this step",
            ),
            (
                "explain LD",
                "no page on LD: explain takes a code such as F9, W4 or S2, and without one it lists all codes; "
                "docs/MACHINE.md has the instructions",
            ),
            ("regs > y.txt", f"regs writes no file, {ONLY_KEYS} echo regs | chipbench-shell game.asm --quiet > y.txt"),
            ("screen >x.txt", f"screen writes no file, {ONLY_KEYS} echo screen | chipbench-shell game.asm --quiet > x.txt"),
            ("x #300 4 > z", f"x writes no file, {ONLY_KEYS} echo 'x #300 4' | chipbench-shell game.asm --quiet > z"),
            ("regs 5 6", "too many words after the command; expected regs, or regs STEP"),
            ("screen 5 6", "too many words after the command; expected screen, or screen STEP"),
            ("key 4 down", f"press 4 holds a key, release 4 lets go of it, {WRITTEN}"),
            ("keys 4", f"press 4 holds a key, release 4 lets go of it, {WRITTEN}"),
            ("keys 60 a up", f"release a at 60 lets go of a key, press a at 60 holds it, {WRITTEN}"),
            ("save key", "save keys writes the key events, and save ./key the lines to a file of that name"),
            ("save k over", "save keys writes the key events, and save ./k the lines to a file of that name"),
            ("save as", "save as needs a file: save FILE"),
            ("set rate 20", f"no command 'set': {CHOSEN} --rate 20; profile shows them"),
            ("set profile vip", "no command 'set': profile vip runs the same lines and keys under that profile"),
            ("set keys 4", "no command 'set': press 4 holds key 4, and release 4 lets go of it"),
            ("until step 100", "goto 100 goes to step 100"),
            ("100", "no command '100': goto 100 goes to step 100"),
            (";! V0 <= 63", "no command ';!': a property is a line of the source: insert LINE ;! V0 <= 63"),
            ("delete 1-2", "delete takes the first and the last line with a blank between them: delete 1 2"),
            (
                "insert LD V0, 5",
                "no name LD in the source; insert takes a line before the text: insert LINE LD V0, 5",
            ),
            ("break UP:", "type a label without its colon: UP"),
            ("until UP:", "type a label without its colon: UP"),
            ("press 4 60 70", "press takes one step: press 4 at 60, then release 4 at 70"),
            ("condition 1 V0 = 5", "no command 'condition': give a condition with its breakpoint: break PLACE if V0 = 5"),
            (
                "ignore 1 5",
                "no command 'ignore': breakpoints don't count hits: continue goes on to the next one, "
                "and break PLACE if V0 = 5 stops only where that holds",
            ),
            (
                "info breakpoint 1",
                "info breakpoints shows all of them: breakpoints have no numbers here, and clear PLACE removes those at a place",
            ),
            ("info registers V0", "info registers shows all of them: print V0 shows one"),
            ("until UP if V0 = 3", "until takes no `if`: break UP if V0 = 3, then continue"),
            ("until V0 = 300", "V0 is at most 255: V0 = 300 is never true"),
            ("until V0 > 255", "V0 is at most 255: V0 > 255 is never true"),
            ("until [BUF] >= 256", "[BUF] is at most 255: [BUF] >= 256 is never true"),
            ("print 'A'", "'A' is a letter, and letters have no values here: type a number such as 65 or #41"),
            ("press left", "no key left: the keys are 0 to 9 and A to F, as in press 4"),
            ("step back", "step only goes forward: back goes one step back, back 3 goes three"),
            ("step over", "next steps over a call"),
            ("delete break", "delete removes lines; clear removes all breakpoints, and clear PLACE those at a place"),
            ("reset", f"no command 'reset': {AT_START}"),
            ("restart", f"no command 'restart': {AT_START}"),
            ("set V3 5", f"no command 'set': {NOTHING_SETS}"),
            ("V3", "no command 'V3': print V3 shows its value"),
            ("[BUF]", "no command '[BUF]': print [BUF] shows its value"),
            ("V3 = 5", f"{NOTHING_SETS}; until V3 = 5 goes to where that becomes true"),
        )
        status, _, errors = self.shell("".join(f"{command}\n" for command, _ in pairs), "game.asm")
        told = dict(line.split(": ", 1) for line in errors.splitlines())
        self.assertEqual(status, 0)
        for number, (command, wanted) in enumerate(pairs, 1):
            with self.subTest(command):
                self.assertEqual(told.get(f"line {number}"), wanted)

    def test_no_file_is_written_that_nobody_named(self) -> None:
        Path(self.folder, "game.asm").write_text(COUNTER)
        self.shell("screen > x.txt\nregs > y.txt\nkey 4 down\nsave key\nsave as copy.asm\nquit no\n", "game.asm")
        self.assertEqual(sorted(path.name for path in self.folder.glob("*.*")) + [*self.folder.glob("key")], ["copy.asm", "game.asm"])
        self.assertEqual(Path(self.folder, "copy.asm").read_text(), COUNTER)

    def test_a_short_form_takes_a_step(self) -> None:
        Path(self.folder, "game.asm").write_text(COUNTER)
        _, short, errors = self.shell("reg 4\nscr 4\n", "game.asm", "--quiet")
        self.assertEqual((short, errors), (self.shell("regs 4\nscreen 4\n", "game.asm", "--quiet")[1], ""))

    def test_binary_numbers_are_those_of_a_source(self) -> None:
        _, output, errors = self.shell("print $101\nprint 0b11\nprint $1..1\n", "--quiet")
        self.assertEqual((output, errors), ("$101 = 5 = #05 = $00000101\n0b11 = 3 = #03 = $00000011\n$1..1 = 9 = #09 = $00001001\n", ""))

    def test_a_number_alone_that_is_a_comment(self) -> None:
        _, output, errors = self.shell("#210\n# 210\n#add\n", "--quiet")
        told = "a comment begins with `#`: until #210 goes to that address, and x #210 shows its bytes\n"
        self.assertEqual((output, errors), (told, ""))

    def test_clear_all(self) -> None:
        Path(self.folder, "game.asm").write_text(COUNTER)
        _, output, errors = self.shell("break UP\nclear all\n", "game.asm", "--quiet")
        self.assertEqual((output.splitlines()[1:], errors), (["1 breakpoint removed: UP"], ""))

    def test_check_names_the_lines_behind_end(self) -> None:
        for source, wanted in (
            (COUNTER + "STOP: END ; here\n\n        FOO\n", ["END in line 13 ends the source: 1 line after it is not read"]),
            (COUNTER + "        END\n        FOO\n        BAR\n", ["END in line 13 ends the source: 2 lines after it are not read"]),
            (COUNTER + "        END\n\n", []),
        ):
            with self.subTest(source[len(COUNTER) :]):
                Path(self.folder, "game.asm").write_text(source)
                shown = self.shell("check\n", "game.asm", "--quiet")[1].splitlines()
                self.assertEqual([line for line in shown if "after it" in line], wanted)

    def test_pc_inside_a_line_is_told(self) -> None:
        Path(self.folder, "game.asm").write_text(INSIDE)
        _, output, _ = self.shell("step 2\n", "game.asm", "--quiet")
        line = "line 3: DATA:   DB 0, 0, #60, 5, #12, #00"
        self.assertEqual(output, f"step 2, 0206, {line}; pc is 2 bytes past the start of this line, and LD V0, #05 comes next\n")

    def test_clear_says_what_is_removed(self) -> None:
        Path(self.folder, "game.asm").write_text(COUNTER)
        _, output, _ = self.shell("break UP\nbreak 8 if V0 = 5\nclear\nclear\n", "game.asm", "--quiet")
        told = ["2 breakpoints removed: UP, line 8 if V0 = 5", "there is no breakpoint to remove"]
        self.assertEqual(output.splitlines()[2:], told)


class Echoes(AtPipe):
    def test_control_characters_and_long_words_are_not_echoed_raw(self) -> None:
        for typed, wanted in (
            ("\x1b[2J", "line 1: no command '\\x1b[2J'; help lists the commands\n"),
            ("goto \x07", "line 1: '\\x07' is not a number: expected 100, #2a0, 0x2a0, a name, a register, or a sum of these\n"),
            ("x \u2028QQ", "line 1: no name QQ in the source\n"),
            ("press \u0100\u202e", "line 1: no key \u0100\\u202e: the keys are 0 to 9 and A to F, as in press 4\n"),
            ("y" * 5000, f"line 1: no command '{'y' * 78}..'; help lists the commands\n"),
            ("until " + "z" * 5000, f"line 1: no name {'z' * 78}.. in the source\n"),
        ):
            with self.subTest(typed):
                _, output, errors = self.shell(typed + "\n", "--echo", "--quiet")
                self.assertNotRegex(output + errors, "[\x00-\x09\x0b-\x1f\u2028\u202e]")
                self.assertEqual(errors, wanted)


class Arguments(AtPipe):
    def test_numbers_of_options(self) -> None:
        for arguments, example in ((("--seed", "-1"), "--seed 7"), (("--seed", "0x10"), "--seed 7"), (("--rate", "x"), "--rate 10")):
            with self.subTest(arguments):
                status, output, errors = self.shell("", *arguments)
                wanted = f"expected a whole number from 0 on, in decimal, as in {example}; found {arguments[1]}"
                self.assertEqual((status, output, wanted in errors), (2, "", True))

    def test_an_option_that_is_nearly_one(self) -> None:
        _, _, errors = self.shell("", "--kyes", "four.keys")
        self.assertEqual(errors, "chipbench-shell: no option --kyes; did you mean --keys?; chipbench-shell --help lists the options\n")

    def test_a_step_is_a_command(self) -> None:
        _, _, errors = self.shell("", "game.asm", "--steps", "5")
        told = "no option --steps: the command goto 5 goes to step 5; chipbench-shell --help lists the options"
        self.assertEqual(errors, f"chipbench-shell: {told}\n")

    def test_without_an_installation_a_hint_names_the_path_in_the_clone(self) -> None:
        for script, tool, told in (
            ("play\n", "chipbench-page", "{0} game.asm opens the page, where you can play"),
            ("load x.asm\n", "chipbench-shell", "a shell has one source: quit, and start {0} FILE"),
        ):
            with self.subTest(tool):
                _, _, errors = self.shell(script, "--quiet", path=os.defpath)
                self.assertEqual(errors, f"line 1: no command '{script.split()[0]}': {told.format(TOP / 'packaging' / tool)}\n")

    def test_a_source_taken_for_an_image_and_an_image_taken_for_a_source(self) -> None:
        Path(self.folder, "game.asm").write_text(COUNTER)
        Path(self.folder, "game.ch8").write_bytes(bytes.fromhex("00e01200"))
        for arguments, wanted in (
            (("game.ch8",), "game.ch8 is not a text; if it is an image, type chipbench-shell --image game.ch8"),
            (("none.ch8",), "there is no file none.ch8, and its name is that of an image: chipbench-shell --image FILE opens one"),
            (("--image", "game.asm"), "game.asm is a text, not an image: chipbench-shell game.asm opens a source"),
        ):
            with self.subTest(arguments):
                status, _, errors = self.shell("", *arguments)
                self.assertEqual((status, errors), (0, f"chipbench-shell: warning: {wanted}\n"))
        for right in (("game.asm",), ("--image", "game.ch8"), ("new.asm",)):
            with self.subTest(right):
                self.assertEqual(self.shell("", *right)[2], "")


class AtTheEnd(AtTerminal):
    def test_an_answer_that_is_none_is_told_which_there_are(self) -> None:
        terminal: Terminal = self.opened()
        terminal.ask("delete 1")
        question = "save the edits of game.asm? yes, no, or stay: "
        terminal.ask("quit", question)
        told = "yes   writes the lines to the file, and ends\nno    ends without writing them\nstay  goes back to the shell"
        self.assertEqual(terminal.ask("help", question), told)
        self.assertEqual(terminal.ask("stay"), "")


if __name__ == "__main__":
    unittest.main()
