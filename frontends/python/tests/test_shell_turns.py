"""First mistakes of a person who knows CHIP-8 and GDB, but not this shell: each answer names what is wrong and what to type."""

from __future__ import annotations

import sys
import unittest
from pathlib import Path

sys.path.insert(0, str(Path(__file__).resolve().parent))

from at_pipe import AtPipe  # noqa: E402
from at_terminal import COUNTER  # noqa: E402

FILES_OF_KEYS = "save keys FILE writes the key events, and chipbench-shell game.asm --keys FILE plays them"
HOLDS = "press KEY holds a key, release KEY lets go of it, and keys shows the events"
AT_START = "the settings are chosen at the start, as in chipbench-shell game.asm --rate 15 --seed 7; profile shows them"
CALLS = "backtrace shows the calls that haven't returned"
COMMENT = "a comment begins with `#` here"
CRASH = "continue goes to where the machine stops"
ONE_COMPARISON = "expected one comparison: `and` and `or` can't join two"
TAPE = "expected two hexadecimal digits for each byte, without 0x or #, as in --tape 2a07; found {}"
# after two steps pc is at the zeros behind the program
FALLS_OFF = "        LD V0, 5\n        CLS\n"


class Turns(AtPipe):
    def setUp(self) -> None:
        super().setUp()
        Path(self.folder, "game.asm").write_text(COUNTER)

    def test_what_to_type_is_told(self) -> None:
        pairs = (
            ("record", f"no command 'record': {FILES_OF_KEYS}"),
            ("replay game.keys", f"no command 'replay': {FILES_OF_KEYS}"),
            ("play", "no command 'play': chipbench-page game.asm opens the page, where you can play"),
            ("hold 6", f"no command 'hold': {HOLDS}"),
            ("keydown 6", f"no command 'keydown': {HOLDS}"),
            ("rate 5", f"no command 'rate': {AT_START}"),
            ("seed 5", f"no command 'seed': {AT_START}"),
            ("frame", f"no command 'frame': {CALLS}"),
            ("replace 5 CLS", "no command 'replace': edit LINE TEXT replaces a line"),
            ("append CLS", "no command 'append': insert LINE TEXT puts a line before another one"),
            ("; a comment", COMMENT),
            ("// a comment", COMMENT),
            ("step -5", "step only goes forward: back 5 goes back"),
            ("step -", "'-' is not a number: expected 100, #2a0, 0x2a0, a name, a register, or a sum of these"),
            ("goto -5", "'-5' is below 0"),
            ("list 1 20", "list shows the lines around one place, as in list 1; session list shows all lines"),
            ("list 1,20", "list shows the lines around one place, as in list 1; session list shows all lines"),
            ("until V0 = 3 and V1 = 2", ONE_COMPARISON),
            ("break UP if V0 = 3 && V1 = 2", ONE_COMPARISON),
            ("watch V0 if V0 == 5", "watch takes no `if`: until V0 == 5 goes to where that becomes true"),
            ("press 6 at 1000001", "no step 1000001: the steps are 0 to 1000000"),
            ("break line 3", "give a line by its number alone: 3"),
            ("until LINE 3", "give a line by its number alone: 3"),
            ("list line 3", "give a line by its number alone: 3"),
            ("until crash", CRASH),
            ("break S4", CRASH),
            ("goto end", CRASH),
            ("goto line 3", "line 3 is a place, not a step: until 3 goes to the next step there"),
            ("break UP, V0 = 3", "break takes `if` before a comparison: break UP if V0 = 3"),
            ("kins 5 q down", "C1: no such command: expected kins STEP KEY down|up; no name q in the source"),
        )
        status, _, errors = self.shell("".join(f"{command}\n" for command, _ in pairs), "game.asm")
        told = dict(line.split(": ", 1) for line in errors.splitlines())
        self.assertEqual(status, 0)
        for number, (command, wanted) in enumerate(pairs, 1):
            with self.subTest(command):
                self.assertEqual(told.get(f"line {number}"), wanted)

    def test_a_stop_names_its_line(self) -> None:
        """As each other move does; where no line is there, the word. The addresses: 512 + 2 * 2, and 512 + 2 * 0."""
        stop = "step {}: the machine has stopped for {}"
        for source, wanted in (
            (FALLS_OFF, stop.format("3, 0204", "S2: no instruction; DW #0000")),
            ("LOOP:   CALL LOOP\n", stop.format("17, 0200", "S4: too many calls; line 1: LOOP:   CALL LOOP")),
            ("        JP #FFF\n", stop.format("2, 0fff", "S3: pc past the memory")),
            ("        JP DATA+1\nDATA:   DB 0, #00, #FD\n", stop.format("2, 0203", "S1: the program ended; EXIT")),
        ):
            with self.subTest(source):
                Path(self.folder, "game.asm").write_text(source)
                self.assertEqual(self.shell("continue\n", "game.asm", "--quiet"), (0, f"{wanted}\n", ""))

    def test_a_key_by_its_letter(self) -> None:
        script = "kins 5 a down\nkrep 5 A up\nkins 6 #b down\nkins 7 down down\nkeys\nkdel 5 a\nkeys\nquit no\n"
        _, output, errors = self.shell(script, "game.asm", "--quiet")
        self.assertEqual(output, "ok\nok\nok\nno C1\n5 10 up\n6 11 down\nok\n6 11 down\n")
        self.assertTrue(errors.startswith("line 4: C1: "), errors)

    def test_delete_beside_breakpoints(self) -> None:
        """GDB's delete 1 removes the first breakpoint. Here it removes a line, which is told as long as there is such a breakpoint."""
        told = "delete removes lines; undo takes this back, and clear removes breakpoints"
        _, output, _ = self.shell("break UP\ndelete 2\ndelete 1\nundo\nclear\ndelete 1\nquit no\n", "game.asm", "--quiet")
        self.assertEqual([line == told for line in output.splitlines()], [False, False, False, True, False, False, False])


class Files(AtPipe):
    def setUp(self) -> None:
        super().setUp()
        Path(self.folder, "game.asm").write_text(COUNTER)

    def refused(self, *arguments: str) -> str:
        status, output, errors = self.shell("", *arguments)
        self.assertEqual((status in (2, 3), output), (True, ""))
        return errors.removeprefix("chipbench-shell: ").removesuffix("\n")

    def test_files_of_keys(self) -> None:
        """The sentences are those of `chipbench run --keys`, tests/arguments/commands/keys.test."""
        form = "expected STEP KEY down or STEP KEY up, as in `10 4 down` (KEY is 0 to 15, or A to F); a comment begins with `;`"
        for content, wanted in (
            ("# keys\n", f"game.keys:1: {form}"),
            ("10 16 down\n", "game.keys:1: there is no such KEY; expected 0 to 15, or A to F"),
            ("1000001 1 down\n", "game.keys:1: STEP is too large; expected at most 1000000"),
            ("10 5 down\n10 5 up\n", "game.keys:2: an earlier line already has an event of that STEP and KEY"),
        ):
            with self.subTest(content):
                Path(self.folder, "game.keys").write_text(content)
                self.assertEqual(self.refused("game.asm", "--keys", "game.keys"), wanted)

    def test_an_image_that_is_too_large(self) -> None:
        Path(self.folder, "big.ch8").write_bytes(bytes(3585))
        self.assertEqual(self.refused("--image", "big.ch8"), "big.ch8 can't be opened: it has over 3584 bytes")

    def test_settings(self) -> None:
        see = "; chipbench-shell --help lists the options"
        for arguments, wanted in (
            (("--tape", "0x12"), f"argument --tape: {TAPE.format('0x12')}{see}"),
            (("--tape", "123"), f"argument --tape: {TAPE.format('123')}{see}"),
            (("--rate", "0"), "--rate 0: expected 1 to 1000"),
            (("--profile", "xo"), "--profile xo: possible values: schip, vip, chip48, schip10, schip-modern, octo"),
            (("other.asm",), f"expected one SOURCE, and other.asm is a second one{see}"),
        ):
            with self.subTest(arguments):
                self.assertEqual(self.refused("game.asm", *arguments), wanted)

    def test_help_says_what_a_tick_is(self) -> None:
        """As `chipbench run --help` does: 60 ticks a second of 10 steps each are 600 steps a second."""
        _, output, _ = self.shell("", "--help")
        self.assertIn("a tick is 1/60 of a second, so 10 is 600 steps a second", " ".join(output.split()))


if __name__ == "__main__":
    unittest.main()
