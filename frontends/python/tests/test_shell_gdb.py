"""The commands that who knows GDB types, and those for scripts. The steps of `COUNTER` are worked in at_terminal.py."""

from __future__ import annotations

import re
import sys
import unittest
from pathlib import Path

sys.path.insert(0, str(Path(__file__).resolve().parent))

from at_pipe import AtPipe  # noqa: E402
from at_terminal import COUNTER  # noqa: E402

# keys 4 and 6 have to be pressed, in this order, before DW stops the machine
TWO_KEYS = """        LD V4, 4
        LD V6, 6
FIRST:  SKP V4
        JP FIRST
SECOND: SKP V6
        JP SECOND
        DW #0000
"""


class Gdb(AtPipe):
    def setUp(self) -> None:
        super().setUp()
        Path(self.folder, "game.asm").write_text(COUNTER)

    def answered(self, *commands: str) -> list[str]:
        """The output of commands that are all right, without the line at the start."""
        status, output, errors = self.shell("\n".join(commands) + "\n", "game.asm", "--quiet")
        self.assertEqual((status, errors), (0, ""))
        return output.splitlines()

    def test_long_names(self) -> None:
        place = "step 5, 0210, line 11: RET"
        for long, before in (("reverse-step", 6), ("reverse-stepi", 6), ("rs", 6), ("stepi", 4), ("nexti", 4)):
            with self.subTest(long):
                self.assertEqual(self.answered(f"goto {before}", long)[-1], place)

    def test_reverse_continue(self) -> None:
        self.assertEqual(self.answered("break UP", "goto 32", "reverse-continue")[-1], "step 27, 020c, line 9: UP:     ADD V0, 1")

    def test_reverse_next_goes_over_a_call(self) -> None:
        shown = self.answered("goto 7", "reverse-next", "reverse-next", "rn")
        self.assertEqual(
            shown[1:],
            [
                "step 6, 0206, line 6: SE V0, LIMIT",
                "step 2, 0204, line 5: LOOP:   CALL UP",
                "I 0212 -> 0000",
                "step 1, 0202, line 4: LD I, BUF",
            ],
        )

    def test_reverse_finish(self) -> None:
        self.assertEqual(self.answered("goto 11", "reverse-finish")[-1], "step 8, 0204, line 5: LOOP:   CALL UP")
        _, _, errors = self.shell("reverse-finish\nreverse-next\n", "game.asm")
        self.assertEqual(
            errors,
            "line 1: no subroutine is running: the call stack is empty\nline 2: this is step 0, the start: no step is before it\n",
        )

    def test_a_temporary_breakpoint(self) -> None:
        shown = self.answered("tbreak UP", "break", "continue", "break", "tbreak UP if V0 = 3", "c", "c")
        self.assertEqual(
            shown,
            [
                "breakpoint UP, once, 020c",
                "breakpoint UP, once",
                "step 3, 020c, line 9: UP:     ADD V0, 1",
                "no breakpoints",
                "breakpoint UP if V0 = 3, once, 020c",
                "step 21, 020c, line 9: UP:     ADD V0, 1",
                "step 32, 020a: the machine has stopped for S1: the program ended; line 8: EXIT",
            ],
        )

    def test_info(self) -> None:
        self.assertEqual(self.answered("break UP", "info breakpoints")[-1], "breakpoint UP")
        self.assertEqual(self.answered("goto 4", "info frame")[-1], "called from 0204, line 5: LOOP:   CALL UP")
        self.assertEqual(self.answered("info reg")[1], "V0 00  V1 00  V2 00  V3 00  V4 00  V5 00  V6 00  V7 00")
        _, _, errors = self.shell("info\ninfo threads\n", "game.asm")
        # GDB's words that have no command of that name here are in the help too
        _, shown, _ = self.shell("help info\n", "--quiet")
        self.assertEqual([word for word in ("stack", "line", "variables") if not re.search(rf"\b{word}\b", shown)], [])
        told = "info takes one of these: registers, breakpoints, display, frame, stack, keys, source, line, symbols, variables"
        self.assertEqual(errors, f"line 1: {told}\nline 2: {told}\n")

    def test_display(self) -> None:
        shown = self.answered("display V0", "display [BUF]", "until UP", "step 2", "undisplay v0", "step", "undisplay")
        self.assertEqual(
            shown,
            [
                "V0 = 0 = #00 = $00000000",
                "[BUF] = 0 = #00 = $00000000",
                "step 3, 020c, line 9: UP:     ADD V0, 1",
                "V0 = 0 = #00 = $00000000",
                "[BUF] = 0 = #00 = $00000000",
                "step 5, 0210, line 11: RET",
                "V0 = 1 = #01 = $00000001",
                "[BUF] = 1 = #01 = $00000001",
                "v0 is no longer displayed",
                "step 6, 0206, line 6: SE V0, LIMIT",
                "[BUF] = 1 = #01 = $00000001",
                "no value is displayed any more",
            ],
        )

    def test_what_is_displayed_may_go(self) -> None:
        _, output, _ = self.shell("display BUF\nedit 12         DB 0\nedit 4         LD I, 0\nstep\nquit no\n", "game.asm", "--quiet")
        self.assertEqual(output.splitlines()[-1], "BUF: no name BUF in the source")


class Scripts(AtPipe):
    def test_assert(self) -> None:
        Path(self.folder, "game.asm").write_text(COUNTER)
        right = "goto 5\nassert V0 = 1\nassert [BUF] = V0\nassert pc = UP+4\n"
        self.assertEqual(self.shell(right, "game.asm", "--strict")[::2], (0, ""))
        status, output, errors = self.shell(right + "assert V0 > 1\nprint V0\n", "game.asm")
        self.assertEqual((status, errors), (1, "line 5: assertion failed: V0 > 1; V0 is 1 at step 5\n"))
        self.assertIn("V0 = 1 =", output)
        self.assertEqual(self.shell("assert V0\nassert V0 1\n", "game.asm")[::2], (0, "line 1: assert takes a comparison: assert V3 = 5\nline 2: assert takes a comparison: assert V0 = 1\n"))

    def test_blame(self) -> None:
        Path(self.folder, "game.asm").write_text(TWO_KEYS)
        events = "2 1 down\n4 1 up\n20 4 down\n25 4 up\n40 6 down\n50 6 up\n60 2 down\n"
        Path(self.folder, "some.keys").write_text(events)
        _, output, errors = self.shell("blame\n", "game.asm", "--keys", "some.keys", "--quiet")
        # after step 2 the loop of two steps waits for key 4, and reads it at step 20; that of key 6 begins at step 21, so that it
        # reads key 6 at step 41, and DW, which step 42 would execute, stops the machine: it has stopped after 43 steps
        told = "the machine stops for S2: no instruction, at step {}; the press of key 6 at step 40 is to blame: "
        up_to = "with the key events up to this one the machine stops by then, and with only the earlier ones it doesn't"
        self.assertEqual((output.splitlines()[0], errors), (told.format(43) + up_to, ""))
        self.assertTrue(output.splitlines()[1].startswith("step 40, "))

    def test_a_release_is_to_blame(self) -> None:
        source = "        LD V4, 4\nDOWN:   SKP V4\n        JP DOWN\nUP:     SKNP V4\n        JP UP\n        DW #0000\n"
        Path(self.folder, "game.asm").write_text(source)
        # key 4 is read at step 21, and its release at step 42: the loops of two steps begin at steps 1 and 22
        Path(self.folder, "some.keys").write_text("20 4 down\n41 4 up\n")
        _, output, errors = self.shell("blame\n", "game.asm", "--keys", "some.keys", "--quiet")
        self.assertEqual(errors, "")
        self.assertIn("at step 44; the release of key 4 at step 41 is to blame: ", output)

    def test_no_key_is_to_blame(self) -> None:
        Path(self.folder, "game.asm").write_text("        CLS\n        DW 0\n")
        _, _, errors = self.shell("press 4\nblame\nquit no\n", "game.asm")
        self.assertEqual(errors, "line 2: no key is to blame: the machine stops for S2: no instruction, at step 2, also without any key\n")
        Path(self.folder, "game.asm").write_text("HERE: JP HERE\n")
        _, _, errors = self.shell("blame\n", "game.asm")
        self.assertEqual(errors, "line 1: the machine doesn't stop up to step 1000000, so there is no stop to blame a key for\n")


if __name__ == "__main__":
    unittest.main()
