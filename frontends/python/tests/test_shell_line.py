"""The shell at a pseudo-terminal: the keys of the line, the file beside, the window. at_terminal.py has the sources."""

from __future__ import annotations

import signal
import sys
import time
import unittest
from pathlib import Path

sys.path.insert(0, str(Path(__file__).resolve().parent))

from at_terminal import COUNTER, DOT, WRITER, AtTerminal  # noqa: E402

UP, LEFT, HOME, END = "\x1b[A", "\x1b[D", "\x01", "\x05"
CTRL_D, CTRL_K, CTRL_R, CTRL_W, TAB = "\x04", "\x0b", "\x12", "\x17", "\t"


class Keys(AtTerminal):
    def test_the_line_is_edited(self) -> None:
        terminal = self.opened()
        terminal.send("oto 3" + HOME + "g" + END + "0")
        self.answers(terminal, ("", "step 30, 0206, line 6: SE V0, LIMIT"))
        terminal.send("goto 45" + LEFT + CTRL_K)
        self.answers(terminal, ("", "step 4, 020e, line 10: LD [I], V0"))
        terminal.send("goto 30 7" + CTRL_W)
        self.answers(terminal, ("", "step 30, 0206, line 6: SE V0, LIMIT"))

    def test_the_commands_before_come_back(self) -> None:
        terminal = self.opened()
        terminal.ask("goto 30")
        terminal.ask("goto 1")
        terminal.send(UP + UP)
        self.answers(terminal, ("", "step 30, 0206, line 6: SE V0, LIMIT"))
        terminal.send(CTRL_R + "to 1")
        self.answers(terminal, ("", "step 1, 0202, line 4: LD I, BUF"))

    def test_history_is_kept_in_a_file(self) -> None:
        terminal = self.opened()
        terminal.ask("goto 30")
        terminal.send(CTRL_D)
        self.assertEqual(terminal.wait()[0], 0)
        kept = self.folder / "state/chipbench/history"
        self.assertEqual((kept.read_text(), kept.stat().st_mode & 0o777), ("goto 30\n", 0o600))
        terminal = self.opened()
        terminal.send(UP)
        self.answers(terminal, ("", "step 30, 0206, line 6: SE V0, LIMIT"))

    def test_history_without_a_setting_is_below_the_home(self) -> None:
        for setting in ("", "not/absolute"):
            with self.subTest(setting):
                terminal = self.opened(XDG_STATE_HOME=setting)
                terminal.ask("goto 30")
                terminal.send(CTRL_D)
                terminal.wait()
                kept = self.folder / ".local/state/chipbench/history"
                self.assertEqual(kept.read_text(), "goto 30\n")
                kept.unlink()

    def test_history_that_cannot_be_written_stops_nothing(self) -> None:
        terminal = self.opened(XDG_STATE_HOME="/dev/null")
        self.answers(terminal, ("goto 30", "step 30, 0206, line 6: SE V0, LIMIT"))
        terminal.send(CTRL_D)
        self.assertEqual(terminal.wait(), (0, "\n"))

    def test_a_paste_of_several_lines(self) -> None:
        terminal = self.opened()
        # Ctrl+V makes of the next key a part of the line
        terminal.send("goto 30\x16\ngoto 1\x16\nprint I\r")
        shown = terminal.read_until("\n> ")
        self.assertTrue(shown.endswith("\nstep 30, 0206, line 6: SE V0, LIMIT\nstep 1, 0202, line 4: LD I, BUF\nI = 0 = #00 = $00000000\n> "), shown)

    def test_texts_are_no_history(self) -> None:
        terminal = self.opened()
        terminal.ask("insert 1", "1: ")
        terminal.ask("; a comment", "2: ")
        terminal.ask(".")
        terminal.send(UP)
        self.assertEqual(terminal.read_until("insert 1"), "insert 1")

    def test_completion_of_commands(self) -> None:
        terminal = self.opened()
        terminal.send("fini" + TAB)
        self.assertEqual(terminal.read_until("finish "), "finish ")
        terminal.interrupt()
        terminal.send("help backt" + TAB)
        self.assertEqual(terminal.read_until("backtrace"), "help backtrace")

    def test_completion_of_names_registers_and_codes(self) -> None:
        terminal = self.opened()
        for typed, wanted in (
            ("until ST" + TAB + "A" + TAB, "until START"),
            ("x BU" + TAB, "x BUF"),
            ("watch [BU" + TAB, "watch [BUF"),
            ("watch D" + TAB, "watch DT"),
            ("mem 0 LIM" + TAB, "mem 0 LIMIT"),
            ("explain Q" + TAB + "4", "explain Q4"),
            ("profile v" + TAB, "profile vip"),
            ("press 4 " + TAB, "press 4 at "),
        ):
            with self.subTest(typed):
                terminal.send(typed)
                terminal.read_until(wanted)
                terminal.interrupt()

    def test_ctrl_c_drops_the_line(self) -> None:
        terminal = self.opened()
        terminal.send("goto 3")
        terminal.read_until("goto 3")
        terminal.interrupt()
        self.answers(terminal, ("goto 1", "step 1, 0202, line 4: LD I, BUF"))

    def test_ctrl_c_stops_a_long_search(self) -> None:
        terminal = self.opened(WRITER)
        terminal.ask("goto 9")
        terminal.ask("break 1")
        terminal.send("watch [BUF]\r")
        terminal.read_until("Ctrl+C stops")
        began = time.monotonic()
        self.assertIn("stopped; still at step 9", terminal.interrupt())
        self.assertLess(time.monotonic() - began, 60)
        self.answers(
            terminal,
            ("break", "breakpoint line 1"),
            ("step", "step 10, 0204, line 3: JP LOOP"),
        )

    def test_ctrl_d_ends(self) -> None:
        terminal = self.opened()
        terminal.send(CTRL_D)
        self.assertEqual(terminal.wait(), (0, "\n"))

    def test_quit_ends(self) -> None:
        terminal = self.opened()
        terminal.send("quit\r")
        self.assertEqual(terminal.wait(), (0, "quit\n"))


class Beside(AtTerminal):
    """What another program does to the file, and what happens to edits that weren't saved."""

    QUESTION = "save the edits of game.asm? yes, no, or stay: "

    def test_a_file_that_was_changed_is_taken(self) -> None:
        terminal = self.opened()
        terminal.ask("goto 10")
        self.change_beside(COUNTER.replace("ADD V0, 1", "ADD V0, 2").replace("; A", "; Another"))
        self.answers(
            terminal,
            ("print V0", "game.asm changed: 2 lines; the state at step 10 differs in V0, 1 byte of the memory\nV0 = 4 = #04 = $00000100"),
            ("undo", "undone; the state at step 10 differs in V0, 1 byte of the memory"),
        )

    def test_pixels_that_differ_are_counted(self) -> None:
        terminal = self.opened(DOT)
        terminal.ask("goto 2")
        self.change_beside(DOT.replace("$11......", "$1.111..."))
        self.answers(terminal, ("keys", "game.asm changed: 1 line; the state at step 2 differs in 4 pixels\nno key events"))

    def test_a_file_with_a_fault_is_taken(self) -> None:
        terminal = self.opened()
        self.change_beside(COUNTER.replace("RET", "REM"))
        self.answers(
            terminal,
            ("keys", "game.asm changed: 1 line; line 11 has a fault: F3: unknown word; the game can't run until it is fixed\nno key events"),
        )
        self.change_beside(COUNTER)
        self.answers(terminal, ("keys", "game.asm changed: 1 line; no line has a fault any more: the state at step 0 can be shown\nno key events"))

    def test_edits_that_are_not_saved_stay(self) -> None:
        terminal = self.opened()
        terminal.ask("edit 3 START:  LD V0, 3")
        self.change_beside(COUNTER.replace("; A", "; Another"))
        told = "game.asm changed, but the unsaved edits here stay; reload reads the file, save over writes over it"
        self.answers(
            terminal,
            ("goto 1", f"{told}\nV0 00 -> 03\nstep 1, 0202, line 4: LD I, BUF"),
            ("save", "game.asm has changed since it was read: reload reads it again, save over writes over it"),
            ("reload", "2 lines taken from game.asm; the state at step 1 differs in V0"),
            ("undo", "undone; the state at step 1 differs in V0"),
            ("save", "game.asm: 12 lines written"),
        )
        self.assertEqual(self.file.read_text(), COUNTER.replace("V0, 0", "V0, 3"))

    def test_save_over_writes_over_what_changed(self) -> None:
        terminal = self.opened()
        terminal.ask("delete 1")
        self.change_beside("CLS\n")
        terminal.ask("keys")
        self.answers(terminal, ("save over", "game.asm: 11 lines written"))
        self.assertEqual(self.file.read_text(), COUNTER.split("\n", 1)[1])

    def test_another_file_is_not_overwritten(self) -> None:
        Path(self.folder, "other.asm").write_text("CLS\n")
        terminal = self.opened()
        self.answers(
            terminal,
            ("save other.asm", "other.asm already exists: save other.asm over writes over it"),
            ("save other.asm over", "other.asm: 12 lines written"),
        )

    def test_a_file_that_is_no_source(self) -> None:
        terminal = self.opened()
        self.change_beside("; " + "x" * 199 + "\n")
        told = "line 1: the line has 201 bytes; a source's line has at most 200 (O1); the lines stay as they were"
        self.answers(terminal, ("keys", f"game.asm changed: {told}\nno key events"), ("step", "step 1, 0202, line 4: LD I, BUF"))

    def test_a_file_that_is_gone(self) -> None:
        terminal = self.opened()
        self.file.unlink()
        self.answers(
            terminal,
            ("keys", "game.asm is gone: the lines stay here, and save writes them\nno key events"),
            ("keys", "no key events"),
            ("save", "game.asm: 12 lines written"),
        )

    def test_the_end_asks_for_edits_that_are_not_saved(self) -> None:
        terminal = self.opened()
        terminal.ask("delete 1")
        self.assertEqual(terminal.ask("quit", self.QUESTION), "")
        terminal.ask("stay")
        terminal.send(CTRL_D)
        terminal.read_until(self.QUESTION)
        terminal.send("yes\r")
        self.assertEqual(terminal.wait(), (0, "yes\ngame.asm: 11 lines written\n"))

    def test_the_end_without_saving(self) -> None:
        terminal = self.opened()
        terminal.ask("delete 1")
        terminal.ask("quit", self.QUESTION)
        terminal.send("no\r")
        self.assertEqual(terminal.wait(), (0, "no\n"))
        self.assertEqual(self.file.read_text(), COUNTER)

    def kept(self) -> list[str]:
        return [path.read_text() for path in self.folder.glob("state/chipbench/unsaved-*game.asm")]

    def test_a_second_ctrl_d_keeps_the_edits_in_a_file(self) -> None:
        terminal = self.opened()
        terminal.ask("delete 1")
        terminal.send(CTRL_D)
        terminal.read_until(self.QUESTION)
        terminal.send(CTRL_D)
        status, told = terminal.wait()
        self.assertEqual((status, "the edits of game.asm are in" in told), (0, True))
        self.assertEqual(self.kept(), [COUNTER.split("\n", 1)[1]])

    def test_a_terminal_that_goes_away_keeps_the_edits_in_a_file(self) -> None:
        terminal = self.opened()
        terminal.ask("delete 1")
        self.assertNotEqual(terminal.hang_up(), 0)
        self.assertEqual(self.kept(), [COUNTER.split("\n", 1)[1]])

    def test_a_signal_that_ends_the_shell_keeps_the_edits_in_a_file(self) -> None:
        terminal = self.opened()
        terminal.ask("delete 1")
        terminal.send("x")
        terminal.read_until("x")
        self.assertEqual(terminal.end_by(signal.SIGTERM), 128 + signal.SIGTERM)
        self.assertEqual(self.kept(), [COUNTER.split("\n", 1)[1]])


class Windows(AtTerminal):
    def test_a_window_of_40_columns(self) -> None:
        terminal = self.opened(DOT, columns=40)
        terminal.ask("goto 2")
        for command in ("regs", "screen", "list", "x #200 32", "dis", "help", "step"):
            with self.subTest(command):
                widths = [len(line) for line in terminal.ask(command).split("\n")]
                self.assertLessEqual(max(widths), 40)
        # a character for four pixels
        self.assertEqual(terminal.ask("screen").split("\n")[1], "▀")

    def test_a_screen_that_does_not_fit(self) -> None:
        terminal = self.opened("        HIGH\n" + DOT, columns=40)
        terminal.ask("goto 3")
        self.answers(terminal, ("screen", "the window has 40 columns, and the screen needs 64"))

    def test_a_window_that_changes(self) -> None:
        terminal = self.opened(DOT, columns=80)
        terminal.resize(30)
        self.assertEqual(terminal.ask("regs").split("\n")[1], "V0 00  V1 00  V2 00  V3 00")

    def test_colours(self) -> None:
        terminal = self.opened()
        terminal.ask("foo")
        terminal.ask("list")
        self.assertIn("\x1b[1;31mno command 'foo'", terminal.raw)
        self.assertIn("\x1b[1m=>", terminal.raw)

    def test_no_colours_with_no_color(self) -> None:
        terminal = self.opened(NO_COLOR="1")
        for command in ("foo", "list", "help", "check"):
            terminal.ask(command)
        self.assertNotRegex(terminal.raw, "\x1b\\[[0-9;]*m")

    def test_a_dumb_terminal(self) -> None:
        terminal = self.opened(WRITER, term="dumb")
        for command in ("foo", "list", "help", "screen", "until V0 = 1"):
            terminal.ask(command)
        self.assertNotIn("\x1b", terminal.raw)
        self.assertNotIn("searching", terminal.raw)

    def test_a_terminal_without_blocks(self) -> None:
        terminal = self.opened(DOT, PYTHONIOENCODING="ascii")
        terminal.ask("goto 2")
        self.assertEqual(terminal.ask("screen").split("\n")[1], "''")

    def test_control_characters_of_a_source_do_not_reach_the_terminal(self) -> None:
        self.file.write_bytes(b"CLS ; \x1b[2J\xff\n")
        terminal = self.opened("", NO_COLOR="1")
        self.assertIn("CLS ; \\x1b[2J\\xff", terminal.ask("list"))

if __name__ == "__main__":
    unittest.main()
