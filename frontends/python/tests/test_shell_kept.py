"""Nothing that was typed is lost: the lines and the key events of a shell that ends, is killed, or reads a script."""

from __future__ import annotations

import signal
import subprocess
import sys
import unittest
from pathlib import Path

sys.path.insert(0, str(Path(__file__).resolve().parent))

from at_pipe import AtPipe  # noqa: E402
from at_terminal import COUNTER, WRITER, AtTerminal  # noqa: E402
from programs import PYTHON  # noqa: E402
from terminal import PROMPT, Terminal  # noqa: E402

LINES = COUNTER.splitlines()
CTRL_D = "\x04"


def with_line(number: int, text: str) -> list[str]:
    """`COUNTER` with another text in a line."""
    return [*LINES[: number - 1], text, *LINES[number:]]


#: What is typed, what stands at the end of the screen when the shell is killed, and the lines and key events that were typed by
#: then; None where they are those of the files.
PLACES: tuple[tuple[str, str, list[str] | None, str | None], ...] = (
    ("edit 3 ; one\r", PROMPT, with_line(3, "; one"), None),
    ("edit 3 ; one\redit 4 ; two", "; two", with_line(3, "; one"), None),
    ("insert 1 ; first\r", PROMPT, ["; first", *LINES], None),
    ("insert 2\r; a\r; b\r", "4: ", [LINES[0], "; a", "; b", *LINES[1:]], None),
    ("insert 2\r; a\r; half", "; half", [LINES[0], "; a", *LINES[1:]], None),
    ("delete 1 2\r", PROMPT, LINES[2:], None),
    ("rep 1 ; by the session\r", PROMPT, with_line(1, "; by the session"), None),
    ("press 4 at 2\r", PROMPT, None, "2 4 down\n"),
    ("press 4 at 2\rrelease 4 at 9\r", PROMPT, None, "2 4 down\n9 4 up\n"),
    ("kins 3 11 down\r", PROMPT, None, "3 11 down\n"),
    ("press A\redit 1 ; both\r", PROMPT, with_line(1, "; both"), "0 10 down\n"),
    ("edit 1 ; x\rpress 4\rundo\r", PROMPT, with_line(1, "; x"), None),
    ("edit 1 ; x\rpress 4\rundo\rundo\r", PROMPT, None, None),
    ("edit 1 ; x\rundo\rredo\r", PROMPT, with_line(1, "; x"), None),
    ("edit 1 ; x\rsave\redit 1 ; y\r", PROMPT, with_line(1, "; y"), None),
    ("press 1\rkeys > k.keys\rpress 2\r", PROMPT, None, "0 1 down\n0 2 down\n"),
    ("edit 1 ; x\rprofile vip\r", PROMPT, with_line(1, "; x"), None),
    ("edit 1 ; x\rquit\r", "or stay: ", with_line(1, "; x"), None),
    ("press 5\rquit\rst", "or stay: st", None, "0 5 down\n"),
    ("edit 1 ; x\redit 2\r", "LIMIT   EQU 5", with_line(1, "; x"), None),
    ("edit 1 ; x\rhelp\r", PROMPT, with_line(1, "; x"), None),
    ("edit 3 ; \u00e9\r", PROMPT, with_line(3, "; \u00e9"), None),
)
SIGNALS = (signal.SIGKILL, signal.SIGTERM, signal.SIGHUP)


class Killed(AtTerminal):
    def kept(self, pattern: str) -> list[str]:
        """The files of unsaved edits, in the order of their names."""
        return [path.read_text() for path in sorted(self.folder.glob(f"state/chipbench/unsaved-*{pattern}"))]

    def test_a_shell_that_is_killed_loses_nothing(self) -> None:
        for number, (typed, end, lines, events) in enumerate(PLACES):
            kill = SIGNALS[number % len(SIGNALS)]
            with self.subTest(typed, signal=kill.name):
                terminal = self.opened()
                self.type_out(terminal, typed, end)
                terminal.end_by(kill)
                self.assertEqual(self.kept(".asm"), [] if lines is None else ["\n".join(lines) + "\n"])
                self.assertEqual(self.kept(".keys"), [] if events is None else [events])
                for path in self.folder.glob("state/chipbench/unsaved-*"):
                    path.unlink()
                Path(self.folder, "k.keys").unlink(missing_ok=True)

    def type_out(self, terminal: Terminal, typed: str, end: str) -> None:
        """Types line after line, each when the shell waits for it, and reads up to the last prompt."""
        *whole, last = typed.split("\r")
        for line in whole[:-1]:
            terminal.send(line + "\r")
            terminal.read_until(": " if line in ("insert 2", "quit") or line.startswith("; ") else "\n" + PROMPT)
        terminal.send(whole[-1] + "\r" + last if whole else last)
        terminal.read_until(end)

    def test_a_killed_search_loses_nothing(self) -> None:
        terminal = self.opened(WRITER)
        terminal.ask("insert 1 ; more")
        terminal.send("watch [BUF]\r")
        terminal.read_until("Ctrl+C stops")
        terminal.end_by(signal.SIGKILL)
        self.assertEqual(self.kept(".asm"), ["; more\n" + WRITER])

    def test_a_terminal_that_goes_away_inside_an_insertion(self) -> None:
        terminal = self.opened()
        terminal.ask("press 4")
        terminal.ask("insert 1", "1: ")
        terminal.ask("; a comment", "2: ")
        self.assertNotEqual(terminal.hang_up(), 0)
        self.assertEqual((self.kept(".asm"), self.kept(".keys")), (["; a comment\n" + COUNTER], ["0 4 down\n"]))

    def test_ctrl_c_keeps_the_lines_that_were_inserted(self) -> None:
        terminal = self.opened()
        terminal.ask("insert 1", "1: ")
        terminal.ask("; a comment", "2: ")
        told = "1 line inserted before line 1; the state at step 0 is as it was"
        self.assertIn(told, terminal.interrupt())
        self.assertEqual(terminal.ask("undo"), "undone; the state at step 0 is as it was")

    def test_a_line_that_is_refused_loses_none_of_the_others(self) -> None:
        terminal = self.opened()
        terminal.ask("insert 1", "1: ")
        terminal.ask("; a", "2: ")
        self.assertIn("N2: text too long", terminal.ask("; " + "x" * 200, "2: "))
        terminal.ask("; b", "3: ")
        self.assertEqual(terminal.ask("."), "2 lines inserted before line 1; the state at step 0 is as it was")

    def test_what_is_saved_or_given_up_is_kept_no_more(self) -> None:
        terminal = self.opened()
        terminal.ask("delete 1")
        self.assertEqual(len(self.kept("")), 1)
        terminal.ask("save")
        self.assertEqual(self.kept(""), [])
        terminal.ask("press 4")
        terminal.send("quit no\r")
        self.assertEqual(terminal.wait()[0], 0)
        self.assertEqual(self.kept(""), [])

    def test_the_next_shell_says_where_they_are(self) -> None:
        terminal = self.opened()
        terminal.ask("delete 1")
        terminal.ask("press 4")
        terminal.end_by(signal.SIGKILL)
        self.opened()
        kept = self.folder / "state/chipbench"
        self.assertIn(f"\nanother shell left unsaved edits in {kept / 'unsaved-game.asm'}\n", self.banner)
        self.assertIn(f"\nanother shell left unsaved key events in {kept / 'unsaved-game.keys'}\n", self.banner)

    def test_where_the_folder_of_the_history_cannot_be_written(self) -> None:
        terminal = self.opened(XDG_STATE_HOME="/dev/null")
        terminal.ask("delete 1")
        terminal.end_by(signal.SIGKILL)
        self.assertEqual(Path(self.folder, "unsaved-game.asm").read_text(), COUNTER.split("\n", 1)[1])

    def test_history_of_a_killed_shell(self) -> None:
        terminal = self.opened()
        terminal.ask("goto 30")
        terminal.end_by(signal.SIGKILL)
        self.assertEqual((self.folder / "state/chipbench/history").read_text(), "goto 30\n")


class KeyEvents(AtTerminal):
    def test_the_end_asks_for_key_events(self) -> None:
        terminal = self.opened()
        terminal.ask("press 4 at 2")
        terminal.ask("quit", "save the key events for game.keys? yes, no, or stay: ")
        terminal.send("yes\r")
        self.assertEqual(terminal.wait(), (0, "yes\ngame.keys: 1 key event written\n"))
        self.assertEqual(Path(self.folder, "game.keys").read_text(), "2 4 down\n")

    def test_the_end_asks_for_both(self) -> None:
        terminal = self.opened()
        terminal.ask("press 4 at 2")
        terminal.ask("delete 1")
        terminal.ask("quit", "save the edits of game.asm and the key events for game.keys? yes, no, or stay: ")
        terminal.send("yes\r")
        self.assertEqual(terminal.wait(), (0, "yes\ngame.asm: 11 lines written\ngame.keys: 1 key event written\n"))

    def test_another_file_is_not_overwritten(self) -> None:
        Path(self.folder, "game.keys").write_text("1 1 down\n")
        terminal = self.opened()
        terminal.ask("press 4")
        self.answers(
            terminal,
            ("save keys", "game.keys already exists: save keys game.keys over writes over it"),
            ("keys > game.keys", "game.keys already exists: save keys game.keys over writes over it"),
            ("keys game.keys", "keys shows the key events: keys > game.keys writes them to a file, press and release add some"),
            ("keys > other.keys", "other.keys: 1 key event written"),
            ("press 5", "key 5 is down from step 0 on; the state at step 0 is as it was"),
            ("save keys", "other.keys: 2 key events written"),
            ("save keys game.keys over", "game.keys: 2 key events written"),
        )

    def test_comments_of_the_file_stay(self) -> None:
        Path(self.folder, "some.keys").write_text("; the start\n10 a down ; hold\n\n30 4 up\n#32 5 down\n")
        terminal = self.opened(COUNTER, "--keys", "some.keys")
        for command in ("release A at 10", "press 6 at 20", "kdel 30 4", "save keys"):
            terminal.ask(command)
        wanted = "; the start\n10 a up ; hold\n\n20 6 down\n#32 5 down\n"
        self.assertEqual(Path(self.folder, "some.keys").read_text(), wanted)
        terminal.send(CTRL_D)
        self.assertEqual(terminal.wait()[0], 0)


class Scripts(AtPipe):
    def setUp(self) -> None:
        super().setUp()
        Path(self.folder, "game.asm").write_text(COUNTER)

    def test_a_script_that_does_not_save(self) -> None:
        status, _, errors = self.shell("edit 1 ; other\npress 4\n", "game.asm")
        folder = self.folder / "state/chipbench"
        self.assertEqual(status, 1)
        self.assertIn(f"the edits of game.asm are in {folder / 'unsaved-game.asm'}\n", errors)
        self.assertIn(f"the key events are in {folder / 'unsaved-game.keys'}\n", errors)
        self.assertEqual((folder / "unsaved-game.asm").read_text(), "\n".join(with_line(1, "; other")) + "\n")
        self.assertEqual((folder / "unsaved-game.keys").read_text(), "0 4 down\n")
        self.assertEqual(Path(self.folder, "game.asm").read_text(), COUNTER)

    def test_a_script_that_saves_or_gives_up(self) -> None:
        for script in ("edit 1 ; x\nsave\n", "press 4\nsave keys\n", "edit 1 ; y\nquit no\n", "edit 1 ; z\npress 5\nquit yes\n"):
            with self.subTest(script):
                status, _, errors = self.shell(script, "game.asm", "--keys", "game.keys") if "yes" in script else self.shell(script, "game.asm")
                self.assertEqual((status, errors, Path(self.folder, "state").exists()), (0, "", False))

    def test_a_script_whose_output_goes_away(self) -> None:
        script = "press 4\n" + "regs\n" * 10_000
        command = f"{sys.executable} -B {PYTHON / 'chipbench_shell'} --program {self.program} game.asm | head -n 1"
        environment = {"XDG_STATE_HOME": str(self.folder / "state"), "LC_ALL": "C.UTF-8", "PATH": "/usr/bin:/bin"}
        subprocess.run(["bash", "-c", command], input=script, capture_output=True, text=True, cwd=self.folder, env=environment)
        self.assertEqual((self.folder / "state/chipbench/unsaved-game.keys").read_text(), "0 4 down\n")

    def test_streams_that_are_closed(self) -> None:
        command = f"{sys.executable} -B {PYTHON / 'chipbench_shell'} --program {self.program} game.asm"
        for closed, status, said in (
            ("<&-", 3, "chipbench-shell: standard input is closed\n"),
            (">&-", 3, "chipbench-shell: standard output is closed\n"),
            ("2>&- </dev/null", 0, ""),
            ("</dev/null >/dev/full", 3, "chipbench-shell: the output can't be written: No space left on device\n"),
        ):
            with self.subTest(closed):
                done = subprocess.run(["bash", "-c", f"{command} {closed}"], capture_output=True, text=True, cwd=self.folder)
                self.assertEqual((done.returncode, done.stderr), (status, said))


if __name__ == "__main__":
    unittest.main()
