"""The shell without a terminal: commands from a pipe, statuses, and docs/SHELL.md with its tasks."""

from __future__ import annotations

import doctest
import os
import re
import subprocess
import sys
import unittest
from pathlib import Path

sys.path.insert(0, str(Path(__file__).resolve().parent))

from at_pipe import AtPipe  # noqa: E402
from programs import PYTHON, TOP  # noqa: E402

import chipbench_lines  # noqa: E402
import chipbench_shell.__main__ as start  # noqa: E402
from chipbench_shell import advice, game, key_file, session, shell, values, views  # noqa: E402

PAGE = (TOP / "docs/SHELL.md").read_text(encoding="utf-8")
#: The last line that each task of the page prints, worked by hand: key 4 is down from step 20 on. Before it a round of the loop has
#: three steps, from step 2 on. Then a round has eight: V3 becomes n at step 15 + 8n, and SCORE at step 17 + 8n.
TASKS = {
    "Stop where V3 becomes 5": "step 55, 0210, line 10: LD V0, V3",
    "Stop at a line, but only under a condition": "step 38, 020e, line 9: HIT:    ADD V3, 1",
    "Go on until a byte changes": "step 25, 0214, line 12: RET",
    "Who wrote this byte?": "[SCORE] 08 -> 09 by step 88, 0212, line 11: LD [I], V0",
    "Back to before the crash": "step 91, 020c, line 8: JP SCORE",
    "Back to the last call before the crash": "step 86, 020e, line 9: HIT:    ADD V3, 1",
    "Step over a call": "step 26, 0208, line 6: SE V3, 9",
    "Out of a subroutine": "step 26, 0208, line 6: SE V3, 9",
    "How did I get here?": "called from 0206, line 5: CALL HIT",
    "Which press makes it crash?": "step 20, 0204, line 4: LOOP:   SKNP V4",
    "Change a key and look again": "V3 = 3 = #03 = $00000011",
    "Try a fix, and take it back": "undone; the state at step 93 differs in PC, the stop",
}


def load_tests(loader: unittest.TestLoader, tests: unittest.TestSuite, pattern: str | None) -> unittest.TestSuite:
    """The docstrings of the shell are tests too; they need no program."""
    for module in (advice, chipbench_lines, game, key_file, session, shell, start, values, views):
        tests.addTests(doctest.DocTestSuite(module))
    return tests


class Tasks(AtPipe):
    """The tasks of docs/SHELL.md, each in at most four commands."""

    def test_tasks(self) -> None:
        source = re.search(r"```asm score.asm\n(.*?)```", PAGE, re.DOTALL)
        assert source is not None
        Path(self.folder, "score.asm").write_text(source[1])
        Path(self.folder, "four.keys").write_text("20 4 down\n")
        table = PAGE.partition("| Task | In GDB | Here |\n|---|---|---|\n")[2].partition("\n\n")[0]
        rows = [line.strip("| ").split(" | ") for line in table.replace("| |", "| - |").splitlines()]
        self.assertEqual([row[0] for row in rows], [*TASKS])
        for task, _, here in rows:
            commands = re.findall("`([^`]*)`", here)
            with self.subTest(task):
                self.assertTrue(1 <= len(commands) <= 4)
                script = "\n".join([*commands, "quit no"])
                status, output, errors = self.shell(script, "score.asm", "--keys", "four.keys", "--strict")
                self.assertEqual((status, errors, output.splitlines()[-1]), (0, "", TASKS[task]))

    def test_the_page_has_each_command(self) -> None:
        """The tables have the forms of the commands and the first sentences of their help."""
        groups = re.findall(r"^### (\w+)\n\n\| Command \| What it does \|\n\|---\|---\|\n(.*?)\n\n", PAGE, re.DOTALL | re.MULTILINE)
        self.assertEqual([name for name, _ in groups], [*shell.GROUPS])
        for name, table in groups:
            commands = shell.GROUPS[name].split()
            rows = table.splitlines()
            self.assertEqual(len(rows), len(commands))
            for row, command in zip(rows, commands):
                form, about = shell.form_of(getattr(shell.Shell, f"do_{command.replace('-', '_')}"))
                found = re.fullmatch(r"\| `(.*)` \| (.*) \|", row)
                assert found is not None, row
                self.assertEqual(found[1].replace("\\|", "|"), form)
                self.assertTrue(about.startswith(found[2].rstrip(".")), (about, found[2]))


class Pipes(AtPipe):
    def setUp(self) -> None:
        super().setUp()
        Path(self.folder, "game.asm").write_text("        LD V0, 5\nLOOP:   ADD V0, 1\n        JP LOOP\n")

    def test_answers_are_plain(self) -> None:
        status, output, errors = self.shell("step\n\n# a comment\nprint V0\nlist\n", "game.asm")
        self.assertEqual((status, errors), (0, ""))
        self.assertEqual(
            output.splitlines(),
            [
                "game.asm: 3 lines, no faults; help lists the commands",
                "V0 00 -> 05",
                "step 1, 0202, line 2: LOOP:   ADD V0, 1",
                "V0 = 5 = #05 = $00000101",
                "      1 0200          LD V0, 5",
                "=>    2 0202  LOOP:   ADD V0, 1",
                "      3 0204          JP LOOP",
            ],
        )

    def test_refusals_have_their_line(self) -> None:
        status, output, errors = self.shell("step\nfoo\ndel 9\nprint V0\n", "game.asm", "--quiet")
        self.assertEqual(status, 0)
        self.assertEqual(errors, "line 2: no command 'foo'; help lists the commands\nline 3: N1: no such line\n")
        self.assertEqual(output.splitlines()[-2:], ["no N1", "V0 = 5 = #05 = $00000101"])

    def test_strict_ends_at_the_first_refusal(self) -> None:
        for refused in ("foo", "del 9", "step 0", "until NONE", "goto 1000001"):
            with self.subTest(refused):
                status, output, errors = self.shell(f"step\n{refused}\nprint V0\n", "game.asm", "--strict")
                self.assertEqual((status, "line 2: " in errors, "V0 = " in output), (1, True, False))

    def test_echo(self) -> None:
        _, output, _ = self.shell("print 5\ninsert 1\n; a\n.\nquit no\n", "game.asm", "--echo", "--quiet")
        self.assertEqual(
            output.splitlines(),
            [
                "> print 5",
                "5 = 5 = #05 = $00000101",
                "> insert 1",
                "1: ; a",
                "2: .",
                "1 line inserted before line 1; the state at step 0 is as it was",
                "> quit no",
            ],
        )

    def test_edit_without_a_text_needs_a_terminal(self) -> None:
        _, _, errors = self.shell("edit 1\n", "game.asm")
        self.assertEqual(errors, "line 1: without a terminal, edit needs the new text: edit LINE TEXT\n")

    def test_settings_reach_the_run(self) -> None:
        Path(self.folder, "random.asm").write_text("        RND V0, 255\n        LD DT, V0\nLOOP:   JP LOOP\n")
        _, output, _ = self.shell("until DT = 9\nprofile\n", "random.asm", "--tape", "0a", "--rate", "3", "--profile", "vip")
        # the timer is 10 after step 1, and loses 1 where the number of steps is a multiple of 3
        self.assertEqual(output.splitlines()[1:], ["step 3, 0204, line 3: LOOP:   JP LOOP", "profile vip, rate 3, tape 0a"])

    def test_arguments_that_are_wrong(self) -> None:
        for arguments, wanted, said in (
            (("game.asm", "--image", "x"), 2, "give SOURCE or --image, not both"),
            (("--tape", "0g"), 2, "without 0x or #, as in --tape 2a07; found 0g"),
            (("--rate", "0"), 2, "rate"),
            (("--image", "none.ch8"), 3, "there is no file none.ch8"),
            (("--keys", "none.keys"), 3, "there is no file none.keys"),
            ((".",), 3, "is not a file"),
            (("game.asm", "--keys", "game.asm"), 2, "game.asm:1: expected STEP KEY down or STEP KEY up, as in `10 4 down` (KEY is"),
            (("--bad",), 2, "no option --bad; chipbench-shell --help lists the options"),
        ):
            with self.subTest(arguments):
                status, output, errors = self.shell("", *arguments)
                self.assertEqual((status, output), (wanted, ""))
                self.assertIn(said, errors)

    def test_a_source_that_does_not_open(self) -> None:
        Path(self.folder, "long.asm").write_text("; " + "x" * 199)
        status, output, errors = self.shell("", "long.asm")
        told = "chipbench-shell: long.asm:1:201: O1: the line has 201 bytes; a source's line has at most 200\n"
        self.assertEqual((status, output, errors), (2, "", told))

    def test_keys_by_letters_and_by_numbers(self) -> None:
        Path(self.folder, "letters.keys").write_text("10 a down\n  20  F  up ; comment\n30 #b down\n40 11 up\n")
        _, output, _ = self.shell("keys\n", "game.asm", "--keys", "letters.keys")
        self.assertEqual(output.splitlines()[1:], ["10 10 down", "20 15 up", "30 11 down", "40 11 up"])
        Path(self.folder, "wrong.keys").write_text("10 4 down\n10 ab down\n")
        status, _, errors = self.shell("", "game.asm", "--keys", "wrong.keys")
        self.assertEqual((status, errors[:45]), (2, "chipbench-shell: wrong.keys:2: expected STEP "))

    def test_a_program_that_is_not_there(self) -> None:
        status, _, errors = self.shell("", "game.asm", "--program", "/nowhere")
        self.assertEqual((status, errors), (2, "chipbench-shell: cannot run /nowhere: No such file or directory\n"))

    def test_who_reads_the_output_goes_away(self) -> None:
        command = f"yes regs | {sys.executable} -B {PYTHON / 'chipbench_shell'} --program {self.program} | head -n 1"
        done = subprocess.run(["bash", "-c", f"{command}; echo ${{PIPESTATUS[1]}}"], capture_output=True, text=True)
        self.assertEqual((done.stdout, done.stderr), ("the source: 0 lines, no faults; help lists the commands\n3\n", ""))

    def test_bytes_that_are_not_utf_8(self) -> None:
        command = [sys.executable, "-B", str(PYTHON / "chipbench_shell"), "--program", self.program, "game.asm"]
        done = subprocess.run(command, input=b"edit 1 ; \xff\nlist 1\nsave\n", capture_output=True, cwd=self.folder)
        self.assertEqual((done.returncode, done.stderr), (0, b""))
        self.assertEqual(Path(self.folder, "game.asm").read_bytes().split(b"\n")[0], b"; \xff")

    def test_nothing_is_written_beside(self) -> None:
        self.shell("delete 1\npress 4\nquit no\n", "game.asm")
        self.assertEqual([path.name for path in self.folder.iterdir()], ["game.asm"])

    def test_the_launcher(self) -> None:
        environment = {**os.environ, "CHIPBENCH": self.program}
        done = subprocess.run([TOP / "packaging/chipbench-shell"], input="print 1\n", capture_output=True, text=True, env=environment)
        self.assertEqual((done.returncode, done.stdout.splitlines()[1:]), (0, ["1 = 1 = #01 = $00000001"]))


if __name__ == "__main__":
    unittest.main()
