"""The module chipbench: what it reads and edits, and what it does where the program refuses or dies."""

from __future__ import annotations

import doctest
import os
import re
import signal
import subprocess
import sys
import tempfile
import unittest
import unittest.mock
from pathlib import Path
from typing import Any

sys.path.insert(0, str(Path(__file__).resolve().parent))

from programs import EXAMPLES, PYTHON, TOP, NeedsProgram, NeedsWords, has_words  # noqa: E402

import chipbench  # noqa: E402
from chipbench import Bench, ChipbenchError, Ended, Refused, Screen, Stale  # noqa: E402

COUNTER = "LD V0, 5\nLOOP: ADD V0, 1\nJP LOOP\n"


def load_tests(loader: unittest.TestLoader, tests: unittest.TestSuite, pattern: str | None) -> unittest.TestSuite:
    """The docstrings of the module are tests too, where the program has all words."""
    if has_words():
        for module in (chipbench, chipbench.bench, chipbench.errors, chipbench.program, chipbench.sources, chipbench.states):
            tests.addTests(doctest.DocTestSuite(module, extraglobs={"Bench": Bench}))
    return tests


class Opened(NeedsProgram):
    def bench(self, source: Any = COUNTER, **options: Any) -> Bench:
        bench = Bench(source, program=self.program, **options)
        self.addCleanup(bench.close)
        return bench

    def refused(self, code: str, call: Any, *arguments: Any, **named: Any) -> Refused:
        with self.assertRaises(Refused) as caught:
            call(*arguments, **named)
        self.assertEqual(caught.exception.code, code)
        return caught.exception


class Edits(Opened):
    def test_lines_are_inserted_replaced_and_deleted(self) -> None:
        bench = self.bench()
        bench.insert(2, "CLS")
        bench.replace(1, "LD V0, 9")
        bench.delete(3)
        self.assertEqual(bench.source, "LD V0, 9\nCLS\nJP LOOP\n")
        self.assertEqual([(fault.line, fault.code) for fault in bench.faults], [(3, "F9")])
        self.refused("Q1", lambda: bench.image)

    def test_text_is_kept_as_it_is(self) -> None:
        bench = self.bench("")
        texts: list[str | bytes] = ["", "  CLS  ", "; ; ü", b"; \xff\x00"]
        for text in texts:
            bench.insert(len(bench.lines) + 1, text)
        shown = [line.text.encode("utf-8", "surrogateescape") for line in bench.listing]
        self.assertEqual(shown, [b"", b"  CLS  ", "; ; ü".encode(), b"; \xff\x00"])
        self.assertEqual(bench.lines, shown)

    def test_refused_edits_change_nothing(self) -> None:
        bench = self.bench()
        self.refused("N1", bench.replace, 4, "CLS")
        self.refused("N1", bench.delete, 0)
        self.refused("N2", bench.insert, 1, "; " + "x" * 199)
        self.refused("C2", bench.insert, 1, "; " + "x" * 999)
        for text in ("CLS\nRET", "CLS\rRET", "CLS\r"):
            self.refused("N4", bench.insert, 1, text)
        self.assertEqual(bench.source, COUNTER)
        self.assertEqual(bench.edition, 0)

    def test_key_events(self) -> None:
        bench = self.bench("WAIT: LD V1, K\nJP WAIT")
        bench.press(5, at=2)
        self.refused("N7", bench.release, 5, at=2)
        self.assertEqual(bench.at(4).v[1], 5)
        bench.change_event(5, at=2, down=False)
        self.assertEqual(bench.at(4).v[1], 0)
        bench.remove_event(5, at=2)
        self.refused("N8", bench.remove_event, 5, at=2)
        self.assertEqual(bench.events, {})


class Answers(Opened):
    def test_the_image_and_the_symbols(self) -> None:
        bench = self.bench()
        self.assertEqual(bench.image.hex(), "600570011202")
        self.assertEqual(bench.symbols, {"LOOP": chipbench.Symbol(514, 2)})

    def test_the_listing(self) -> None:
        source = "SIZE EQU 3\nIFDEF DEBUG\nCLS\nENDIF\nLD V1, NONE\nDA 'seven b'\nLD V0, SIZE"
        lines = self.bench(source).listing
        self.assertEqual([line.address for line in lines], [512, 512, None, 512, 512, 514, 522])
        self.assertEqual((lines[0].value, lines[4].fault, lines[5].more), (3, "F9", True))
        self.assertEqual((lines[5].code, lines[6].code.hex()), (b"seven ", "6003"))
        self.assertEqual("\n".join(line.text for line in lines), source)

    def test_a_state(self) -> None:
        source = "HIGH\nLD V0, 7\nLD R, V0\nLD DT, V0\nCALL DOWN\nDOWN: RND V1, 255\nLD I, DOWN\nEXIT"
        state = self.bench(source).at(8)
        self.assertEqual((state.v[0], state.pc, state.i, state.call_stack), (7, 0x20E, 0x20A, (0x20A,)))
        self.assertEqual((state.delay_timer, state.sound_timer, state.flags[0]), (7, 0, 7))
        self.assertEqual((state.random_bytes_used, state.is_high, state.stopped), (1, True, "S1"))

    def test_the_screen_and_the_memory(self) -> None:
        state = self.bench("LD V0, 60\nLD F, V2\nDRW V0, V2, 5").at(3)
        self.assertEqual([row[60:] for row in state.screen.rows[:6]], ["####", "#..#", "#..#", "#..#", "####", "...."])
        self.assertEqual(str(state.screen).split("\n")[0], " " * 60 + "█▀▀█")
        self.assertEqual((len(state.memory), state.memory[:5].hex()), (4096, "f0909090f0"))

    def test_a_state_that_is_stale_says_so(self) -> None:
        bench = self.bench()
        before, seen = bench.at(1), bench.at(1)
        self.assertEqual(seen.memory[512], 0x60)
        bench.insert(1, "CLS")
        self.assertEqual(seen.memory[512], 0x60)
        with self.assertRaises(Stale):
            before.memory

    def test_steps(self) -> None:
        bench = self.bench()
        self.assertEqual([state.step for state in bench.steps(3, 1203)], list(range(3, 1203)))
        self.assertEqual([state.v[0] for state in bench.steps(3, 6)], [6, 7, 7])
        self.assertEqual(list(bench.steps(5, 5)), [])
        self.refused("Q2", list, bench.steps(1_000_000, 1_000_002))

    def test_the_first_step_at_an_address(self) -> None:
        bench = self.bench("LD V0, 3\nLOOP: ADD V0, 255\nSE V0, 0\nJP LOOP\nEXIT")
        self.assertEqual(bench.first_step_at(520), 9)
        self.assertEqual(bench.at(9).pc, 520)
        self.assertIsNone(bench.first_step_at(600))
        self.assertEqual(self.bench("HALT: JP HALT").first_step_at(600, limit=3000), None)

    def test_the_words_of_the_memory(self) -> None:
        self.assertEqual(str(self.bench().words(0, 512, 2)[1]), "Word(address=514, word=28673, text='ADD V0, #01')")

    def test_the_options(self) -> None:
        bench = self.bench("RND V0, 255\nRND V1, 255\nOR V1, V0", tape=bytes([1, 6]), profile=None, rate=7, every=2000)
        self.assertEqual(bench.at(3).v[:2], (1, 7))

    def test_the_examples(self) -> None:
        for script in sorted(EXAMPLES.glob("*.script")):
            tape = b"\x25" if script.stem == "guess" else None
            bench = self.bench(None, path=script.with_suffix(".asm"), tape=tape)
            answers = b"".join(bench.exchange(line for line in script.read_bytes().splitlines() if line.strip()))
            self.assertEqual(answers, script.with_suffix(".out").read_bytes(), script.name)

    def test_the_example_of_the_readme(self) -> None:
        found = re.search(r"```python\n(.*?)```", (PYTHON / "README.md").read_text(encoding="utf-8"), re.DOTALL)
        assert found is not None
        names = {**os.environ, "PYTHONPATH": str(PYTHON), "PYTHONIOENCODING": "utf-8", "CHIPBENCH": os.path.abspath(self.program)}
        ran = subprocess.run([sys.executable, "-B", "-c", found[1]], cwd=TOP, env=names, capture_output=True, check=True)
        lines = ran.stdout.decode().split("\n")
        self.assertEqual((lines[0], lines[3].strip()), ("1 S1", "▄██"))

    def test_sources_as_bytes(self) -> None:
        for source in (b"CLS\r\nRET\r\n", b"CLS\rDB 1", b"CLS\r", b"CLS\r\r\n", b"\n\n", b"", b"; \xff"):
            bench = self.bench(source)
            plain = [line.text.encode("utf-8", "surrogateescape") for line in bench.listing]
            self.assertEqual(plain, chipbench.split_lines(source), source)


class Endings(Opened):
    def test_a_source_that_does_not_open(self) -> None:
        self.refused("O1", Bench, "; " + "x" * 200, program=self.program)
        self.refused("O2", Bench, "\n" * 4001, program=self.program)

    def test_a_program_that_dies_is_restarted_with_all_edits(self) -> None:
        bench = self.bench()
        bench.insert(1, "LD V3, 3")
        bench.press(5, at=2)
        process = bench.process_id
        assert process is not None
        os.kill(process, signal.SIGKILL)
        with self.assertRaises(Ended) as caught:
            bench.at(1)
        self.assertEqual(caught.exception.status, -signal.SIGKILL)
        self.assertEqual(bench.at(1).v[3], 3)
        self.refused("N7", bench.press, 5, at=2)
        self.assertNotEqual(bench.process_id, process)

    def test_a_long_session_is_restarted_in_time(self) -> None:
        for limit, value in (("SCRIPT_LINES", 1000), ("SCRIPT_BYTES", 14_000)):
            bench = self.bench()
            bench.press(5, at=2)
            process = bench.process_id
            with unittest.mock.patch.object(chipbench.bench, limit, value):
                for number in range(4):
                    bench.exchange([b"rep 1 LD V0, %d" % number] * 300)
                self.assertNotEqual(bench.process_id, process)
                self.assertEqual(bench.at(1).v[0], 3)
                self.refused("N7", bench.press, 5, at=2)
                if limit == "SCRIPT_LINES":
                    self.assertEqual(len(bench.exchange([b"image"] * 2500)), 2500)

    def test_answers_over_their_bound(self) -> None:
        program = chipbench.Program([self.program, "debug"], most_bytes=10_000)
        self.addCleanup(program.close)
        self.assertEqual(len(program.exchange([b"regs 0"] * 40)), 40)
        with self.assertRaises(chipbench.TooMuch):
            program.exchange([b"mem 0 0 4096"] * 2)

    def test_commands_without_an_answer_are_not_given(self) -> None:
        bench = self.bench()
        for command in ("", "  ", "image\nimage", "\r"):
            with self.assertRaises(ValueError):
                bench.exchange([command])
        self.assertEqual(bench.ask("image"), "600570011202\n")

    def test_a_closed_bench_refuses(self) -> None:
        bench = self.bench()
        bench.close()
        with self.assertRaisesRegex(ChipbenchError, "closed"):
            bench.image

    def test_a_program_that_is_not_there(self) -> None:
        with self.assertRaisesRegex(ChipbenchError, "cannot run /nowhere"):
            Bench("CLS", program="/nowhere")

    def test_no_file_is_left(self) -> None:
        with tempfile.TemporaryDirectory() as folder, unittest.mock.patch.object(tempfile, "tempdir", folder):
            self.bench().close()
            self.assertEqual(os.listdir(folder), [])

    def test_two_sources_are_refused(self) -> None:
        with self.assertRaises(ValueError):
            Bench("CLS", path="x.asm", program=self.program)


class Words(NeedsWords):
    def test_an_image_becomes_a_source(self) -> None:
        """Whatever it has: words that are not instructions, an odd number of bytes, none, as many as there can be."""
        for image in (bytes.fromhex("00e0a21ef333fffe"), b"\x60\x05\x07", b"", bytes(3584)):
            with Bench(image=image, program=self.program) as bench:
                self.assertEqual(bench.image, image)
                self.assertEqual(bench.source, chipbench.disassemble(image, self.program))

    def test_an_image_that_is_too_long(self) -> None:
        with self.assertRaisesRegex(Ended, "it has over 3584 bytes"):
            Bench(image=bytes(3585), program=self.program)

    def test_places_of_faults(self) -> None:
        faults = chipbench.check("        LD V0, COLUMN\nCLS\n\tDB 1, NONE ; x\n", self.program)
        self.assertEqual([(fault.line, fault.code, fault.start, fault.end) for fault in faults], [(1, "F9", 15, 21), (3, "F9", 7, 11)])

    def test_no_fault(self) -> None:
        self.assertEqual(chipbench.check(COUNTER, self.program), [])

    def test_a_warning(self) -> None:
        warnings = chipbench.check("CLS\nHERE: JP HERE\nUNUSED EQU 5\n", self.program)
        self.assertEqual([(warning.line, warning.code, warning.is_warning) for warning in warnings], [(3, "W2", True)])

    def test_a_warning_of_random_bytes(self) -> None:
        """RND has a warning where neither a tape nor a seed is given."""
        for options, wanted in (({}, ["W9"]), ({"seed": 0}, []), ({"seed": "7"}, []), ({"tape": b"\x2a"}, []), ({"seed": ""}, ["W9"])):
            warnings = chipbench.check("HERE: RND V0, 7\nJP HERE\n", self.program, **options)
            self.assertEqual([warning.code for warning in warnings], wanted, options)

    def test_a_check_of_what_does_not_open(self) -> None:
        with self.assertRaises(Refused):
            chipbench.check("\n" * 4001, self.program)

    def test_the_screen_is_the_picture(self) -> None:
        for name in ("bounce", "profiles"):
            place = EXAMPLES / f"{name}.asm"
            words = [self.program, "picture", str(place), "--steps", "200"]
            picture = subprocess.run(words, capture_output=True, check=True).stdout.decode()
            with Bench(path=place, program=self.program) as bench:
                self.assertEqual(str(bench.at(200).screen) + "\n", picture)

    def test_refusals_have_sentences(self) -> None:
        with Bench("CLS", program=self.program) as bench:
            with self.assertRaisesRegex(Refused, "N1: no such line"):
                bench.delete(9)


class AnswerEnds(unittest.TestCase):
    """Where an answer ends, however it is cut."""

    def test_cut_at_every_byte(self) -> None:
        rows = [
            (b"image", b"6005\n"),
            (b"mem 0 0 0", b"\n"),
            (b"regs 0", b"v 00\npc 0200\nflags stack\n"),
            (b"regs 0", b"no Q1\n"),
            (b"list", b".\n"),
            (b"list", b"   1 0200              .\n.\n"),
            (b"list", b"   1 0200              no\n   2 0200              .\n.\n"),
            (b"screen 0", b"low\n.\n"),
            (b"syms", b"NO 5 1\n.\n"),
            (b"ins 1 list", b"ok\n"),
            (b" image", b"no C1\n"),
        ]
        for command, answer in rows:
            whole = b"ok\n" + answer + b"next\n"
            for cut in range(len(whole) + 1):
                found = chipbench.answer_end(command, bytearray(whole[:cut]), 3)
                self.assertEqual(found, 3 + len(answer) if cut >= 3 + len(answer) else -1, (command, cut))


class WithoutProgram(unittest.TestCase):
    def test_what_check_prints(self) -> None:
        printed = (
            b'{"line":1,"column":1,"end":4,"code":"F3","message":"unknown word","help":["did you mean CLS?"],"file":"-"}\n'
            b'{"line":2,"column":4,"end":4,"code":"F4","message":"operands","help":[],"file":"-"}\n'
            b'{"line":9,"column":2,"end":3,"code":"W2","message":"A is never used","help":["a","note: b"],"file":"-"}\n'
        )
        faults = chipbench.read_check(printed)
        self.assertEqual([(fault.line, fault.start, fault.end, fault.help, fault.is_warning) for fault in faults],
                         [(1, 0, 3, "help: did you mean CLS?", False), (2, 3, 3, "", False), (9, 1, 2, "help: a\nnote: b", True)])

    def test_the_screen(self) -> None:
        screen = Screen(True, {0: 1, 63: 1 << 127})
        self.assertEqual((screen.rows[0][-1], screen.rows[63][0], len(screen.rows)), ("#", "#", 64))
        self.assertEqual(screen.draw(" '.:").split("\n")[31], "." + " " * 127)
        with self.assertRaises(IndexError):
            screen.is_lit(128, 0)


if __name__ == "__main__":
    unittest.main()
