"""The module chipbench on arguments that can't be right, on benches that nobody closes, and on states as values."""

from __future__ import annotations

import copy
import gc
import os
import pickle
import subprocess
import sys
import tempfile
import time
import unittest
from pathlib import Path
from typing import Any

sys.path.insert(0, str(Path(__file__).resolve().parent))

from programs import PYTHON, NeedsProgram  # noqa: E402

import chipbench  # noqa: E402
from chipbench import Bench, ChipbenchError, Program, Refused, State  # noqa: E402
from chipbench.pipes import SelectedPipes, ThreadedPipes  # noqa: E402

COUNTER = "LD V0, 5\nLOOP: ADD V0, 1\nJP LOOP\n"


class Named(NeedsProgram):
    """Each refusal names the argument, and is of the class that Python has for it."""

    def check(self, error: type[Exception], text: str, call: Any, *arguments: Any, **named: Any) -> None:
        with self.subTest(text), self.assertRaises(error) as caught:
            call(*arguments, **named)
        self.assertEqual(str(caught.exception), text)
        self.assertIsInstance(caught.exception, ChipbenchError)

    def test_the_arguments_of_a_bench(self) -> None:
        def opened(source: Any = "CLS", **named: Any) -> None:
            Bench(source, program=self.program, **named).close()

        for error, text, source, named in (
            (ValueError, "source must be the text of a source, and 'game.asm' is the name of a file: Bench.open('game.asm') opens it", "game.asm", {}),
            (ValueError, "source must be the text of a source, and 'a/b.8o' is the name of a file: Bench.open('a/b.8o') opens it", "a/b.8o", {}),
            (TypeError, f"source must be text or bytes, not {Path('a.asm')!r} ({type(Path()).__name__}): Bench.open('a.asm') opens a file", Path("a.asm"), {}),
            (TypeError, "source must be text or bytes, not 5 (int)", 5, {}),
            (TypeError, "image must be bytes, not '00e0' (str): bytes.fromhex('00e0') makes bytes from digits", None, {"image": "00e0"}),
            (TypeError, "path must be the name of a file, not 5 (int)", None, {"path": 5}),
            (TypeError, "tape must be bytes, not '0a' (str): bytes.fromhex('0a') makes bytes from digits", "CLS", {"tape": "0a"}),
            (TypeError, "tape must be bytes, not [1] (list)", "CLS", {"tape": [1]}),
            (ValueError, "tape is empty: expected at least one byte", "CLS", {"tape": b""}),
            (ValueError, "give tape or seed, not both: a seed makes a tape", "CLS", {"tape": b"\1", "seed": 1}),
            (TypeError, "rate must be a whole number, not '10' (str)", "CLS", {"rate": "10"}),
            (TypeError, "rate must be a whole number, not 1.5 (float)", "CLS", {"rate": 1.5}),
            (TypeError, "rate must be a whole number, not True (bool)", "CLS", {"rate": True}),
            (ValueError, "rate must be a number from 0 on, not -1", "CLS", {"rate": -1}),
            (ValueError, "seed must be a whole number from 0 on, not '0x10'", "CLS", {"seed": "0x10"}),
            (TypeError, "profile must be text, not 5 (int)", "CLS", {"profile": 5}),
            (ValueError, "give one of source, path and image", "CLS", {"path": "x.asm"}),
        ):
            self.check(error, text, opened, source, **named)

    def test_what_the_program_refuses_names_the_argument(self) -> None:
        for named in ({"rate": 0}, {"rate": 1001}, {"every": 1}, {"profile": "chip"}, {"quirks": "none"}, {"tape": bytes(4097)}, {"seed": 1 << 64}):
            name = [*named][0]
            with self.subTest(name), self.assertRaisesRegex(ValueError, f"^{name}="):
                Bench("CLS", program=self.program, **named).close()
        with self.assertRaisesRegex(ValueError, "^tape is longer than"):
            Bench("CLS", program=self.program, tape=bytes(1 << 20)).close()

    def test_the_arguments_of_calls(self) -> None:
        bench = Bench(COUNTER, program=self.program)
        self.addCleanup(bench.close)
        for error, text, call, arguments, named in (
            (ValueError, "step must be a number from 0 on, not -1", bench.at, (-1,), {}),
            (TypeError, "step must be a whole number, not 1.5 (float)", bench.at, (1.5,), {}),
            (TypeError, "step must be a whole number, not '1' (str)", bench.at, ("1",), {}),
            (TypeError, "step must be a whole number, not None", bench.at, (None,), {}),
            (ValueError, "first must be a number from 0 on, not -1", list, (bench.steps(-1, 2),), {}),
            (TypeError, "line must be a whole number, not 'CLS' (str)", bench.insert, ("CLS", 1), {}),
            (TypeError, "text must be text or bytes, not 1 (int)", bench.insert, (1, 1), {}),
            (ValueError, "line must be a number from 0 on, not -1", bench.delete, (-1,), {}),
            (TypeError, "key must be a whole number, not 'A' (str)", bench.press, ("A",), {"at": 1}),
            (ValueError, "at must be a number from 0 on, not -5", bench.release, (1,), {"at": -5}),
            (TypeError, "at must be a whole number, not 0.5 (float)", bench.remove_event, (1,), {"at": 0.5}),
            (TypeError, "address must be a whole number, not 'LOOP' (str)", bench.words, (0, "LOOP", 1), {}),
            (TypeError, "pc must be a whole number, not 'LOOP' (str)", bench.first_step_at, ("LOOP",), {}),
            (TypeError, "command must be text or bytes, not 1 (int)", bench.exchange, ([1],), {}),
            (ValueError, "source must be the text of a source, and 'x.asm' is the name of a file: Bench.open('x.asm') opens it", chipbench.check, ("x.asm",), {}),
        ):
            self.check(error, text, call, *arguments, **named)

    def test_what_is_right_is_taken(self) -> None:
        class Three:
            def __index__(self) -> int:
                return 3

        with Bench(bytearray(b"LD V0, 5"), program=self.program, seed="18446744073709551615") as bench:
            self.assertEqual(bench.at(Three()).step, 3)
        with Bench("CLS ; of game.asm", program=self.program) as bench:
            self.assertEqual(bench.faults, [])

    def test_open(self) -> None:
        with tempfile.TemporaryDirectory() as folder:
            path = Path(folder, "game.asm")
            path.write_text(COUNTER)
            for name in (path, str(path)):
                with Bench.open(name, program=self.program, rate=20) as bench:
                    self.assertEqual(bench.at(1).v[0], 5)
            with self.assertRaises(FileNotFoundError):
                Bench.open(Path(folder, "none.asm"), program=self.program)

    def test_a_faulty_source_names_its_first_fault(self) -> None:
        with Bench("CLS\nLD V0, NONE\nRET 5\n", program=self.program) as bench:
            for call in (lambda: bench.at(1), lambda: bench.image, lambda: list(bench.steps(0, 3)), lambda: bench.words(0, 512, 1)):
                with self.assertRaises(Refused) as caught:
                    call()
                self.assertRegex(str(caught.exception), "^Q1: .*: line 2 has a fault: F9: undefined name$")

    def test_a_program_that_is_another_one(self) -> None:
        for program in ("/bin/cat", "/bin/ls", "/bin/true"):
            told = f"^{program} is not chipbench: `{program} --version` printed"
            for named in ({}, {"rate": 5}):
                with self.subTest(program, **named), self.assertRaisesRegex(ChipbenchError, told):
                    Bench("CLS", program=program, **named).close()
        with self.assertRaisesRegex(TypeError, r"^program must be the name of a file, not 5 \(int\)$"):
            Bench("CLS", program=5)  # type: ignore[arg-type]


class Endings(NeedsProgram):
    def is_there(self, process: int) -> bool:
        try:
            os.kill(process, 0)
        except ProcessLookupError:
            return False
        return True

    def test_a_bench_that_nobody_has_ends_its_process(self) -> None:
        bench = Bench(COUNTER, program=self.program)
        process = bench.process_id
        assert process is not None
        state = bench.at(3)
        del bench
        gc.collect()
        self.assertTrue(self.is_there(process), "a state has its bench")
        del state
        gc.collect()
        self.assertFalse(self.is_there(process))

    def test_the_end_of_python_ends_the_process(self) -> None:
        printed = self.script(f"import chipbench\nbench = chipbench.Bench('CLS', program={self.program!r})\nprint(bench.process_id)")
        self.assertFalse(self.is_there(int(printed)))

    def script(self, text: str) -> str:
        """What a script prints in a Python of its own."""
        environment = {**os.environ, "PYTHONPATH": str(PYTHON)}
        done = subprocess.run([sys.executable, "-B", "-W", "error", "-c", text], capture_output=True, text=True, env=environment)
        self.assertEqual((done.returncode, done.stderr), (0, ""))
        return done.stdout

    def test_a_forked_process_leaves_the_bench_of_its_parent(self) -> None:
        lines = (
            "import chipbench, gc, os, sys",
            f"bench = chipbench.Bench('LD V0, 5', program={self.program!r})",
            "child = os.fork()",
            "if child == 0: del bench; gc.collect(); sys.exit(0)",
            "os.waitpid(child, 0)",
            "print(bench.at(1).v[0])",
        )
        self.assertEqual(self.script("\n".join(lines)), "5\n")


class Pipes(NeedsProgram):
    """Both ways to wait for a program give the same answers: by select, and by threads, as on Windows."""

    def opened(self, pipes: Any, *words: str) -> Program:
        program = Program([self.program, *(words or ("debug",))], pipes=pipes)
        self.addCleanup(program.close)
        return program

    def test_the_same_answers(self) -> None:
        commands = [b"ins 1 LOOP: ADD V0, 1", b"ins 2 JP LOOP", b"image", *(b"regs %d" % step for step in range(3000)), b"mem 0 0 4096"]
        by_select, by_threads = (self.opened(pipes).exchange(commands) for pipes in (SelectedPipes, ThreadedPipes))
        self.assertEqual(by_select, by_threads)

    def test_an_end_is_told(self) -> None:
        for pipes in (SelectedPipes, ThreadedPipes):
            with self.subTest(pipes), self.assertRaises(chipbench.Ended) as caught:
                self.opened(pipes, "debug", "/nowhere").exchange([b"image"])
            self.assertIn("/nowhere", caught.exception.text)

    def test_a_program_that_does_not_answer_is_ended(self) -> None:
        for pipes in (SelectedPipes, ThreadedPipes):
            began = time.monotonic()
            program = Program(["/bin/sleep", "1000"], pipes=pipes)
            with self.subTest(pipes), self.assertRaisesRegex(chipbench.Ended, "gave no answer in time"):
                program.exchange([b"x" * 1_000_000], seconds=0.2)
            self.assertLess(time.monotonic() - began, 60)


class States(NeedsProgram):
    def bench(self, source: str, **named: Any) -> Bench:
        bench = Bench(source, program=self.program, **named)
        self.addCleanup(bench.close)
        return bench

    def test_states_are_equal_where_all_of_them_is(self) -> None:
        first, second, other = self.bench(COUNTER), self.bench("; the same\n" + COUNTER), self.bench(COUNTER.replace("5", "6"))
        self.assertEqual(first.at(4), second.at(4))
        self.assertEqual(hash(first.at(4)), hash(second.at(4)))
        self.assertNotEqual(first.at(4), first.at(5))
        self.assertNotEqual(first.at(4), other.at(4))
        self.assertNotEqual(first.at(4), "a text")

    def test_a_pixel_or_a_byte_makes_states_differ(self) -> None:
        # the registers are the same, and one byte of the sprite, or of the memory behind it, is another
        drawn = "LD I, DOT\nDRW V0, V0, 1\nEXIT\nDOT: DB {}, {}\n"
        states = [self.bench(drawn.format(*pair)).at(2) for pair in ((128, 0), (64, 0), (128, 1))]
        self.assertEqual(len({hash(state) for state in states}), 1)
        for place, state in enumerate(states):
            self.assertEqual([state == other for other in states], [place == number for number in range(3)])

    def test_a_state_that_is_pickled_or_copied(self) -> None:
        bench = self.bench("LD I, 0\nDRW V0, V0, 5\nHERE: JP HERE\n")
        state = bench.at(2)
        for made in (pickle.loads(pickle.dumps(state)), copy.copy(state), copy.deepcopy(state)):
            self.assertIsInstance(made, State)
            self.assertEqual(made, state)
        kept = pickle.loads(pickle.dumps(bench.at(2)))
        bench.close()
        self.assertEqual((kept.screen.rows[0][:4], len(kept.memory), kept.pc), ("####", 4096, 0x204))

    def test_a_state_prints_as_the_shell_shows_it(self) -> None:
        source = "LD V1, 18\nLD I, DATA\nCALL DOWN\nDOWN: LD DT, V1\nDATA: EXIT\n"
        text = str(self.bench(source).at(4))
        self.assertEqual(
            text.split("\n"),
            [
                "step 4",
                "V0 00  V1 12  V2 00  V3 00  V4 00  V5 00  V6 00  V7 00",
                "V8 00  V9 00  VA 00  VB 00  VC 00  VD 00  VE 00  VF 00",
                "PC 0208  I 0208  DT 12  ST 00  random bytes used 0  low size",
                "call stack 0206",
                "flags 00 00 00 00 00 00 00 00",
            ],
        )
        self.assertTrue(str(self.bench("EXIT").at(1)).startswith("step 1, stopped: S1\n"))


if __name__ == "__main__":
    unittest.main()
