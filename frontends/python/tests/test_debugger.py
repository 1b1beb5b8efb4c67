"""The debug adapter by messages of the tests' own, each checked against the types of the protocol."""

from __future__ import annotations

import base64
import contextlib
import doctest
import json
import os
import random
import shutil
import signal
import sys
import tempfile
import time
import unittest
from pathlib import Path
from typing import Any

sys.path.insert(0, str(Path(__file__).resolve().parent))

from debugging import Debugger  # noqa: E402
from programs import PYTHON, NeedsProgram  # noqa: E402
from protocol import Protocol  # noqa: E402

from chipbench_dap import search, variables  # noqa: E402
from chipbench_dap.expressions import read_condition, read_subject, read_sum  # noqa: E402
from chipbench_dap.requests import HANDLERS  # noqa: E402
from chipbench_shell.values import Mistake  # noqa: E402

# The source of the tasks in docs/SHELL.md. Before key 4 is held, from step 20 on, a turn of the loop has 3 steps, and the loop
# begins at step 2; then it has 8. So the Nth turn with the key is at HIT at step 22 + 8 (N - 1), V3 is N from the step after
# that on, and the byte SCORE from three steps after that on. V3 is 9 at step 87, and the machine stops at step 93.
SCORE = """; Key 4 scores. The score is in V3, and in the byte SCORE.
        LD V4, 4
        LD I, SCORE
LOOP:   SKNP V4
        CALL HIT
        SE V3, 9
        JP LOOP
        JP SCORE
HIT:    ADD V3, 1
        LD V0, V3
        LD [I], V0
        RET
SCORE:  DB 0, 0
"""
KEYS = "20 4 down\n"
ENDLESS = "LOOP: ADD V0, 1\nJP LOOP\n"
PROTOCOL = Protocol()


def load_tests(loader: unittest.TestLoader, tests: unittest.TestSuite, pattern: str | None) -> unittest.TestSuite:
    """The docstrings of the adapter are tests too; they need no program."""
    for module in (search, variables):
        tests.addTests(doctest.DocTestSuite(module))
    return tests


class Debugged(NeedsProgram):
    def setUp(self) -> None:
        super().setUp()
        folder = tempfile.TemporaryDirectory(prefix="chipbench-dap-")
        self.addCleanup(folder.cleanup)
        self.folder = Path(folder.name)

    def file(self, name: str, content: str) -> Path:
        path = self.folder / name
        path.write_text(content, encoding="utf-8")
        return path

    def debugger(self) -> Debugger:
        debugger = Debugger(self.program)
        self.addCleanup(debugger.kill)
        self.addCleanup(self.check_messages, debugger)
        return debugger

    def check_messages(self, debugger: Debugger) -> None:
        """All that the adapter has said is what the protocol has, with numbers from 1 on."""
        self.assertEqual([fault for message in debugger.all for fault in PROTOCOL.message_faults(message)], [])
        self.assertEqual([message["seq"] for message in debugger.all], list(range(1, len(debugger.all) + 1)))

    def launched(self, source: str = SCORE, keys: str | None = KEYS, **arguments: Any) -> Debugger:
        """A session that stands at the start of a source."""
        debugger = self.debugger()
        if keys is not None:
            arguments["keys"] = str(self.file("four.keys", keys))
        debugger.launch(self.file("score.asm", source), **arguments)
        debugger.configured()
        return debugger


class Tasks(Debugged):
    """The ten tasks of docs/SHELL.md, forward and back."""

    def test_stop_where_v3_becomes_5(self) -> None:
        debugger = self.launched()
        debugger.watches({"dataId": "V3", "condition": "V3 = 5"})
        stopped = debugger.go("continue")
        self.assertEqual((stopped["reason"], debugger.step()), ("data breakpoint", 55))
        self.assertIn("V3 04 -> 05 by step 54, 020e, line 9", stopped["text"])

    def test_stop_at_a_line_under_a_condition(self) -> None:
        debugger = self.launched()
        debugger.stops({"line": 9, "condition": "V3 = 2"})
        self.assertEqual((debugger.go("continue")["reason"], debugger.step(), debugger.line()), ("breakpoint", 38, 9))

    def test_go_on_until_a_byte_changes(self) -> None:
        debugger = self.launched()
        named = debugger.ask("dataBreakpointInfo", {"name": "SCORE"})["dataId"]
        debugger.watches(named)
        self.assertIn("[SCORE] 00 -> 01", debugger.go("continue")["text"])
        self.assertEqual((debugger.step(), debugger.line()), (25, 12))

    def test_who_wrote_this_byte(self) -> None:
        debugger = self.launched()
        debugger.go("continue")
        self.assertIn("[SCORE] 08 -> 09 by step 88, 0212, line 11", debugger.value("who [SCORE]", "repl"))
        debugger.watches("[SCORE]")
        debugger.go("reverseContinue")
        self.assertEqual((debugger.step(), debugger.line()), (88, 11))

    def test_back_to_before_the_crash(self) -> None:
        debugger = self.launched()
        self.assertEqual(debugger.go("continue")["reason"], "exception")
        self.assertEqual(debugger.step(), 93)
        debugger.go("stepBack")
        debugger.go("stepBack")
        self.assertEqual((debugger.step(), debugger.line()), (91, 8))

    def test_back_to_the_last_call_before_the_crash(self) -> None:
        debugger = self.launched()
        debugger.go("continue")
        debugger.ask("setFunctionBreakpoints", {"breakpoints": [{"name": "hit"}]})
        self.assertEqual((debugger.go("reverseContinue")["reason"], debugger.step()), ("function breakpoint", 86))

    def test_step_over_a_call(self) -> None:
        debugger = self.launched()
        debugger.stops(5)
        debugger.go("continue")
        debugger.go("next")
        self.assertEqual((debugger.step(), debugger.line()), (26, 6))
        debugger.go("stepBack")
        self.assertEqual((debugger.step(), debugger.line()), (21, 5))

    def test_out_of_a_subroutine(self) -> None:
        debugger = self.launched()
        debugger.stops(9)
        debugger.go("continue")
        debugger.go("stepOut")
        self.assertEqual((debugger.step(), debugger.line()), (26, 6))

    def test_how_did_i_get_here(self) -> None:
        debugger = self.launched()
        debugger.stops(9)
        debugger.go("continue")
        frames = debugger.ask("stackTrace", {"threadId": 1})["stackFrames"]
        self.assertEqual([(frame["name"], frame["line"]) for frame in frames], [("HIT", 9), ("the program", 5)])

    def test_change_a_key_and_look_again(self) -> None:
        debugger = self.launched()
        debugger.value("goto 60", "repl")
        self.assertEqual(debugger.value("V3"), "5 = #05")
        self.assertIn("key 4 is up from step 40 on", debugger.value("release 4 at 40", "repl"))
        # the third turn has begun at step 36
        self.assertEqual((debugger.value("V3"), debugger.step()), ("3 = #03", 60))
        self.assertEqual(debugger.value("keys", "repl"), "20 4 down\n40 4 up")

    def test_try_a_fix_and_take_it_back(self) -> None:
        debugger = self.launched()
        debugger.value("goto 93", "repl")
        path = self.file("score.asm", SCORE.replace("JP SCORE", "JP LOOP "))
        # docs/DEBUGGER.md has this line
        self.assertEqual(debugger.output(), "score.asm changed: 1 line; the state at step 93 differs in PC, the stop\n")
        self.assertEqual(debugger.step(), 93)
        self.assertEqual(debugger.answer("exceptionInfo", {"threadId": 1})["success"], False)
        path.write_text(SCORE, encoding="utf-8")
        self.assertIn("score.asm changed: 1 line", debugger.output())
        self.assertEqual(debugger.ask("exceptionInfo", {"threadId": 1})["exceptionId"], "S2")


class Breakpoints(Debugged):
    def steps(self, debugger: Debugger, command: str, count: int) -> list[int]:
        """Where the machine stops, by so many moves."""
        found = []
        for _ in range(count):
            debugger.go(command)
            found.append(debugger.step())
        return found

    def test_lines_move_to_the_next_code(self) -> None:
        debugger = self.launched()
        found = debugger.stops(1, 9, 99)
        self.assertEqual([point.get("line") for point in found], [2, 9, None])
        self.assertEqual([point["verified"] for point in found], [True, True, False])
        self.assertIn("line 99 nor any line after it has code", found[2]["message"])

    def test_hit_counts_count_from_step_0_in_both_directions(self) -> None:
        debugger = self.launched()
        debugger.stops({"line": 9, "hitCondition": "3"})
        debugger.go("continue")
        self.assertEqual(debugger.step(), 38)
        debugger.stops({"line": 9, "hitCondition": "% 4"})
        self.assertEqual(self.steps(debugger, "continue", 3), [46, 78, 93])
        self.assertEqual(self.steps(debugger, "reverseContinue", 3), [78, 46, 0])
        debugger.stops({"line": 9, "hitCondition": ">= 8"})
        self.assertEqual(self.steps(debugger, "continue", 3), [78, 86, 93])

    def test_both_sides_of_a_condition_are_worked_out_at_each_step(self) -> None:
        # V0 = V3 in front of line 9: at the first turn both are 0, and then V0 is what V3 was set to
        debugger = self.launched()
        debugger.stops({"line": 11, "condition": "V0 = V3 and [SCORE] + 1 = V3"})
        self.assertEqual(self.steps(debugger, "continue", 2), [24, 32])
        debugger.stops({"line": 9, "condition": "V3 > V0 + 0 or V3 = 2"})
        self.assertEqual(self.steps(debugger, "continue", 2), [38, 93])

    def test_a_condition_that_cannot_be_read_says_why(self) -> None:
        debugger = self.launched()
        found = debugger.stops({"line": 9, "condition": "V3 = NONE"}, {"line": 10, "condition": "V3 = 1 and V4 = 1 or V5 = 1"},
                               {"line": 11, "hitCondition": "often"})
        self.assertEqual([point["verified"] for point in found], [False] * 3)
        for point, text in zip(found, ("no name NONE", "`and` and `or`", "not a hit count")):
            self.assertIn(text, point["message"])

    def test_instructions_and_their_offsets(self) -> None:
        debugger = self.launched()
        points = [{"instructionReference": "0x0210", "offset": 2}]
        found = debugger.ask("setInstructionBreakpoints", {"breakpoints": points})["breakpoints"]
        self.assertEqual((found[0]["verified"], found[0]["line"]), (True, 11))
        self.assertEqual((debugger.go("continue")["reason"], debugger.step()), ("instruction breakpoint", 24))

    def test_labels_alone_are_functions(self) -> None:
        debugger = self.launched(SCORE + "FIVE EQU 5\n")
        found = debugger.ask("setFunctionBreakpoints", {"breakpoints": [{"name": "FIVE"}, {"name": "HITT"}, {"name": "HIT"}]})
        self.assertEqual([point["verified"] for point in found["breakpoints"]], [False, False, True])
        self.assertIn("did you mean HIT", found["breakpoints"][1]["message"])

    def test_data_of_each_kind(self) -> None:
        draws = "LD I, ROW\nLD V1, 3\nDRW V1, V1, 1\nLD V2, 9\nLD [I], V2\nLD DT, V2\nHALT: JP HALT\nROW: DB #F0, 0, 0\n"
        debugger = self.launched(draws, None)
        # each step changes what its line names: the step after it is where that is seen
        for subject, step in (("V1", 2), ("I", 1), ("PIXEL(3, 3)", 3), ("PIXEL(4, 3)", 3), ("ROW", 5),
                              ("[ROW + 1 .. ROW + 2]", 5), ("DT", 6), ("V2 + V1", 2)):
            debugger.value("goto 0", "repl")
            debugger.event("stopped")
            self.assertTrue(debugger.watches(subject)[0]["verified"])
            self.assertEqual((debugger.go("continue")["reason"], debugger.step()), ("data breakpoint", step), subject)

    def test_data_of_what_is_shown(self) -> None:
        debugger = self.launched()
        names = debugger.ask("variables", {"variablesReference": 4})["variables"]
        score = next(one for one in names if one["name"] == "SCORE")
        info = debugger.ask("dataBreakpointInfo", {"name": "[1]", "variablesReference": score["variablesReference"]})
        self.assertEqual((info["dataId"], info["accessTypes"]), ("[SCORE + 1]", ["write"]))
        self.assertIsNone(debugger.ask("dataBreakpointInfo", {"name": "machine"})["dataId"])
        self.assertIsNone(debugger.ask("dataBreakpointInfo", {"name": "05", "variablesReference": 5})["dataId"])

    def test_log_points_say_what_they_have_to(self) -> None:
        debugger = self.launched()
        debugger.stops({"line": 11, "logMessage": "the score is {V3}, the byte {[SCORE]}"})
        debugger.ask("continue", {"threadId": 1})
        self.assertEqual(debugger.output(), "step 24: the score is 1, the byte 0\n")
        self.assertEqual(debugger.output(), "step 32: the score is 2, the byte 1\n")
        self.assertEqual(debugger.event("stopped")["reason"], "exception")

    def test_a_log_point_speaks_once_of_each_step(self) -> None:
        debugger = self.launched()
        debugger.stops(11, {"line": 11, "logMessage": "{V3}"}, {"line": 12, "hitCondition": "20"})
        told = []
        for _ in range(3):
            debugger.ask("continue", {"threadId": 1})
            told.append(debugger.output())
            debugger.event("stopped")
        self.assertEqual(told, ["step 24: 1\n", "step 32: 2\n", "step 40: 3\n"])

    def test_a_breakpoint_keeps_its_number(self) -> None:
        debugger = self.launched()
        first = debugger.stops(9, 10)
        again = debugger.stops(11, 9)
        self.assertEqual(again[1]["id"], first[0]["id"])
        self.assertNotIn(again[0]["id"], [point["id"] for point in first])

    def test_another_source_has_no_breakpoints(self) -> None:
        debugger = self.launched()
        found = debugger.ask("setBreakpoints", {"source": {"path": "/none.asm"}, "breakpoints": [{"line": 1}]})["breakpoints"]
        self.assertEqual(found[0]["verified"], False)

    def test_locations_are_the_lines_with_code(self) -> None:
        debugger = self.launched()
        found = debugger.ask("breakpointLocations", {"source": {"path": debugger.path()}, "line": 1, "endLine": 4})
        self.assertEqual([one["line"] for one in found["breakpoints"]], [2, 3, 4])


class Moves(Debugged):
    def test_steps_in_and_back(self) -> None:
        debugger = self.launched()
        debugger.stops(5)
        debugger.go("continue")
        debugger.stops()
        debugger.go("stepIn")
        self.assertEqual((debugger.step(), debugger.line()), (22, 9))
        debugger.go("stepBack")
        self.assertEqual((debugger.step(), debugger.line()), (21, 5))
        debugger.go("next")
        debugger.go("stepBack", granularity="instruction")
        self.assertEqual((debugger.step(), debugger.line()), (25, 12))

    def test_the_start_and_the_end(self) -> None:
        debugger = self.launched()
        self.assertEqual(debugger.go("stepBack")["reason"], "entry")
        self.assertEqual(debugger.go("reverseContinue")["reason"], "entry")
        self.assertEqual(debugger.step(), 0)
        self.assertIn("no subroutine is running", debugger.refused("stepOut", {"threadId": 1}))
        debugger.go("continue")
        for command in ("continue", "next", "stepIn", "stepOut"):
            self.assertEqual(debugger.go(command)["reason"], "exception")
            self.assertEqual(debugger.step(), 93)

    def test_a_run_without_breakpoints_ends_at_the_last_step(self) -> None:
        debugger = self.launched(ENDLESS, None)
        self.assertEqual(debugger.go("continue")["reason"], "pause")
        self.assertEqual(debugger.step(), 1_000_000)
        self.assertIn("1000000 is the last step", debugger.refused("stepIn", {"threadId": 1}))

    def test_goto_a_step_at_which_a_line_is_next(self) -> None:
        debugger = self.launched()
        debugger.value("goto 40", "repl")
        debugger.event("stopped")
        targets = debugger.ask("gotoTargets", {"source": {"path": debugger.path()}, "line": 9})["targets"]
        self.assertEqual([target["label"].split(",")[0] for target in targets], ["step 46", "step 38", "step 22"])
        self.assertEqual((debugger.go("goto", targetId=targets[1]["id"])["reason"], debugger.step()), ("goto", 38))
        self.assertIn("line 1 has no code", debugger.refused("gotoTargets", {"source": {"path": debugger.path()}, "line": 1}))

    def test_a_frame_begins_anew(self) -> None:
        debugger = self.launched()
        debugger.stops(12)
        debugger.go("continue")
        debugger.go("restartFrame", frameId=1)
        self.assertEqual((debugger.step(), debugger.line()), (22, 9))
        debugger.go("restartFrame", frameId=2)
        self.assertEqual(debugger.step(), 0)

    def test_the_run_begins_anew_and_keeps_its_breakpoints(self) -> None:
        debugger = self.launched()
        debugger.stops(9)
        debugger.go("continue")
        debugger.ask("restart")
        self.assertEqual((debugger.event("stopped")["reason"], debugger.step()), ("entry", 0))
        debugger.go("continue")
        self.assertEqual(debugger.step(), 22)

    def test_without_a_stop_on_entry_it_runs_to_a_breakpoint(self) -> None:
        debugger = self.debugger()
        debugger.launch(self.file("score.asm", SCORE), keys=str(self.file("four.keys", KEYS)), stopOnEntry=False)
        debugger.stops(2)
        self.assertEqual((debugger.configured()["reason"], debugger.step()), ("breakpoint", 0))

    def test_pause_and_breakpoints_while_it_runs(self) -> None:
        # a condition at each of a million steps, so that it runs long enough
        debugger = self.launched(ENDLESS, None)
        debugger.watches({"dataId": "V0", "condition": "V0 = 300"})
        debugger.ask("continue", {"threadId": 1})
        self.assertEqual(debugger.answer("stackTrace", {"threadId": 1})["message"], "notStopped")
        self.assertEqual(debugger.ask("threads")["threads"], [{"id": 1, "name": "CHIP-8"}])
        debugger.ask("pause", {"threadId": 1})
        self.assertEqual(debugger.event("stopped")["reason"], "pause")
        paused = debugger.step()
        self.assertLess(paused, 1_000_000)
        debugger.ask("continue", {"threadId": 1})
        self.assertTrue(debugger.stops(2)[0]["verified"])
        self.assertEqual((debugger.event("stopped")["reason"], debugger.line()), ("breakpoint", 2))
        self.assertGreaterEqual(debugger.step(), paused)

    def test_progress_is_told_and_can_be_cancelled(self) -> None:
        debugger = self.launched(ENDLESS, None, client={"supportsProgressReporting": True})
        debugger.watches({"dataId": "V0", "condition": "V0 = 300 or V1 = 300 or V2 = 300"})
        debugger.ask("continue", {"threadId": 1})
        progress = debugger.event("progressStart")["progressId"]
        debugger.ask("cancel", {"progressId": progress})
        self.assertEqual(debugger.event("stopped")["reason"], "pause")

    def test_a_search_of_the_console_can_be_cancelled(self) -> None:
        debugger = self.launched(ENDLESS, None)
        request = debugger.begin("evaluate", {"expression": "find V0 = 300", "context": "repl"})
        debugger.begin("cancel", {"requestId": request})
        self.assertEqual([debugger.next_answer().get("message") for _ in range(2)], ["cancelled", None])


class Shown(Debugged):
    def test_variables_of_each_scope(self) -> None:
        debugger = self.launched(SCORE + "FIVE EQU 5\n")
        debugger.value("goto 60", "repl")
        scopes = debugger.ask("scopes", {"frameId": 1})["scopes"]
        shown = {scope["name"]: debugger.ask("variables", scope)["variables"] for scope in scopes}
        values = {name: {one["name"]: one["value"] for one in found} for name, found in shown.items()}
        self.assertEqual(values["Registers"]["V3"], "5 = #05")
        self.assertEqual(values["Registers"]["I"], "534 = #0216")
        self.assertEqual(values["Timers and run"]["step"], "60")
        self.assertEqual(values["Timers and run"]["keys down"], "4")
        self.assertEqual(values["Names"]["SCORE"], "#216: 05 00")
        self.assertEqual(values["Names"]["FIVE"], "5 = #05")
        self.assertEqual(len(values["Flags"]), 8)
        self.assertEqual(list(values["Screen"].values()), ["." * 64] * 32)
        for scope in shown.values():
            for one in scope:
                if "evaluateName" in one:
                    debugger.value(one["evaluateName"])

    def test_variables_in_parts_and_in_hexadecimal(self) -> None:
        debugger = self.launched()
        wanted = {"variablesReference": 1, "start": 4, "count": 2, "format": {"hex": True}}
        found = debugger.ask("variables", wanted)["variables"]
        self.assertEqual([(one["name"], one["value"]) for one in found], [("V4", "#00"), ("V5", "#00")])

    def test_the_screen_is_rows_of_text(self) -> None:
        debugger = self.launched("LD F, V0\nDRW V1, V1, 5\nHALT: JP HALT\n", None)
        debugger.value("goto 2", "repl")
        rows = [one["value"] for one in debugger.ask("variables", {"variablesReference": 5})["variables"]]
        # the digit 0, as docs/MACHINE.md has it
        self.assertEqual([row[:5] for row in rows[:6]], ["####.", "#..#.", "#..#.", "#..#.", "####.", "....."])

    def test_nothing_is_set(self) -> None:
        debugger = self.launched()
        for command, more in (("setVariable", {"variablesReference": 1, "name": "V3", "value": "1"}),
                              ("setExpression", {"expression": "V3", "value": "1"}),
                              ("writeMemory", {"memoryReference": "0x200", "data": ""})):
            self.assertIn("follows from the lines and the key events", debugger.refused(command, more))

    def test_sums_and_conditions(self) -> None:
        debugger = self.launched()
        debugger.value("goto 60", "repl")
        for text, value in (
            ("V3 + 2 * V4", "13 = #0d"), ("[SCORE]", "5 = #05"), ("[SCORE - 1 + 1]", "5 = #05"), ("SCORE + 1", "535 = #217"),
            ("V3 = 5", "true"), ("V3 <> 5 or V4 >= 4", "true"), ("V3 = 5 and V4 = 5", "false"), ("(1 < 6)", "64 = #40"),
            ("DEPTH", "0 = #00"), ("KEYS", "1 = #01"), ("HIGH", "0 = #00"), ("PIXEL(0, 0)", "0 = #00"), ("'A'", "65 = #41"),
            ("0x1f + #1f", "62 = #3e"), ("[SCORE .. SCORE + 1]", "05 00"), ("SCORE", "534 = #216: 05 00"), ("V0 - V3 - 1", "-1"),
        ):
            self.assertEqual(debugger.value(text), value, text)

    def test_what_has_no_value_is_refused_with_words(self) -> None:
        debugger = self.launched()
        for text, said in (
            ("V3 +", "expected a number"), ("NONE", "no name NONE"), ("[5000]", "no value"), ("V3 = ", "expected"),
            ("(" * 200, "parentheses"), ("1+" * 5000 + "1", "longer than"), ("V3 ? 1", "isn't expected there"),
            (" ", "no expression"), ("(1 / 0)", "no value"),
        ):
            self.assertIn(said, debugger.refused("evaluate", {"expression": text}), text)

    def test_words_of_the_console(self) -> None:
        debugger = self.launched()
        self.assertIn("step 55, 0210, line 10", debugger.value("find V3 = 5", "repl"))
        self.assertIn("doesn't become true up to step 93, the machine stops there", debugger.value("find V3 = 11", "repl"))
        self.assertIn("hasn't changed", debugger.value("who V3", "repl"))
        self.assertEqual(debugger.step(), 0)
        self.assertIn("goto STEP", debugger.value("help", "repl"))
        self.assertIn("goto STEP", debugger.ask("evaluate", {"expression": "help"})["result"])
        self.assertIn("HIT is a label", debugger.refused("evaluate", {"expression": "goto HIT", "context": "repl"}))
        self.assertIn("no key 16", debugger.refused("evaluate", {"expression": "press 16", "context": "repl"}))
        labels = [one["label"] for one in debugger.ask("completions", {"text": "fi", "column": 3})["targets"]]
        self.assertEqual(labels, ["find"])
        labels = [one["label"] for one in debugger.ask("completions", {"text": "who [sc", "column": 8})["targets"]]
        self.assertEqual(labels, ["SCORE"])

    def test_memory_and_instructions(self) -> None:
        debugger = self.launched()
        found = debugger.ask("readMemory", {"memoryReference": "0x0200", "offset": 2, "count": 2})
        self.assertEqual((found["address"], base64.b64decode(found["data"]).hex()), ("0x0202", "a216"))
        found = debugger.ask("readMemory", {"memoryReference": "0x0fff", "count": 3})
        self.assertEqual((len(base64.b64decode(found["data"])), found["unreadableBytes"]), (1, 2))
        wanted = {"memoryReference": "0x0204", "instructionOffset": -1, "instructionCount": 3}
        shown = debugger.ask("disassemble", wanted)["instructions"]
        self.assertEqual([(one["address"], one["instruction"], one["line"]) for one in shown],
                         [("0x0202", "LD I, #216", 3), ("0x0204", "SKNP V4", 4), ("0x0206", "CALL #20e", 5)])
        self.assertEqual(shown[1]["symbol"], "LOOP")
        past = debugger.ask("disassemble", {"memoryReference": "0x0ffe", "instructionCount": 3})["instructions"]
        self.assertEqual([one["instruction"] for one in past], ["DW #0000", "past the memory", "past the memory"])

    def test_why_the_machine_has_stopped(self) -> None:
        source = "LD I, #FFF\nCALL SAVE\nEXIT\nSAVE: LD [I], V1\nRET\n"
        debugger = self.launched(source, None)
        stopped = debugger.go("continue")
        self.assertIn("S6", stopped["text"])
        found = debugger.ask("exceptionInfo", {"threadId": 1})
        self.assertEqual(found["exceptionId"], "S6")
        self.assertIn("at line 4: SAVE: LD [I], V1", found["description"])
        self.assertIn("I is #FFF", found["details"]["message"])
        self.assertIn("called from #202, line 2", found["details"]["stackTrace"])

    def test_an_image_has_a_source_that_is_asked_for(self) -> None:
        image = self.folder / "game.ch8"
        image.write_bytes(bytes.fromhex("600170011202"))
        debugger = self.debugger()
        debugger.ask("initialize", {"adapterID": "chipbench"})
        debugger.ask("launch", {"image": str(image)})
        debugger.configured()
        source = debugger.ask("stackTrace", {"threadId": 1})["stackFrames"][0]["source"]
        self.assertNotIn("path", source)
        content = debugger.ask("source", {"source": source, "sourceReference": source["sourceReference"]})["content"]
        self.assertIn("ADD V0, #01", content)
        line = 1 + next(number for number, text in enumerate(content.split("\n")) if "ADD" in text)
        found = debugger.ask("setBreakpoints", {"source": source, "breakpoints": [{"line": line}]})["breakpoints"]
        self.assertTrue(found[0]["verified"])
        self.assertEqual((debugger.go("continue")["reason"], debugger.step()), ("breakpoint", 1))

    def test_lines_from_0_and_uris(self) -> None:
        debugger = self.debugger()
        path = self.file("the score.asm", SCORE)
        client = {"linesStartAt1": False, "columnsStartAt1": False, "pathFormat": "uri"}
        debugger.launch(path.as_uri(), client, keys=str(self.file("four.keys", KEYS)))
        debugger.configured()
        self.assertEqual((debugger.path(), debugger.line()), (path.as_uri(), 1))
        self.assertEqual(debugger.stops(8)[0]["line"], 8)
        debugger.go("continue")
        self.assertEqual((debugger.step(), debugger.line()), (22, 8))


class Edits(Debugged):
    def test_lines_that_move_take_their_breakpoints_with_them(self) -> None:
        debugger = self.launched(client={"supportsInvalidatedEvent": True})
        point = debugger.stops(9)[0]
        self.file("score.asm", SCORE.replace("LOOP:", "; a new line\n; and another\nLOOP:"))
        self.assertIn("score.asm changed: 2 lines; the state at step 0 is as it was", debugger.output())
        moved = debugger.event("breakpoint")["breakpoint"]
        self.assertEqual((moved["id"], moved["line"]), (point["id"], 11))
        self.assertEqual(debugger.event("invalidated")["areas"], ["all"])
        debugger.go("continue")
        self.assertEqual((debugger.step(), debugger.line()), (22, 11))

    def test_a_source_with_faults_is_not_taken(self) -> None:
        debugger = self.launched()
        debugger.value("goto 60", "repl")
        self.file("score.asm", SCORE.replace("RET", "RETURN"))
        told = debugger.output()
        self.assertIn("score.asm:12:9: F3", told)
        self.assertIn("keeps the lines from before this edit", told)
        self.assertEqual((debugger.value("V3"), debugger.step()), ("5 = #05", 60))
        self.file("score.asm", SCORE.replace("ADD V3, 1", "ADD V3, 2"))
        self.assertIn("differs in V0, V3", debugger.output())
        self.assertEqual((debugger.value("V3"), debugger.step()), ("10 = #0a", 60))

    def test_a_file_that_cannot_be_taken_is_told_once(self) -> None:
        debugger = self.launched()
        self.file("score.asm", "; a line\n" * 300_000)
        self.assertIn("too long for a source", debugger.output())
        time.sleep(1)
        self.file("score.asm", SCORE + "; another line\n")
        self.assertIn("score.asm changed: 1 line", debugger.output())

    def test_an_edit_that_makes_the_run_shorter(self) -> None:
        debugger = self.launched()
        debugger.value("goto 60", "repl")
        self.file("score.asm", SCORE.replace("CALL HIT", "EXIT"))
        debugger.output()
        # the machine stops for EXIT in step 21
        self.assertEqual((debugger.ask("exceptionInfo", {"threadId": 1})["exceptionId"], debugger.step()), ("S1", 22))


class Sessions(Debugged):
    def test_launches_that_are_refused_name_what_is_wrong(self) -> None:
        path = str(self.file("score.asm", SCORE))
        faulty = str(self.file("faulty.asm", "LD V0, 5\nFOO\n"))
        keys = str(self.file("bad.keys", "10 99 down\n"))
        debugger = self.debugger()
        debugger.ask("initialize", {"adapterID": "chipbench"})
        for arguments, said in (
            ({}, "give one of"), ({"source": path, "image": path}, "give one of"), ({"source": 5}, "source must be a text"),
            ({"source": path, "rate": "ten"}, "rate must be a number"),
            ({"source": path, "rate": True}, "rate must be a number"),
            ({"source": path, "seed": -1}, "seed must be"), ({"source": path, "tape": "xyz"}, "tape must be"),
            ({"source": path, "seed": 1, "tape": "00"}, "not both"), ({"source": "/none/x.asm"}, "there is no file"),
            ({"source": str(self.folder)}, "is not a file"), ({"source": faulty}, "faulty.asm:2:1: F3: unknown word"),
            ({"source": path, "keys": keys}, "bad.keys:1"), ({"source": path, "profile": "none"}, "profile"),
            ({"source": path, "rate": 0}, "rate"), ({"source": path, "chipbench": "/none"}, "cannot run /none"),
            ([], "must be an object"),
        ):
            self.assertIn(said, debugger.refused("launch", arguments), arguments)
        debugger.ask("launch", {"source": path, "sed": 4})
        self.assertIn("there is no argument sed; did you mean seed?", debugger.output())

    def test_without_a_program_it_says_what_to_install(self) -> None:
        # three folders above it there is no release/
        copied = shutil.copytree(PYTHON, self.folder / "a/b/python", ignore=shutil.ignore_patterns("tests", "__pycache__"))
        debugger = Debugger(None, copied / "chipbench_dap", {"PATH": str(self.folder)})
        self.addCleanup(debugger.kill)
        debugger.ask("initialize", {"adapterID": "chipbench"})
        said = debugger.refused("launch", {"source": str(self.file("score.asm", SCORE))})
        self.assertEqual(said, 'no program chipbench was found: install it, or name it as "chipbench" in the launch configuration')

    def test_the_seed_and_the_profile_are_those_of_the_launch(self) -> None:
        source = "RND V0, #ff\nLD V1, 8\nLD V2, 1\nSHR V1, V2\nHALT: JP HALT\n"
        debugger = self.launched(source, None, tape="a7", profile="vip")
        debugger.value("goto 4", "repl")
        # under vip SHR takes its second register
        self.assertEqual((debugger.value("V0"), debugger.value("V1")), ("167 = #a7", "0 = #00"))

    def test_without_the_filter_the_session_ends_with_the_run(self) -> None:
        debugger = self.launched()
        debugger.ask("setExceptionBreakpoints", {"filters": []})
        debugger.ask("continue", {"threadId": 1})
        self.assertIn("S2", debugger.output())
        self.assertIsNone(debugger.event("terminated"))

    def test_without_debugging_breakpoints_do_not_count(self) -> None:
        debugger = self.debugger()
        debugger.launch(self.file("score.asm", SCORE), keys=str(self.file("four.keys", KEYS)), noDebug=True)
        debugger.stops(9)
        debugger.ask("configurationDone")
        self.assertIn("step 93", debugger.output())
        debugger.event("terminated")

    def test_the_order_of_a_session(self) -> None:
        debugger = self.debugger()
        self.assertIn("initialize must come first", debugger.refused("launch", {}))
        debugger.ask("initialize", {"adapterID": "chipbench"})
        self.assertIn("no game is launched", debugger.refused("stackTrace", {"threadId": 1}))
        self.assertIn("initialized already", debugger.refused("initialize", {"adapterID": "chipbench"}))
        self.assertIn("use launch", debugger.refused("attach", {}))
        debugger.ask("terminate")
        debugger.event("terminated")
        debugger.ask("launch", {"source": str(self.file("score.asm", SCORE))})
        self.assertIn("step 26", debugger.value("find STEP = 26", "repl"))
        self.assertEqual(debugger.close(), 0)

    def test_the_end_of_the_input_ends_it(self) -> None:
        debugger = self.debugger()
        assert debugger.process.stdin is not None
        debugger.process.stdin.close()
        self.assertEqual(debugger.process.wait(60), 1)

    def arguments(self, debugger: Debugger) -> dict[str, Any]:
        """The arguments of each request that has some."""
        source, thread = {"path": debugger.path()}, {"threadId": 1}
        return {
            "setBreakpoints": {"source": source, "lines": [9], "breakpoints": [{"line": 9, "column": 1}],
                               "sourceModified": False},
            "setFunctionBreakpoints": {"breakpoints": [{"name": "HIT"}]}, "setExceptionBreakpoints": {"filters": ["stops"]},
            "dataBreakpointInfo": {"name": "V3", "variablesReference": 1},
            "setDataBreakpoints": {"breakpoints": [{"dataId": "V3", "accessType": "write"}]},
            "setInstructionBreakpoints": {"breakpoints": [{"instructionReference": "0x0200"}]},
            "breakpointLocations": {"source": source, "line": 1, "endLine": 20},
            "continue": {"threadId": 1, "singleThread": False},
            "next": {"threadId": 1, "granularity": "line"}, "stepIn": {"threadId": 1, "targetId": 0}, "stepOut": thread,
            "stepBack": {"threadId": 1, "granularity": "instruction"}, "reverseContinue": thread, "restartFrame": {"frameId": 1},
            "gotoTargets": {"source": source, "line": 9, "column": 1}, "goto": {"threadId": 1, "targetId": 0},
            "stackTrace": {"threadId": 1, "startFrame": 0, "levels": 20, "format": {}}, "scopes": {"frameId": 1},
            "variables": {"variablesReference": 1, "filter": "named"}, "source": {"source": source, "sourceReference": 0},
            "evaluate": {"expression": "V3", "frameId": 1, "context": "hover", "format": {"hex": True}},
            "completions": {"frameId": 1, "text": "V", "column": 2, "line": 1},
            "readMemory": {"memoryReference": "0x0200", "count": 16},
            "disassemble": {"memoryReference": "0x0200", "instructionCount": 4, "resolveSymbols": True},
            "threads": {}, "loadedSources": {}, "cancel": {}, "restart": {}, "terminate": {},
        }

    def test_each_request_of_the_protocol_once(self) -> None:
        debugger = self.launched()
        given = self.arguments(debugger)
        # what comes at another time, what a state doesn't have, and what isn't offered
        refused = {"initialize", "launch", "attach", "configurationDone", "pause", "exceptionInfo", "setVariable",
                   "setExpression", "writeMemory", "terminateThreads", "modules", "stepInTargets"}
        moves = {"continue", "next", "stepIn", "stepOut", "stepBack", "reverseContinue", "restartFrame", "goto", "restart"}
        for command in [*given, *sorted(refused), "disconnect"]:
            answer = debugger.answer(command, given.get(command, {"threadId": 1}))
            self.assertEqual(answer["success"], command not in refused, answer)
            if command in moves:
                debugger.event("stopped")
        self.assertEqual({*given, *refused, "disconnect"}, set(PROTOCOL.commands()))
        self.assertLessEqual(set(HANDLERS), set(PROTOCOL.commands()))


class Malformed(Debugged):
    WRONG: tuple[Any, ...] = (None, True, -1, 1 << 80, 1.5, "", "x", "\udfff", [], [[]], [{}], [None], {}, {"x": {}})

    def test_each_request_with_each_wrong_argument(self) -> None:
        debugger = self.launched()
        source = {"path": debugger.path()}
        right = {"source": source, "threadId": 1, "frameId": 1, "variablesReference": 1, "line": 9, "memoryReference": "0x0200",
                 "count": 4, "instructionCount": 2, "expression": "V3", "text": "V", "column": 1, "name": "V3", "breakpoints": [],
                 "filters": [], "targetId": 0}
        for command in sorted(set(PROTOCOL.commands()) - {"disconnect", "terminate", "restart", "pause"}):
            members = PROTOCOL.arguments_of(command)
            plain = {name: right[name] for name in (member.rstrip("?") for member in members) if name in right}
            for member, type_ in members.items():
                self.check_member(debugger, command, member, type_, plain)
            for arguments in ([], "x", 5, True):
                self.assertFalse(debugger.answer(command, arguments)["success"], (command, arguments))
        self.still_answers(debugger)

    def check_member(self, debugger: Debugger, command: str, member: str, type_: Any, plain: dict[str, Any]) -> None:
        """Each wrong value of one argument is answered; one that has to be there is refused where it is missing or wrong."""
        name = member.rstrip("?")
        is_needed = not member.endswith("?") and command in HANDLERS
        for value in self.WRONG:
            answer = debugger.answer(command, {**plain, name: value})
            if is_needed and any(True for _ in PROTOCOL.faults(value, type_)):
                self.assertFalse(answer["success"], (command, name, value))
        if is_needed and name in plain:
            answer = debugger.answer(command, {key: value for key, value in plain.items() if key != name})
            self.assertFalse(answer["success"], (command, name))

    def still_answers(self, debugger: Debugger) -> None:
        debugger.begin("pause", {"threadId": 1})
        debugger.next_answer()
        self.assertEqual(debugger.ask("threads")["threads"][0]["id"], 1)

    def test_messages_that_are_none(self) -> None:
        debugger = self.launched()
        for content in (b"Content-Length: 3\r\n\r\n{]}", b"Content-Length: x\r\n\r\n", b"\r\n\r\nnonsense\r\n",
                        b"Content-Length: 2\r\n\r\n[]", b"Content-Length: 4\r\n\r\nnull", b"Content-Length: 2\r\n\r\n{}"):
            debugger.send_bytes(content)
        plain: dict[str, Any] = {"type": "request", "command": "threads"}
        for message in ({"seq": "x", **plain}, {"seq": 1 << 70, **plain}, plain, {"seq": 7, "type": "response"},
                        {"seq": 8, "type": "event", "event": []}):
            debugger.send(message)
        for command in (None, 5, "", "nothing", ["threads"], "x" * 100_000):
            self.assertFalse(debugger.answer(command)["success"])
        self.still_answers(debugger)

    def test_a_program_that_is_killed_is_started_again(self) -> None:
        debugger = self.launched()
        debugger.value("goto 60", "repl")
        kill_children(debugger.process.pid)
        deadline = time.monotonic() + 60
        while not debugger.answer("evaluate", {"expression": "V3"})["success"] and time.monotonic() < deadline:
            pass
        self.assertEqual((debugger.value("V3"), debugger.step()), ("5 = #05", 60))


    def test_a_program_that_is_killed_again_and_again(self) -> None:
        debugger = self.launched(client={"supportsInvalidatedEvent": True})
        for number in range(30):
            if number % 3 == 0:
                kill_children(debugger.process.pid)
            debugger.answer(("stepIn", "continue", "reverseContinue", "stepBack", "next")[number % 5], {"threadId": 1})
        self.still_answers(debugger)


def kill_children(process: int) -> None:
    """Kills the programs that a process has started; some may have ended meanwhile."""
    for task in Path(f"/proc/{process}/task").iterdir():
        with contextlib.suppress(OSError):
            for child in (task / "children").read_text(encoding="ascii").split():
                os.kill(int(child), signal.SIGKILL)


class Expressions(unittest.TestCase):
    """What can't be read, or is read otherwise than in a property; no program is needed."""

    def test_random_texts_are_read_or_refused(self) -> None:
        chance = random.Random(5)
        pieces = [*"[](),=<>+-*/&1~ \0", "V3", "I", "PIXEL", "..", "<>", "#ff", "$1..1", "'A'", "and", "or", "\udfff", "é", "0x",
                  "@9", "DEPTH"]
        for _ in range(3000):
            text = "".join(chance.choice(pieces) for _ in range(chance.randrange(12)))
            for read in (read_condition, read_sum, read_subject):
                try:
                    read(text, {})
                except Mistake as mistake:
                    json.dumps(str(mistake))


if __name__ == "__main__":
    unittest.main()
