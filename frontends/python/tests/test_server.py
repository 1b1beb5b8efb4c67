"""The language server by messages of the tests' own: order, cancels, broken messages, large documents, UTF-16 positions."""

from __future__ import annotations

import doctest
import json
import os
import random
import shutil
import signal
import subprocess
import sys
import tempfile
import time
import unittest
from pathlib import Path
from typing import Any

sys.path.insert(0, str(Path(__file__).resolve().parent))

from client import URI, Client, span  # noqa: E402
from message_client import SECONDS  # noqa: E402
from programs import EXAMPLES, TOP, NeedsProgram, NeedsWords  # noqa: E402

from chipbench import Bench, Fault  # noqa: E402
from chipbench_lsp import completion, diagnostics, document, fixes, language, layout, positions, properties  # noqa: E402

GAME = """; A game in few lines.
STEP    EQU 3
START:  LD V0, 5
LOOP:   ADD V0, STEP
        SE V0, 20
        JP LOOP
        EXIT
"""


def load_tests(loader: unittest.TestLoader, tests: unittest.TestSuite, pattern: str | None) -> unittest.TestSuite:
    """The docstrings of the server are tests too; they need no program."""
    for module in (completion, document, fixes, language, layout, positions, properties):
        tests.addTests(doctest.DocTestSuite(module))
    return tests


def faults_of(found: list[dict[str, Any]]) -> list[tuple[int, str]]:
    return [(fault["range"]["start"]["line"] + 1, fault["code"]) for fault in found]


class Served(NeedsProgram):
    def client(self, **options: Any) -> Client:
        client = Client(self.program, **options)
        self.addCleanup(client.kill)
        return client

    def opened(self, text: str = GAME, **options: Any) -> Client:
        client = self.client(**options)
        self.first = client.open(text)
        return client

    def document(self) -> dict[str, Any]:
        return {"textDocument": {"uri": URI}}


class Diagnostics(Served):
    def test_faults_come_and_go_as_typed(self) -> None:
        client = self.opened()
        self.assertEqual(self.first, [])
        found = client.edit((3, 16), (3, 20), "NONE")
        self.assertEqual(faults_of(found), [(4, "F9")])
        self.assertEqual(found[0]["range"], span((3, 0), (3, 20)))
        self.assertEqual(client.edit((3, 16), (3, 20), "STEP"), [])

    def test_lines_are_inserted_and_deleted(self) -> None:
        client = self.opened()
        self.assertEqual(faults_of(client.edit((2, 0), (2, 0), "FOO\nBAR V1\n")), [(3, "F3"), (4, "F3")])
        self.assertEqual(faults_of(client.edit((2, 0), (3, 0), "")), [(3, "F3")])
        self.assertEqual(client.edit((2, 0), (3, 0), ""), [])
        self.assertEqual(faults_of(client.edit((1, 0), (2, 0), "")), [(3, "F9")])

    def test_several_changes_in_one_message(self) -> None:
        client = self.opened("CLS\nCLS\n")
        client.change({"range": span((0, 0), (0, 3)), "text": "A\nB"}, {"range": span((1, 0), (1, 1)), "text": "CLS"},
                      {"range": span((2, 3), (3, 0)), "text": ""})
        self.assertEqual(faults_of(client.shown()), [(1, "F3")])
        client.change({"text": "RET"})
        self.assertEqual(client.shown(), [])

    def test_places_after_a_message_are_in_utf_16(self) -> None:
        client = self.opened("DA '\U0001f600ü'\nCLS\n")
        self.assertEqual(self.first, [])
        # the emoji has two units: after both of them comes the ü
        self.assertEqual(client.edit((0, 6), (0, 7), "x"), [])
        hover = client.at("hover", 0, 5)
        self.assertIn("5 bytes", hover["contents"]["value"])
        self.assertEqual(hover["range"], span((0, 3), (0, 8)))

    def test_the_units_that_a_client_offers(self) -> None:
        offered = {"general": {"positionEncodings": ["utf-32", "utf-16"]}}
        client = self.opened("DA '\U0001f600ü'", capabilities=offered)
        self.assertEqual(client.capabilities["positionEncoding"], "utf-32")
        self.assertEqual(client.at("hover", 0, 4)["range"], span((0, 3), (0, 7)))

    def test_lines_that_end_with_a_carriage_return(self) -> None:
        client = self.opened("CLS\r\nFOO\r\nRET\r\n")
        self.assertEqual([fault["range"] for fault in self.first], [span((1, 0), (1, 3))])
        self.assertEqual(client.edit((1, 0), (1, 99), "CLS"), [])
        self.assertEqual(faults_of(client.edit((2, 3), (2, 3), "\r\nBAR")), [(4, "F3")])

    def test_a_carriage_return_inside_a_line_is_a_blank(self) -> None:
        client = self.opened("CLS\n")
        self.assertEqual(client.edit((0, 0), (0, 3), "LD\rV0,\r5"), [])
        self.assertEqual(faults_of(client.edit((0, 0), (0, 0), "X")), [(1, "F3")])

    def test_limits_are_reported_and_nothing_is_lost(self) -> None:
        client = self.opened()
        found = client.edit((0, 2), (0, 2), "x" * 300)
        self.assertEqual(faults_of(found), [(1, "O1")])
        self.assertEqual(faults_of(client.edit((4, 8), (4, 8), "Q")), [(1, "O1")])
        self.assertEqual(faults_of(client.edit((0, 2), (0, 302), "")), [(5, "F3")])
        self.assertEqual(faults_of(client.edit((0, 0), (0, 0), "CLS\n" * 4000)), [(4001, "O2")])
        self.assertEqual(faults_of(client.edit((0, 0), (4000, 0), "")), [(5, "F3")])

    def test_many_faults(self) -> None:
        client = self.opened("FOO\n" * 4000)
        self.assertEqual(len(self.first), 1001)
        self.assertIn("3000 more lines", self.first[-1]["message"])
        self.assertEqual(client.edit((0, 0), (4000, 0), ""), [])

    def test_several_documents(self) -> None:
        client = self.opened()
        other = "file:///tmp/other.asm"
        self.assertEqual(faults_of(client.open("FOO", other)), [(1, "F3")])
        self.assertEqual(faults_of(client.edit((0, 0), (0, 0), "BAR ")), [(1, "F3")])
        client.tell("textDocument/didClose", {"textDocument": {"uri": other}})
        while (params := client.told.get(timeout=SECONDS)["params"])["uri"] != other:
            pass
        self.assertEqual(params["diagnostics"], [])

    def test_random_edits_give_what_a_fresh_session_gives(self) -> None:
        chance = random.Random(7)
        pieces = ["CLS", "\n", "X: ", "LD V0, X", " EQU 3", "\U0001f600", "; ü", "\r\n", "IFDEF X\n", "ENDIF\n", "DB 'a", "'", " "]
        text = GAME
        client = self.opened()
        for _ in range(60):
            start, end = sorted((chance.randrange(len(text) + 1), chance.randrange(len(text) + 1)))
            end = min(end, start + chance.choice((0, 0, 1, 5, 40)))
            piece = "".join(chance.choices(pieces, k=chance.randrange(4)))
            found = client.edit(position(text, start), position(text, end), piece)
            text = text[:start] + piece + text[end:]
            with Bench(text, program=self.program) as bench:
                faults = [fault for fault in found if fault["severity"] == diagnostics.ERROR]
                self.assertEqual(faults_of(faults), [(fault.line, fault.code) for fault in bench.faults], text)


def position(text: str, place: int) -> tuple[int, int]:
    """The line and the column in UTF-16 of a place."""
    before = text[:place].split("\n")
    return len(before) - 1, len(before[-1].encode("utf-16-le")) // 2


class Features(Served):
    def hover(self, client: Client, line: int, character: int) -> str:
        found = client.at("hover", line, character)
        return "" if found is None else str(found["contents"]["value"])

    def test_hover_on_an_instruction(self) -> None:
        client = self.opened()
        text = self.hover(client, 3, 9)
        self.assertIn("`7XKK` `ADD Vx, kk`: Vx := Vx + kk; no flag", text)
        self.assertIn("address #202, bytes `70 03`", text)

    def test_hover_on_a_name(self) -> None:
        text = self.hover(self.opened(), 3, 17)
        self.assertIn("**STEP** = 3 = #3 = @3 = $11, line 2", text)
        self.assertIn("STEP    EQU 3", text)

    def test_hover_on_numbers_words_and_texts(self) -> None:
        client = self.opened("DB #1F, 'a', $1..1 ; x\nLD DT, VA\nALIGN OFF\nIFDEF X\nCLS\nENDIF\n")
        self.assertIn("31 = #1F = @37 = $11111", self.hover(client, 0, 4))
        self.assertIn("97 = #61", self.hover(client, 0, 9))
        self.assertIn("9 = #9", self.hover(client, 0, 13))
        self.assertIn("the delay timer", self.hover(client, 1, 4))
        self.assertIn("register VA", self.hover(client, 1, 8))
        self.assertIn("padding", self.hover(client, 2, 1))
        self.assertIn("not active", self.hover(client, 4, 1))

    def test_hover_shows_all_bytes(self) -> None:
        client = self.opened("DB 1, 2, 3, 4, 5, 6, 7, 8, 9, 10\nCLS\n")
        self.assertIn("01 02 03 04 05 06 07 08 09 0a", self.hover(client, 0, 0))
        client.edit((1, 0), (1, 0), "FOO\n")
        self.assertIn("01 02 03 04 05 06` ..", self.hover(client, 0, 0))

    def test_hover_where_nothing_is(self) -> None:
        client = self.opened("\n")
        self.assertIsNone(client.at("hover", 5, 5))
        self.assertIn("address #200", self.hover(client, 0, 0))

    def labels(self, client: Client, line: int, character: int) -> list[str]:
        return [item["label"] for item in client.at("completion", line, character)]

    def test_completion_of_statements(self) -> None:
        client = self.opened("        dr\nSTART:  s\n")
        items = client.at("completion", 0, 10)
        self.assertEqual([(item["label"], item["textEdit"]["newText"]) for item in items], [("DRW Vx, Vy, n", "drw ")])
        self.assertEqual(items[0]["textEdit"]["range"], span((0, 8), (0, 10)))
        self.assertIn("SKNP Vx", self.labels(client, 1, 9))
        self.assertNotIn("V0", self.labels(client, 1, 9))

    def test_completion_with_fields(self) -> None:
        has_snippets = {"textDocument": {"completion": {"completionItem": {"snippetSupport": True}}}}
        client = self.opened("DR", capabilities=has_snippets)
        self.assertEqual(client.at("completion", 0, 2)[0]["textEdit"]["newText"], "DRW ${1:Vx}, ${2:Vy}, ${3:n}")

    def test_completion_of_operands(self) -> None:
        client = self.opened(GAME + "        JP \n        LD V\n        ALIGN \n        OPTION C\n; a comm\n        DB 'a\n        DB #a\n")
        self.assertEqual(self.labels(client, 7, 11), ["START", "LOOP", "STEP", "V0"])
        self.assertEqual(self.labels(client, 8, 12), [f"V{digit:X}" for digit in range(16)])
        self.assertEqual(self.labels(client, 9, 14), ["ON", "OFF"])
        self.assertEqual(self.labels(client, 10, 16), ["CHIP8", "CHIP48"])
        for line, character in ((11, 8), (12, 13), (13, 13)):
            self.assertEqual(self.labels(client, line, character), [])

    def test_definition_references_and_highlights(self) -> None:
        client = self.opened()
        self.assertEqual(client.at("definition", 5, 12), [{"uri": URI, "range": span((3, 0), (3, 4))}])
        both = client.at("references", 3, 1, context={"includeDeclaration": True})
        self.assertEqual([found["range"]["start"]["line"] for found in both], [3, 5])
        uses = client.at("references", 3, 1, context={"includeDeclaration": False})
        self.assertEqual([found["range"] for found in uses], [span((5, 11), (5, 15))])
        self.assertEqual(len(client.at("documentHighlight", 3, 1)), 2)
        self.assertEqual(client.at("definition", 3, 12), [])

    def test_the_definition_that_counts(self) -> None:
        client = self.opened("IFDEF X\nA: CLS\nELSE\nA: RET\nENDIF\nJP a\n")
        self.assertEqual(client.at("definition", 5, 3)[0]["range"], span((3, 0), (3, 1)))

    def test_rename(self) -> None:
        client = self.opened()
        edits = client.at("rename", 5, 12, newName="AGAIN")["changes"][URI]
        self.assertEqual([(edit["range"], edit["newText"]) for edit in edits],
                         [(span((3, 0), (3, 4)), "AGAIN"), (span((5, 11), (5, 15)), "AGAIN")])
        self.assertEqual(client.at("prepareRename", 5, 12), {"range": span((5, 11), (5, 15)), "placeholder": "LOOP"})
        self.assertIsNone(client.at("prepareRename", 5, 9))

    def test_renames_that_are_refused(self) -> None:
        client = self.opened(GAME + "        LD V1, STEP" + " " * 175 + "; x\n")
        for name, why in (("V0", "reserved"), ("drw", "reserved"), ("1A", "a letter"), ("A" * 65, "64"), ("loop", "already used"),
                          ("A" * 20, "over 200 bytes"), ("A B", "a letter")):
            params = {**self.document(), "position": {"line": 1, "character": 1}, "newName": name}
            code, text = client.refused("textDocument/rename", params)
            self.assertEqual(code, -32803)
            self.assertIn(why, text)
        self.assertEqual(len(client.at("rename", 1, 1, newName="step")["changes"][URI]), 3)

    def test_symbols(self) -> None:
        found = self.opened("A: CLS\nB EQU 3 + 4 ; x\nDEFINE C\nD = 5\n; E: x\nCLS\n").ask("textDocument/documentSymbol", self.document())
        self.assertEqual([(symbol["name"], symbol["detail"]) for symbol in found], [("A", ""), ("B", "EQU 3 + 4"), ("C", ""), ("D", "= 5")])
        self.assertEqual(found[2]["selectionRange"], span((2, 7), (2, 8)))

    def test_hints(self) -> None:
        client = self.opened("CLS\nX EQU 5\n\nDB 1,2,3,4,5,6,7,8\nDB NONE\n")
        found = client.ask("textDocument/inlayHint", {**self.document(), "range": span((0, 0), (9, 0))})
        self.assertEqual([(hint["position"]["line"], hint["label"]) for hint in found], [(0, "0200 00e0"), (3, "0202 010203040506..")])
        only = client.ask("textDocument/inlayHint", {**self.document(), "range": span((1, 0), (3, 0))})
        self.assertEqual(only, [])

    def test_folds(self) -> None:
        text = "; a\n; b\nIFDEF X\nCLS\nIFUND Y\nCLS\nENDIF\nELSE\nRET\nENDIF\nENDIF\n; c\n; d"
        found = self.opened(text).ask("textDocument/foldingRange", self.document())
        ranges = sorted((fold["startLine"], fold["endLine"]) for fold in found)
        self.assertEqual(ranges, [(0, 1), (2, 6), (4, 5), (7, 8), (11, 12)])

    def test_formatting_keeps_the_image(self) -> None:
        for place in sorted(EXAMPLES.glob("*.asm")):
            text = place.read_text()
            # blanks in a comment or in a text in quotes count
            squeezed = "\n".join(line if set(line) & set(";'\"") else " ".join(line.split()) for line in text.split("\n"))
            client = self.opened(squeezed)
            edits = client.ask("textDocument/formatting", {**self.document(), "options": {}})
            made = applied(squeezed, edits)
            with Bench(text, program=self.program) as first, Bench(made, program=self.program) as second:
                self.assertEqual(first.image, second.image)
            client.change({"text": made})
            self.assertEqual(client.ask("textDocument/formatting", {**self.document(), "options": {}}), [], place.name)

    def test_formatting(self) -> None:
        text = "a:cls;x\r\nLONGLABEL:ld v0 ,5\r\n  ; c\r\n;d  \r\nx equ 3\r\nDB  'a  b' ,1+ 2\r\nDB ?  1\r\n"
        made = ["a:      cls                 ;x", "LONGLABEL: ld v0, 5", "        ; c", ";d", "x       equ 3",
                "        DB 'a  b', 1+ 2", "DB ?  1", ""]
        client = self.opened(text)
        edits = client.ask("textDocument/formatting", {**self.document(), "options": {}})
        self.assertEqual(applied(text, edits), "\r\n".join(made))
        part = client.ask("textDocument/rangeFormatting", {**self.document(), "options": {}, "range": span((1, 0), (2, 0))})
        self.assertEqual([edit["newText"] for edit in part], [made[1]])

    def test_lenses_and_run_to_here(self) -> None:
        client = self.opened()
        lenses = client.ask("textDocument/codeLens", self.document())
        self.assertEqual([lens["command"]["arguments"] for lens in lenses], [[URI, 2], [URI, 3]])
        result = client.ask("workspace/executeCommand", {"command": "chipbench.runTo", "arguments": [URI, 6]})
        self.assertEqual(result["step"], 15)
        self.assertIn("v 14 00", result["registers"])
        self.assertIn("step 15: pc is at #208", client.message())
        where = {**self.document(), "range": span((4, 0), (4, 0)), "context": {"diagnostics": []}}
        self.assertEqual(client.ask("textDocument/codeAction", where)[0]["command"]["arguments"], [URI, 4])
        # a source with a fault doesn't run
        client.edit((0, 0), (0, 0), "LD V0, NONE\n")
        where = {**self.document(), "range": span((5, 0), (5, 0)), "context": {"diagnostics": []}}
        self.assertEqual(client.ask("textDocument/codeAction", where), [])

    def test_a_property_has_a_lens_with_its_last_answer(self) -> None:
        client = self.opened(";! always V0 <= 20\n" + GAME + ";! ever at NONE\n", options={"showsRuns": True})
        def titles() -> list[str]:
            lenses = client.ask("textDocument/codeLens", self.document())
            return [lens["command"]["title"] for lens in lenses if lens["command"]["command"] == "chipbench.prove"]
        self.assertEqual(titles(), ["prove", "prove"])
        result = client.ask("workspace/executeCommand", {"command": "chipbench.prove", "arguments": [URI, 0]})
        self.assertEqual((result["line"], result["text"]), (1, "proved for any keys, random bytes and speed"))
        self.assertEqual(titles(), ["proved for any keys, random bytes and speed", "prove"])
        result = client.ask("workspace/executeCommand", {"command": "chipbench.prove", "arguments": [URI, 8]})
        self.assertEqual(result["text"], "P3: undefined name")
        client.edit((5, 15), (5, 16), "4")
        self.assertEqual(titles(), ["proved for any keys, random bytes and speed (before the last edit)", "P3: undefined name (before the last edit)"])
        result = client.ask("workspace/executeCommand", {"command": "chipbench.prove", "arguments": [URI, 0]})
        self.assertEqual(result["answer"], "broken")
        self.assertEqual(titles()[0], result["text"])
        code, text = client.refused("workspace/executeCommand", {"command": "chipbench.prove", "arguments": [URI, 1]})
        self.assertEqual(text, "the line has no property: a property begins with `;!`")

    def test_the_words_of_a_property_are_completed(self) -> None:
        client = self.opened(";! al\n;! V0 <= ST\n;! PI\n; al\n" + GAME)
        def completed(line: int, column: int) -> list[str]:
            where = {**self.document(), "position": {"line": line, "character": column}}
            return [item["label"] for item in client.ask("textDocument/completion", where)]
        self.assertEqual(completed(0, 5), ["always"])
        self.assertEqual(completed(1, 11), ["STEP", "START"])
        self.assertEqual(completed(2, 5), ["PIXEL"])
        self.assertEqual(completed(3, 4), [])

    def test_a_line_that_no_run_reaches(self) -> None:
        client = self.opened("EXIT\nA: CLS\nJP A\n", options={"showsRuns": True})
        result = client.ask("workspace/executeCommand", {"command": "chipbench.runTo", "arguments": [URI, 1]})
        self.assertEqual(result["text"], "the program stops at step 1 (S1, the program ended, by EXIT) before pc reaches #202")
        client.edit((0, 0), (0, 0), "FOO\n")
        code, text = client.refused("workspace/executeCommand", {"command": "chipbench.runTo", "arguments": [URI, 1]})
        self.assertIn("Q1", text)

    def test_fixes_are_offered_where_they_remove_the_fault(self) -> None:
        sources: tuple[tuple[str, list[str]], ...] = (
            ("LD V0, 0x1f", ["LD V0, #1f"]), ("LD V0, 1Fh ; x", ["LD V0, #1F ; x"]), ("CLS // clear", ["CLS ; clear"]),
            ("DW 1 << 3", ["DW 1 < 3"]), ("DA 'abc", ["DA 'abc'"]), ("again", ["again:"]), ("drv V0, V1, 5", ["drw V0, V1, 5"]),
            ("JP STRAT", ["JP START"]), ("jp strat", ["jp start"]), ("LD V0 5 ; x", ["LD V0, 5 ; x"]), ("LD [I] V3", ["LD [I], V3"]),
            ("DRW V0 V1 5", ["DRW V0, V1, 5"]), ("ADD V1, V2 V3", []), ("LD V0", []), ("DB 300", []), ("CLS", []), ("DB 'ä\rb", []),
        )
        client = self.opened(GAME)
        for text, wanted in sources:
            found = client.edit((7, 0), (7, 0), text)
            where = {**self.document(), "range": span((7, 0), (7, 0)), "context": {"diagnostics": found}}
            actions = client.ask("textDocument/codeAction", where)
            made = [action["edit"]["changes"][URI][0]["newText"] for action in actions if action["kind"] == "quickfix"]
            self.assertEqual(made[: max(len(wanted), 1)], wanted, text)
            client.change({"text": GAME + text})
            self.assertEqual(faults_of(client.shown()), faults_of(found))
            client.change({"text": GAME})
            self.assertEqual(client.shown(), [])

    def test_the_options_of_a_run(self) -> None:
        client = self.opened("RND V0, 255\nHERE: JP HERE\n", options={"tape": "2a"})
        command = {"command": "chipbench.runTo", "arguments": [URI, 1]}
        self.assertIn("v 2a", client.ask("workspace/executeCommand", command)["registers"])
        client.tell("workspace/didChangeConfiguration", {"settings": {"chipbench": {"tape": "07"}}})
        self.assertIn("v 07", client.ask("workspace/executeCommand", command)["registers"])


def applied(text: str, edits: list[dict[str, Any]]) -> str:
    """The text after edits of whole ASCII lines."""
    lines = text.split("\n")
    for edit in edits:
        start, end = edit["range"]["start"], edit["range"]["end"]
        assert start["line"] == end["line"]
        line = lines[start["line"]]
        lines[start["line"]] = line[: start["character"]] + edit["newText"] + line[end["character"] :]
    return "\n".join(lines)


class Places(NeedsWords):
    def test_places_come_after_a_pause(self) -> None:
        client = Client(self.program)
        self.addCleanup(client.kill)
        text = "        LD V0, NONE ; ü\n"
        self.assertEqual(client.open(text)[0]["range"], span((0, 8), (0, 19)))
        self.assertEqual(client.shown()[0]["range"], span((0, 15), (0, 19)))
        # what was learnt stays while another line is typed
        self.assertEqual(client.edit((1, 0), (1, 0), "CLS")[0]["range"], span((0, 15), (0, 19)))


    def test_warnings_come_after_a_pause(self) -> None:
        """They stay on their lines while other lines are typed, and are of another severity than faults."""
        client = Client(self.program)
        self.addCleanup(client.kill)
        self.assertEqual(client.open("CLS\nHERE: JP HERE\nUNUSED EQU 5\n"), [])
        found = client.shown()
        self.assertEqual([(faults_of([warning]), warning["severity"]) for warning in found], [([(3, "W2")], 2)])
        self.assertEqual(faults_of(client.edit((0, 0), (0, 0), "CLS\n")), [(4, "W2")])
        self.assertEqual(client.edit((3, 0), (3, 0), "X"), [])
        self.assertEqual(faults_of(client.shown()), [(4, "W2")])
        self.assertEqual(faults_of(client.edit((0, 0), (0, 3), "FOO")), [(1, "F3")])

    def test_random_bytes_of_the_settings(self) -> None:
        """RND has a warning where the settings give neither a tape nor a seed."""
        text = "HERE: RND V0, 7\nJP HERE\nUNUSED EQU 5\n"
        for options, wanted in (({}, [(1, "W9"), (3, "W2")]), ({"seed": 7}, [(3, "W2")]), ({"tape": "2a91"}, [(3, "W2")])):
            client = Client(self.program, options=options)
            self.addCleanup(client.kill)
            self.assertEqual(client.open(text), [])
            self.assertEqual(faults_of(client.shown()), wanted, options)


class WarningsMove(unittest.TestCase):
    def test_which_warnings_stay(self) -> None:
        """Those of the lines before the first changed one and after the last, each by its line's place now."""
        rows = (
            (["a", "b", "c"], [0, 1, 2]), (["a", "x", "b", "c"], [0, 2, 3]), (["b", "c"], [0, 1]), (["a", "x", "c"], [0, 2]),
            (["a"], [0]), ([], []), (["x", "y", "z"], []), (["a", "b", "c", "b", "c"], [0, 1, 2]),
        )
        places = diagnostics.Places()
        places.learn(["a", "b", "c"], [Fault(number, "W2") for number in (1, 2, 3)])
        for lines, wanted in rows:
            self.assertEqual([number for number, _, _ in places.warnings(lines, "utf-16")], wanted, lines)


class Protocol(Served):
    def test_requests_before_and_after_the_session(self) -> None:
        client = self.client(ready=False)
        self.assertEqual(client.refused("textDocument/hover", {})[0], -32002)
        client.tell("textDocument/didOpen", {})
        client.ask("initialize", {"capabilities": {}})
        self.assertEqual(client.refused("initialize", {})[0], -32600)
        self.assertEqual(client.ask("shutdown", None), None)
        self.assertEqual(client.refused("textDocument/hover", {})[0], -32600)
        client.tell("exit", None)
        self.assertEqual(client.wait(), 0)

    def test_an_end_without_shutdown(self) -> None:
        client = self.client()
        client.tell("exit", None)
        self.assertEqual(client.wait(), 1)
        client = self.client()
        self.assertEqual(client.wait(), 1)

    def test_broken_messages_are_answered_and_ignored(self) -> None:
        client = self.opened()
        for body in (b"{", b"[]", b"3", b'"x"', b"\xff", b"", b"[" * 100_000):
            client.send_bytes(b"Content-Length: %d\r\n\r\n" % len(body) + body)
            self.assertEqual(client.next_answer()["error"]["code"], -32700, body[:9])
        for length in (b"many", b"", b"-1", b"9" * 5000, b"999999999"):
            client.send_bytes(b"Content-Length: " + length + b"\r\n\r\n")
            self.assertEqual(client.next_answer()["error"]["code"], -32700, length[:9])
        client.send_bytes(b"rubbish\r\n\r\nContent-Type: x\r\n")
        self.assertIn("LOOP", client.at("hover", 3, 1)["contents"]["value"])

    def test_messages_that_are_no_requests(self) -> None:
        client = self.opened()
        for message in ({"id": 7}, {"id": 7, "method": 5}, {"id": [1], "method": "shutdown"}, {"id": None, "method": "shutdown"},
                        {"id": 1.5, "method": "shutdown"}):
            client.send(message)
            self.assertEqual(client.next_answer()["error"]["code"], -32600, message)
        client.send({"id": 99, "result": None})
        client.tell("$/setTrace", {"value": "off"})
        self.assertEqual(client.refused("textDocument/nothing", {})[0], -32601)
        position = {"line": -1, "character": 0}
        wrong: list[Any] = [
            None, {}, [], {"textDocument": 5}, {"textDocument": {"uri": URI}}, {"textDocument": {"uri": [1]}},
            {"textDocument": {"uri": URI}, "position": position},
            {"textDocument": {"uri": URI}, "position": {"line": "1", "character": 0}},
            {"textDocument": {"uri": "file:///none"}, "position": {"line": 0, "character": 0}},
        ]
        for params in wrong:
            self.assertEqual(client.refused("textDocument/hover", params)[0], -32602, params)

    def test_a_bad_change_is_ignored_as_a_whole(self) -> None:
        client = self.opened()
        good = {"range": span((0, 0), (0, 0)), "text": "FOO\n"}
        for bad in ({"range": span((-1, 0), (0, 0)), "text": ""}, {"range": 5, "text": ""}, {"range": span((0, 0), (0, 0))}, 7):
            client.change(good, bad)
            self.assertIn("didChange is ignored", client.message())
        client.tell("textDocument/didChange", {"textDocument": {"uri": "file:///none", "version": 1}, "contentChanges": []})
        self.assertIn("is ignored", client.message())
        self.assertEqual(client.edit((0, 0), (0, 0), ""), [])

    def test_positions_past_the_end(self) -> None:
        client = self.opened("CLS\nRET")
        self.assertEqual(faults_of(client.edit((0, 99), (0, 99), "X")), [(1, "F3")])
        self.assertEqual(faults_of(client.edit((99, 0), (99, 9), "\nY")), [(1, "F3"), (3, "F3")])
        self.assertEqual(client.edit((0, 0), (99, 99), ""), [])

    def test_a_cancelled_request_in_the_queue(self) -> None:
        client = self.opened()
        messages = []
        for number in (501, 502):
            messages.append({"id": number, "method": "textDocument/formatting", "params": {**self.document(), "options": {}}})
        messages.append({"method": "$/cancelRequest", "params": {"id": 502}})
        bodies = [json.dumps({"jsonrpc": "2.0", **message}).encode() for message in messages]
        client.send_bytes(b"".join(b"Content-Length: %d\r\n\r\n" % len(body) + body for body in bodies))
        answers = {answer["id"]: answer for answer in (client.next_answer(), client.next_answer())}
        self.assertIn("result", answers[501])
        if "error" in answers[502]:
            self.assertEqual(answers[502]["error"]["code"], -32800)

    def test_a_cancelled_run(self) -> None:
        client = self.opened("HERE: JP HERE\nAWAY: CLS\n")
        request = client.begin("workspace/executeCommand", {"command": "chipbench.runTo", "arguments": [URI, 1]})
        # other requests are answered while it runs
        other = client.begin("textDocument/foldingRange", self.document())
        self.assertEqual(client.next_answer()["id"], other)
        client.tell("$/cancelRequest", {"id": request})
        answer = client.next_answer()
        self.assertEqual((answer["id"], answer["error"]["code"]), (request, -32800))
        client.tell("$/cancelRequest", {"id": 12345})
        client.tell("$/cancelRequest", None)
        client.tell("$/cancelRequest", {"id": [5]})
        self.assertEqual(client.close(), 0)

    def test_answers_come_in_order(self) -> None:
        client = self.opened()
        asked = [client.begin("textDocument/foldingRange", self.document()) for _ in range(50)]
        self.assertEqual([client.next_answer()["id"] for _ in asked], asked)

    def test_a_change_before_a_question_counts(self) -> None:
        client = self.opened("CLS\n")
        for number in range(30):
            client.change({"range": span((0, 0), (0, 99)), "text": f"DB {number}"})
            self.assertIn(f"bytes `{number:02x} 00`", client.at("hover", 0, 0)["contents"]["value"])

    def test_the_session_is_restarted_where_the_program_dies(self) -> None:
        client = self.opened()
        for _ in range(3):
            kill_children(client.process.pid)
            self.assertEqual(faults_of(client.edit((0, 0), (0, 0), "FOO\n")), [(1, "F3")])
            kill_children(client.process.pid)
            self.assertEqual(client.edit((0, 0), (1, 0), ""), [])
        self.assertIn("LOOP", client.at("hover", 3, 1)["contents"]["value"])

    def test_a_huge_document(self) -> None:
        client = self.opened("")
        found = client.edit((0, 0), (0, 0), "; a line that is long enough\n" * 200_000)
        self.assertEqual(faults_of(found), [(4001, "O2")])
        self.assertEqual(client.edit((0, 0), (200_000, 0), ""), [])
        self.assertEqual(faults_of(client.edit((0, 0), (0, 0), ";" * 3_000_000)), [(1, "O1")])
        code, text = client.refused("textDocument/rename", {**self.document(), "position": {"line": 0, "character": 0}, "newName": "A"})
        self.assertEqual(code, -32803)

    def test_lone_surrogates(self) -> None:
        client = self.opened("DA 'x'\n")
        self.assertEqual(client.edit((0, 4), (0, 5), "\ud83d"), [])
        self.assertIsNotNone(client.at("hover", 0, 4))
        self.assertEqual(faults_of(client.edit((0, 6), (0, 6), "\udc00")), [(1, "F1")])


def kill_children(process: int) -> None:
    """Kills the programs that a server has started: those whose parent it is, the fourth field of their state."""
    for place in Path("/proc").glob("[0-9]*/stat"):
        try:
            parent = int(place.read_text(encoding="utf-8", errors="replace").rpartition(")")[2].split()[1])
        except OSError:
            continue
        if parent == process:
            os.kill(int(place.parent.name), signal.SIGKILL)
    time.sleep(0.05)


class Settings(Served):
    def test_a_setting_that_no_argument_can_be(self) -> None:
        for profile in ("\udfff", "a\0b"):
            client = self.opened("CLS", options={"profile": profile})
            self.assertIn("program can't take these settings", self.first[0]["message"])
            client.tell("workspace/didChangeConfiguration", {"settings": {"chipbench": {"profile": "vip"}}})
            self.assertEqual(client.shown(), [])

    def test_settings_that_the_program_refuses(self) -> None:
        client = self.opened(options={"rate": 0, "every": [1], "tape": "xyz", "seed": None})
        self.assertIn("the faults are unknown", self.first[0]["message"])
        client.tell("workspace/didChangeConfiguration", {"settings": {"chipbench": {"rate": 7}}})
        self.assertEqual(client.shown(), [])

    def test_settings_that_are_nothing(self) -> None:
        client = self.opened(options=[1, 2])
        useless: list[Any] = [None, 5, {}, {"settings": 5}, {"settings": {"chipbench": 5}}]
        for settings in useless:
            client.tell("workspace/didChangeConfiguration", settings)
        self.assertEqual(client.edit((0, 0), (0, 0), ""), [])


class Launcher(unittest.TestCase):
    def test_through_a_link_and_without_its_files(self) -> None:
        with tempfile.TemporaryDirectory() as folder:
            link, copy = Path(folder) / "link", Path(folder) / "chipbench-lsp"
            link.symlink_to(TOP / "packaging/chipbench-lsp")
            shutil.copy(TOP / "packaging/chipbench-lsp", copy)
            found = subprocess.run([link, "--help"], capture_output=True, text=True)
            self.assertEqual((found.returncode, found.stdout.split()[:2]), (0, ["usage:", "chipbench-lsp"]))
            missing = subprocess.run([copy], capture_output=True, text=True)
            self.assertEqual((missing.returncode, "isn't where" in missing.stderr), (127, True))


class WithoutProgram(unittest.TestCase):
    def test_a_program_that_is_missing_or_fails(self) -> None:
        for program in ("/nowhere/chipbench", "/bin/false", "/bin/cat"):
            client = Client(program)
            self.addCleanup(client.kill)
            found = client.open(GAME)
            self.assertIn("the faults are unknown", found[0]["message"])
            self.assertEqual(len(client.at("references", 3, 1, context={"includeDeclaration": True})), 2)
            self.assertEqual(client.ask("textDocument/inlayHint", {"textDocument": {"uri": URI}, "range": span((0, 0), (9, 0))}), [])
            self.assertIn("Vx := Vx + kk", client.at("hover", 3, 9)["contents"]["value"])
            self.assertEqual(client.close(), 0)


if __name__ == "__main__":
    unittest.main()
