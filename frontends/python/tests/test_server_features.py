"""What the language server offers while one types and reads: operands, fixes of the help, colours, calls, all names."""

from __future__ import annotations

import doctest
import sys
import unittest
from pathlib import Path
from typing import Any

sys.path.insert(0, str(Path(__file__).resolve().parent))

from client import URI, Client, span  # noqa: E402
from test_server import Served  # noqa: E402

from chipbench import Bench, check  # noqa: E402
from chipbench_lsp import diagnostics, document, language, names, operands, positions, runs, tokens, wire  # noqa: E402
from chipbench_lsp.tables import TABLES  # noqa: E402

GAME = """STEP    EQU 3
; Makes the ball faster.
; V0 is the speed.
FASTER: ADD V0, STEP
        CALL DRAW
        RET
DRAW:   LD I, BALL
        DRW V1, V2, 4
        RET
;! always V0 <= 9
START:  CALL FASTER
        CALL DRAW
        JP START
BALL:   DB 1, 2
"""


def load_tests(loader: unittest.TestLoader, tests: unittest.TestSuite, pattern: str | None) -> unittest.TestSuite:
    """The docstrings are tests too; they need no program."""
    for module in (operands, tokens, wire):
        tests.addTests(doctest.DocTestSuite(module))
    return tests


class Typing(Served):
    def labels(self, client: Client, text: str) -> list[str]:
        """What is offered at the end of a line, in the order in which an editor shows it."""
        client.edit((14, 0), (14, 999), text)
        items = client.at("completion", 14, len(text))
        return [str(item["label"]) for item in sorted(items, key=lambda item: str(item.get("sortText", item["label"])))]

    def test_operands_are_offered_by_their_kind(self) -> None:
        client = self.opened(GAME)
        registers = [f"V{digit:X}" for digit in range(16)]
        for text, wanted in (
            ("LD I, ", ["BALL", "DRAW", "FASTER", "START", "STEP"]), ("CALL ", ["BALL", "DRAW", "FASTER", "START", "STEP"]),
            ("JP ", ["BALL", "DRAW", "FASTER", "START", "STEP", "V0"]), ("JP V0, ", ["BALL", "DRAW", "FASTER", "START", "STEP"]),
            ("DRW V0, V1, ", ["STEP", *map(str, range(1, 16))]), ("DRW V0, ", registers), ("SKP ", registers),
            ("SE V1,R", registers), ("SE V1, S", ["STEP", "START"]), ("LD V0, V", registers), ("LD [", ["I]"]),
            ("LD [I], ", registers), ("LD DT, ", registers), ("LD V3, D", ["DRAW", "DT"]), ("CLS ", []),
            ("DB ", ["BALL", "DRAW", "FASTER", "START", "STEP"]),
        ):
            self.assertEqual(self.labels(client, text), wanted, text)

    def test_of_many_names_some_are_offered_until_more_is_typed(self) -> None:
        client = self.opened("".join(f"L{number}:\n" for number in range(1200)) + "JP \n")
        found = client.at("completion", 1200, 3)
        self.assertEqual((found["isIncomplete"], len(found["items"])), (True, 201))
        client.edit((1200, 3), (1200, 3), "L119")
        found = [item["label"] for item in client.at("completion", 1200, 7)]
        self.assertEqual(found, ["L119", *(f"L119{digit}" for digit in range(10))])

    def test_fixes_that_the_help_names(self) -> None:
        client = self.opened(GAME)
        for text, wanted in (
            ("MOV V0, 5", "LD V0, 5"), ("mov V0, 5", "ld V0, 5"), ("LD V0, $F0", "LD V0, #F0"), ("LD V0, 0xF0", "LD V0, #F0"),
            ("LD V0, 0F0h", "LD V0, #0F0"), ("LD V0, 0b101", "LD V0, $101"), ("LD V0, %101 ; x", "LD V0, $101 ; x"),
            ("JMP START", "JP START"), (".db 5", "db 5"), ("v0 := 5", "LD V0, 5"),
        ):
            client.edit((14, 0), (14, 999), text)
            where = {"textDocument": {"uri": URI}, "range": span((14, 0), (14, 0)), "context": {"diagnostics": []}}
            actions = client.ask("textDocument/codeAction", where)
            made = [action["edit"]["changes"][URI][0]["newText"] for action in actions if action["kind"] == "quickfix"]
            self.assertEqual(made[:1], [wanted], text)

    def test_the_forms_of_what_is_typed(self) -> None:
        client = self.opened(GAME)
        for text, forms, parameter in (
            ("DRW ", ["DRW Vx, Vy, n"], 0), ("DRW V0, V1, ", ["DRW Vx, Vy, n"], 2), ("LD I, ", ["LD I, a"], 1),
            ("SE V1, ", ["SE Vx, kk", "SE Vx, Vy"], 1), ("A: skp ", ["SKP Vx"], 0), ("SHR V1, ", ["SHR Vx, Vy"], 1),
        ):
            client.edit((14, 0), (14, 999), text)
            found = client.at("signatureHelp", 14, len(text))
            self.assertEqual(([one["label"] for one in found["signatures"]], found["activeParameter"]), (forms, parameter), text)
            label = found["signatures"][0]
            start, end = label["parameters"][parameter]["label"]
            self.assertEqual(label["label"][start:end], operands.operands_of(label["label"])[parameter])
        for text in ("CLS ", "; DRW ", "DB ", "", "LD"):
            client.edit((14, 0), (14, 999), text)
            self.assertIsNone(client.at("signatureHelp", 14, len(text)), text)


class Reading(Served):
    def test_colours_by_meaning(self) -> None:
        client = self.opened("STEP EQU 3 ; \U0001f600\nA: ADD V0, STEP\n;! never V0 = STEP at A\n\nJP A\n")
        found = client.ask("textDocument/semanticTokens/full", self.document())["data"]
        self.assertEqual(self.shown(client, found), [
            (0, 0, 4, "enumMember", "declaration readonly"), (0, 5, 3, "macro", ""), (0, 9, 1, "number", ""),
            (0, 11, 4, "comment", ""), (1, 0, 1, "function", "declaration"), (1, 3, 3, "keyword", ""),
            (1, 7, 2, "variable", ""), (1, 11, 4, "enumMember", "readonly"),
            (2, 0, 2, "macro", ""), (2, 3, 5, "keyword", ""), (2, 9, 2, "variable", ""), (2, 14, 4, "enumMember", "readonly"),
            (2, 19, 2, "keyword", ""), (2, 22, 1, "function", ""), (4, 0, 2, "keyword", ""), (4, 3, 1, "function", ""),
        ])
        part = client.ask("textDocument/semanticTokens/range", {**self.document(), "range": span((4, 0), (5, 0))})["data"]
        self.assertEqual(self.shown(client, part), [(4, 0, 2, "keyword", ""), (4, 3, 1, "function", "")])

    def shown(self, client: Client, data: list[int]) -> list[tuple[int, int, int, str, str]]:
        """Tokens with their places and the words of the legend."""
        legend = client.capabilities["semanticTokensProvider"]["legend"]
        found, line, column = [], 0, 0
        for lines, columns, length, kind, bits in zip(*(data[start::5] for start in range(5))):
            line, column = line + lines, columns + (column if lines == 0 else 0)
            modifiers = " ".join(word for place, word in enumerate(legend["tokenModifiers"]) if bits >> place & 1)
            found.append((line, column, length, legend["tokenTypes"][kind], modifiers))
        return found

    def test_names_of_all_documents(self) -> None:
        client = self.opened(GAME)
        other = "file:///tmp/other.asm"
        client.open("DRAWN EQU 5\n", other)
        found = client.ask("workspace/symbol", {"query": "draw"})
        self.assertEqual([(one["name"], one["kind"], one["location"]["uri"]) for one in found],
                         [("DRAW", 12, URI), ("DRAWN", 14, other)])
        self.assertEqual(len(client.ask("workspace/symbol", {"query": ""})), 6)

    def test_who_calls_whom(self) -> None:
        client = self.opened(GAME)
        [draw] = client.at("prepareCallHierarchy", 4, 14)
        self.assertEqual((draw["name"], draw["selectionRange"]), ("DRAW", span((6, 0), (6, 4))))
        found = client.ask("callHierarchy/incomingCalls", {"item": draw})
        # START is called by nobody: its lines belong to the subroutine before it
        self.assertEqual([(one["from"]["name"], [place["start"]["line"] for place in one["fromRanges"]]) for one in found],
                         [("FASTER", [4]), ("DRAW", [11])])
        [faster] = client.at("prepareCallHierarchy", 3, 1)
        found = client.ask("callHierarchy/outgoingCalls", {"item": faster})
        self.assertEqual([(one["to"]["name"], one["fromRanges"]) for one in found], [("DRAW", [span((4, 13), (4, 17))])])
        self.assertEqual(client.at("prepareCallHierarchy", 4, 9), [])

    def test_the_comment_above_a_label_is_in_its_hover(self) -> None:
        client = self.opened(GAME)
        said = client.at("hover", 10, 15)["contents"]["value"]
        self.assertIn("; Makes the ball faster.\n; V0 is the speed.\nFASTER: ADD V0, STEP", said)
        # a property is no comment on a label
        self.assertNotIn("always", client.at("hover", 12, 12)["contents"]["value"])

    def test_nothing_is_said_to_be_below(self) -> None:
        self.assertNotIn("see below", str(TABLES))


class Effort(Served):
    """An edit of one line makes no part of an answer anew that is about another line."""

    def test_a_letter_in_a_comment_of_a_long_source(self) -> None:
        lines = [f"L{number}: LD V{number % 15:X}, 3" if number % 2 else f"; of {number}" for number in range(3400)]
        text = "\n".join(lines) + "\n"
        opened = document.Document("file:///a", 1, text, positions.Columns(), lambda source: Bench(source, program=self.program))
        self.addCleanup(opened.close)
        places = diagnostics.Places()
        places.learn(opened.lines, check(text, self.program))
        makers: tuple[Any, ...] = (diagnostics.placed_diagnostic, names.symbol, runs.lens, tokens.numbers, language.read_line)
        made: list[list[int]] = []
        for change in ("", "x"):
            opened.change([{"range": span((2000, 3), (2000, 3)), "text": change}])
            shown = diagnostics.diagnostics(opened, places, self.program)
            answers = names.symbols(opened), runs.lenses(opened), tokens.tokens(opened, 0, opened.line_count)["data"]
            self.assertEqual([len(shown.found), *map(len, answers)], [201, 1700, 1700, 3400])
            made.append([maker.cache_info().misses for maker in makers])
        self.assertTrue(all(after - before <= 1 for before, after in zip(*made)), made)


if __name__ == "__main__":
    unittest.main()
