"""The language server on lines that state properties: their names are names, and a proof ends with an edit."""

from __future__ import annotations

import subprocess
import sys
import unittest
from pathlib import Path
from typing import Any

sys.path.insert(0, str(Path(__file__).resolve().parent))

from client import URI, span  # noqa: E402
from message_client import SECONDS  # noqa: E402
from programs import NeedsWords  # noqa: E402
from test_server import Served, applied  # noqa: E402

# V0 goes up by STEP to 20, and HERE is passed with V0 = 5, 8, ..
GAME = """STEP    EQU 3
;! always V0 <= STEP + 17
START:  LD V0, 5
LOOP:   ADD V0, STEP
;! never [BALL + 1] = 9 at LOOP
        SE V0, 20
        JP LOOP
;! ever at (HALT)
HALT:   JP HALT
BALL:   DB 1, 2
"""
# three counters that a player moves as he likes: a search of all their values is long
LONG = """;! always V0 <= 254 or V1 <= 254 or V2 <= 254
LOOP: LD V3, K
ADD V0, V3
SKP V3
ADD V1, 1
SE V0, 7
ADD V2, 3
JP LOOP
"""


class Properties(Served, NeedsWords):
    def proved(self, source: str) -> tuple[int, str]:
        """How `prove` ends on a source, and what it prints without the properties' texts."""
        done = subprocess.run([self.program, "prove", "-"], input=source.encode(), capture_output=True, timeout=120)
        return done.returncode, "\n".join(line.split(": ")[1] for line in done.stdout.decode().splitlines() if line.startswith("-:"))

    def renamed(self, client: Any, line: int, column: int, name: str) -> str:
        return applied(GAME, client.at("rename", line, column, newName=name)["changes"][URI])

    def test_a_name_is_renamed_in_properties_too(self) -> None:
        client = self.opened(GAME)
        self.assertEqual(self.first, [])
        for line, column, old, new, count in (
            (0, 0, "STEP", "STRIDE", 3), (3, 0, "LOOP", "AGAIN", 3), (9, 0, "BALL", "BAT", 2), (8, 0, "HALT", "END_", 3)
        ):
            source = self.renamed(client, line, column, new)
            self.assertEqual((source.count(new), old in source), (count, False), new)
            self.assertEqual(self.proved(source), self.proved(GAME), new)
        # also from a place in a property
        self.assertEqual(self.renamed(client, 4, 28, "AGAIN"), self.renamed(client, 3, 0, "AGAIN"))

    def test_a_name_that_is_a_word_of_properties_gets_parentheses(self) -> None:
        client = self.opened(GAME)
        source = self.renamed(client, 3, 0, "depth")
        self.assertIn(";! never [BALL + 1] = 9 at (depth)\n", source)
        self.assertEqual(self.proved(source), self.proved(GAME))
        source = self.renamed(client, 9, 0, "PC")
        self.assertIn(";! never [PC + 1] = 9 at LOOP\n", source)
        self.assertEqual(self.proved(source), self.proved(GAME))

    def test_references_highlights_and_definition(self) -> None:
        client = self.opened(GAME)
        found = client.at("references", 3, 1, context={"includeDeclaration": True})
        self.assertEqual([use["range"]["start"]["line"] for use in found], [3, 4, 6])
        self.assertEqual(len(client.at("documentHighlight", 4, 27)), 3)
        self.assertEqual(client.at("definition", 4, 11)[0]["range"]["start"], {"line": 9, "character": 0})
        # words of a property are no names
        self.assertEqual(client.at("definition", 4, 4), [])
        self.assertIsNone(client.at("prepareRename", 1, 10))

    def test_hover(self) -> None:
        client = self.opened(GAME)
        for line, column, said in ((1, 17, "**STEP** = 3"), (4, 28, "**LOOP** = 514"), (1, 4, "holds before every step"),
                                   (1, 11, "register V0"), (1, 24, "17 = #11"), (7, 4, "some player reaches")):
            self.assertIn(said, client.at("hover", line, column)["contents"]["value"])
        # LOOP is at #202, and the address of the property is not that of a name in it
        self.assertNotIn("address", client.at("hover", 4, 28)["contents"]["value"])

    def test_a_proof_says_how_far_it_is_and_ends_with_an_edit(self) -> None:
        client = self.opened(LONG, capabilities={"window": {"workDoneProgress": True}})
        for ending in ("edit", "cancel", "request"):
            request = client.begin("workspace/executeCommand", {"command": "chipbench.prove", "arguments": [URI, 0]})
            token = self.told(client, "window/workDoneProgress/create")["token"]
            self.assertEqual(self.told(client, "$/progress")["value"]["kind"], "begin")
            # the search says something each 250,000 states
            self.assertRegex(self.told(client, "$/progress")["value"]["message"], "^step [0-9]+, [0-9]+ states")
            if ending == "edit":
                client.change({"range": span((1, 0), (1, 0)), "text": " "})
            elif ending == "cancel":
                client.tell("window/workDoneProgress/cancel", {"token": token})
            else:
                client.tell("$/cancelRequest", {"id": request})
            self.assertEqual(client.next_answer()["error"]["code"], -32801 if ending == "edit" else -32800)
            while (value := self.told(client, "$/progress")["value"])["kind"] != "end":
                self.assertEqual(value["kind"], "report")

    def test_the_token_of_a_client(self) -> None:
        client = self.opened(GAME)
        command = {"command": "chipbench.prove", "arguments": [URI, 1], "workDoneToken": 7}
        self.assertEqual(client.ask("workspace/executeCommand", command)["text"], "proved for any keys, random bytes and speed")
        values = [self.told(client, "$/progress") for _ in range(2)]
        self.assertEqual([(one["token"], one["value"]["kind"]) for one in values], [(7, "begin"), (7, "end")])
        self.assertEqual(values[0]["value"]["title"], "prove always V0 <= STEP + 17")

    def told(self, client: Any, method: str) -> Any:
        """The parameters of the next message of a method."""
        while True:
            message = client.told.get(timeout=SECONDS)
            if message["method"] == method:
                return message["params"]


if __name__ == "__main__":
    unittest.main()
