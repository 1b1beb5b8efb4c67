"""Random events over several documents: whatever is shown is what the program itself says of the text, the keys and the settings there."""

from __future__ import annotations

import json
import os
import random
import subprocess
from typing import Any

from browser_page import PageTests

#: So many events are tried; CHIPBENCH_PAGE_EVENTS has another number, and CHIPBENCH_PAGE_SEED another seed.
EVENTS = 120
NAMES = ("one.asm", "two.asm", "three.asm", "four.asm")
TEXTS = (
    "LD V0, 1\nLOOP: ADD V0, 1\nLD F, V0\nDRW V0, V1, 5\nJP LOOP\n",
    ";! never V0 = 3\nLOOP: LD V0, K\nSE V0, 3\nJP LOOP\nRET\n",
    "RND V3, 255\nLD I, DATA\nLD B, V3\nLD V2, [I]\nHERE: JP HERE\nDATA: DB 1, 2, 3\n",
    "NOWHERE: JP ELSEWHERE\n",
)
GOOD = ("CLS", "LD V1, 7", "ADD V2, V1", "; a comment", "", "L{}: LD V3, 9", "SKP V0", "SHR V1, V2", "LD [I], V2", "OR V1, V2", ";! V0 <= 9", "DB 1, 2")
BAD = ("LD V0", "JP NOWHERE", "?", "LD V0, 300", "IFDEF X")
LONG = "DB " + ",".join(["1"] * 120)
PROFILES = ("schip", "vip", "chip48", "octo")
STATE = """(({ model, editor }) => ({
    text: model.text, step: model.step, options: model.options, name: document.getElementById('file-name').textContent,
    keys: model.keys.events, faults: editor.faultLines.map((line) => [line, editor.faultAt(line)]),
    machine: document.getElementById('machine-state').textContent, isStale: document.body.hasAttribute('data-stale'),
    isPending: document.body.hasAttribute('data-pending'), count: document.getElementById('fault-count').textContent,
    told: [...document.querySelectorAll('#crashes-text, #properties-rows .line, #properties-rows .bad')].map((one) => one.textContent),
}))(chipbenchPage)"""


class RandomTests(PageTests):
    def test_random_events(self) -> None:
        seed = int(os.environ.get("CHIPBENCH_PAGE_SEED", random.randrange(10**9)))
        count = int(os.environ.get("CHIPBENCH_PAGE_EVENTS", EVENTS))
        print(f"    {count} events, of seed {seed}")
        chance = random.Random(seed)
        for name, text in zip(NAMES, TEXTS):
            (self.folder / name).write_text(text)
        # the text of each document, as it was left
        texts: dict[str, str] = dict(zip(NAMES, TEXTS))
        done: list[str] = []
        with self.page(TEXTS[0], NAMES[0]):
            for _ in range(count):
                name = self.browser.value("document.getElementById('file-name').textContent")
                try:
                    done.append(self.happen(chance, texts, name))
                    if chance.random() < 0.4:
                        self.check(chance, texts)
                except AssertionError as fault:
                    told = self.browser.value("[...document.querySelectorAll('.notice')].map((one) => one.textContent)")
                    raise AssertionError(f"seed {seed}, after {done[-8:]}, told {told}: {fault}") from None

    def happen(self, chance: random.Random, texts: dict[str, str], name: str) -> str:
        """One event; says which."""
        browser = self.browser
        lines = max(1, texts[name].count("\n"))
        kind = chance.choices(("edit", "undo", "redo", "open", "step", "key", "profile", "reload", "save"), (9, 3, 1, 4, 5, 4, 2, 1, 1))[0]
        if kind == "edit":
            text = chance.choices((chance.choice(GOOD).format(chance.randrange(99)), chance.choice(BAD), LONG), (8, 2, 1))[0]
            line, isNew = chance.randint(1, lines), chance.random() < 0.4
            browser.value(
                f"(({{ editor }}) => {{ const line = {line}; const from = editor.placeOf(line, 0); const to = {'from' if isNew else 'from + (editor.lines[line - 1] ?? []).length'};"
                f"editor.replace(from, to, {json.dumps(text + chr(10) if isNew else text)}); }})(chipbenchPage)"
            )
        elif kind in ("undo", "redo"):
            browser.value(f"chipbenchPage.editor.undo({json.dumps(kind == 'redo')})")
        elif kind == "open":
            other = chance.choice([one for one in NAMES if one != name])
            self.open_named(other)
            assert browser.value("chipbenchPage.model.text") == texts[other], (other, texts[other], browser.value("chipbenchPage.model.text"))
            return f"open {other}"
        elif kind == "step":
            browser.value(f"chipbenchPage.model.setStep({chance.choice((0, 1, 2, 7, 60, 1000))})")
        elif kind == "key":
            browser.value(f"chipbenchPage.model.setKeys(chipbenchPage.model.keys.with({chance.randrange(40)}, {chance.randrange(16)}, {json.dumps(chance.random() < 0.5)}))")
        elif kind == "profile":
            browser.value(f"chipbenchPage.model.setOptions({{ rate: '10', profile: {json.dumps(chance.choice(PROFILES))} }})")
        elif kind == "reload":
            self.reload_settled()
            assert browser.value("chipbenchPage.model.text") == texts[name], (name, texts[name], browser.value("chipbenchPage.model.text"))
        else:
            browser.value("chipbenchPage.documents.save()" if not self.is_one_file else "null")
        texts[name] = browser.value("chipbenchPage.model.text")
        return kind

    def reload_settled(self) -> None:
        self.browser.reload()
        self.browser.wait("globalThis.chipbenchPage?.viewer.machine")

    def check(self, chance: random.Random, texts: dict[str, str]) -> None:
        """What is shown is what the program says."""
        self.tab(chance.choice(("words", "crashes", "properties", "keys")))
        self.rest()
        shown: dict[str, Any] = self.browser.value(STATE)
        text = shown["text"]
        assert text == texts[shown["name"]], shown["name"]
        assert not shown["isPending"]
        if any(len(line) > 200 for line in text.split("\n")):
            long = [[number, "O1"] for number, line in enumerate(text.split("\n"), 1) if len(line) > 200]
            assert (shown["faults"], shown["isStale"], "O1" in shown["machine"]) == (long, True, True), shown
            return
        words = tuple(part for name, value in shown["options"].items() for part in (f"--{name}", value))
        said = [row.split() for row in self.said(text, ["faults"], words).splitlines()[:-1]]
        assert shown["faults"] == [[int(line), code] for line, code in said], (shown["faults"], said)
        lines = text.count("\n") + 1
        assert all(int(one) <= lines for one in shown["told"] if one.isdigit()), shown["told"]
        if said:
            assert shown["isStale"] and shown["machine"] in ("before the faults", "no run: a line has a fault"), shown
            return
        assert not shown["isStale"], shown
        events = [f"kins {event['step']} {event['key']} {'down' if event['down'] else 'up'}" for event in shown["keys"]]
        self.check_step(text, shown["step"], events, words)
        self.check_crash(shown["told"], text, words)

    def check_crash(self, told: list[str], text: str, words: tuple[str, ...]) -> None:
        """A crash that is told is one that the program finds."""
        if not any(" at step " in one and one[:1] == "S" for one in told):
            return
        place = self.folder / "explored.asm"
        place.write_text(text)
        said = subprocess.run([self.program, "explore", *(word for word in words), str(place)], capture_output=True, text=True).stdout
        code, step = said.split()[:2]
        assert any(one.startswith(f"{code} at step {int(step.rstrip(',')):,}") for one in told), (told, said)
