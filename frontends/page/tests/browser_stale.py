"""What is shown is of the document and the text that stand there: with a second file, after an edit, and while nothing runs."""

from __future__ import annotations

import json
import subprocess
import time

from browser_files import has_arrived
from browser_page import POINTS, PageTests
from driver import ALT

# no key: the machine stops with S5 at its first step
CRASH = ";! never V0 = 3 at DONE\nLOOP: LD V0, K\nSE V0, 3\nJP LOOP\nDONE: RET\n"
DRAWN = "LD F, V0\nDRW V1, V2, 5\nHERE: JP HERE\n"
FAULTY = "LD V0, #nope\nLD V1, 1\nLD V2, 1\n"
LONG = "LD V0, 1\nDB " + ",".join(["1"] * 120) + "\nLD V1, 2\n"


class StaleTests(PageTests):
    def found(self) -> None:
        """Waits for a crash and a broken property, as an author does who asks for them."""
        for name in ("crashes", "properties"):
            self.tab(name)
            self.browser.wait(f"document.getElementById('{name}-switch').textContent === 'Search'", 60.0)
            if self.browser.value(f"document.getElementById('{name}-badge').hidden"):
                self.press_button(f"#{name}-switch")
            self.browser.wait(f"!document.getElementById('{name}-badge').hidden", 60.0)

    def check_nothing_found(self) -> None:
        for name in ("crashes", "properties"):
            self.tab(name)
            assert self.browser.value(f"document.getElementById('{name}-badge').hidden"), name
        told = self.text_of("#crashes-text") + self.text_of("#properties-part")
        assert " at step " not in told, told

    def stop_searches(self) -> None:
        """As an author stops them: a search that has ended has nothing to stop."""
        for name in ("crashes", "properties"):
            self.tab(name)
            if self.text_of(f"#{name}-switch") == "Stop":
                self.press_button(f"#{name}-switch")

    def test_answers_go_with_an_edit(self) -> None:
        """Also once the searches were stopped: nothing is told by line of a text that has no such line."""
        with self.page(CRASH) as browser:
            self.found()
            self.stop_searches()
            browser.value("chipbenchPage.editor.replace(0, chipbenchPage.editor.length, 'LOOP: JP LOOP\\n')")
            self.check_nothing_found()

    def test_answers_go_with_their_document(self) -> None:
        with self.page(CRASH, "first.asm"):
            (self.folder / "second.asm").write_text("LOOP: JP LOOP\n")
            self.found()
            self.stop_searches()
            self.open_named("second.asm")
            self.check_nothing_found()

    def test_answers_come_back_with_their_text(self) -> None:
        with self.page(CRASH) as browser:
            self.found()
            browser.value("chipbenchPage.editor.goToLine(1); chipbenchPage.editor.type('; ')")
            browser.wait("document.getElementById('crashes-badge').hidden")
            browser.value("chipbenchPage.editor.undo()")
            assert not browser.value("document.getElementById('crashes-badge').hidden")

    def test_stop_is_offered_where_something_runs(self) -> None:
        with self.page(CRASH) as browser:
            self.found()
            self.tab("crashes")
            browser.wait("document.getElementById('crashes-switch').textContent === 'Search'", 60.0)

    def test_a_faulty_document_shows_no_other_machine(self) -> None:
        """Neither its screen, nor registers, nor names, nor words."""
        with self.page(DRAWN, "first.asm") as browser:
            (self.folder / "second.asm").write_text(FAULTY)
            self.step(2)
            assert browser.value(POINTS) != {}
            self.open_named("second.asm")
            self.rest()
            assert browser.value(POINTS) == {}, browser.value(POINTS)
            shown = self.registers()
            assert set(shown.values()) == {"–"}, shown
            assert self.text_of("#machine-state") == "no run: a line has a fault", self.text_of("#machine-state")
            assert self.text_of("#screen-size") == ""
            assert "HERE" not in self.text_of("#registers")
            for tab, part in (("words", "#disassembly tbody tr:not([hidden])"), ("stack", "#call-stack li"), ("memory", "#memory td:not(:empty)")):
                self.tab(tab)
                assert browser.value(f"document.querySelectorAll({json.dumps(part)}).length") == 0, tab
            # the machine before the faults is this document's own
            self.open_named("first.asm")
            self.step(2)
            self.put_line(1, "LD F")
            self.rest()
            assert browser.value(POINTS) != {}
            assert self.text_of("#machine-state") == "before the faults"

    def test_the_card_of_a_fault_goes_with_its_document(self) -> None:
        with self.page("JMP #200\n", "first.asm") as browser:
            (self.folder / "second.asm").write_text("LD V0, 1\n")
            browser.value("chipbenchPage.editor.goToLine(1)")
            browser.wait("document.querySelectorAll('#fault-help button').length > 1")
            self.open_named("second.asm")
            assert browser.value("document.getElementById('fault-help').hidden")
            browser.value("chipbenchPage.editor.focus()")
            browser.press("Enter", "Enter", ALT)
            time.sleep(0.2)
            assert browser.value("chipbenchPage.model.text") == "LD V0, 1\n", browser.value("chipbenchPage.model.text")

    def test_a_long_line_runs_nowhere(self) -> None:
        """As for `asm`: the line is told, and nothing runs, is searched or exported without it."""
        place = self.folder / "downloads"
        place.mkdir(exist_ok=True)
        with self.page("LD V0, 1\n", "game.asm") as browser:
            browser.downloads(place)
            browser.value(f"chipbenchPage.editor.replace(0, chipbenchPage.editor.length, {json.dumps(LONG)})")
            self.rest()
            assert self.text_of("#marks .told").startswith("O1"), self.text_of("#marks .told")
            assert self.text_of("#fault-count") == "1 fault, the first in line 2"
            assert "O1" in self.text_of("#machine-state"), self.text_of("#machine-state")
            assert browser.value("[...document.querySelectorAll('#fields .row')].every((row) => !/[0-9a-f]{4}/.test(row.textContent))")
            browser.click("#play")
            time.sleep(0.3)
            assert browser.value("[chipbenchPage.player.direction, chipbenchPage.model.step]") == [0, 0]
            for name in ("download-image", "export-game", "download-script"):
                browser.value(f"document.getElementById('{name}').click()")
                browser.wait("/line has a fault/.test(document.getElementById('notices').textContent)")
                browser.value("[...document.querySelectorAll('.notice button')].forEach((button) => button.click())")
            assert not has_arrived(place / "game.ch8") and not has_arrived(place / "game.html")
            self.tab("search")
            browser.value("document.querySelector('#search [value=next]').click()")
            browser.wait("/fault|no such/.test(document.getElementById('search-result').textContent)")
            self.tab("crashes")
            browser.wait("/a line has a fault/.test(document.getElementById('crashes-text').textContent)", 30.0)
            # the author's line is mended: all is there again
            self.put_line(2, "DB 1, 1")
            self.rest()
            self.check_step("LD V0, 1\nDB 1, 1\nLD V1, 2\n", 1, [])

    def test_too_many_lines_run_nowhere(self) -> None:
        text = "LD V0, 1\n" * 4001
        with self.page(text) as browser:
            self.rest()
            assert "O2" in self.text_of("#machine-state"), self.text_of("#machine-state")
            assert browser.value("chipbenchPage.editor.faultLines") == [4001]
            assert browser.value("chipbenchPage.model.lastStep") == 1_000_000

    def test_properties_are_those_of_the_program(self) -> None:
        """A line that isn't active states none."""
        text = ";! V0 <= 3\nIFDEF NOPE\n;! V1 = 0\nENDIF\n;! V2 <=\nLOOP: JP LOOP\nEND\n;! never V0 = 7\n"
        with self.page(text) as browser:
            self.tab("properties")
            place = self.folder / "proved.asm"
            place.write_text(text)
            said = subprocess.run([self.program, "prove", "--json", str(place)], capture_output=True, text=True).stdout
            lines = sorted(line for line in (json.loads(row).get("line") for row in said.splitlines()) if line is not None)
            browser.wait("document.querySelectorAll('#properties-rows li').length > 0", 30.0)
            shown = browser.value("[...document.querySelectorAll('#properties-rows .line')].map((one) => Number(one.textContent))")
            assert shown == lines == [1, 5], (shown, lines)

    def test_effects_are_those_of_the_profile(self) -> None:
        """At the foot, and below the pointer."""
        with self.page("OR V0, V1\n", words=("--profile", "vip")) as browser:
            browser.value("chipbenchPage.editor.goToLine(1); chipbenchPage.editor.select(1, 1)")
            browser.wait("/VF := 0/.test(document.getElementById('line-state').textContent)")
            browser.value("chipbenchPage.model.setOptions({ rate: '10', profile: 'schip' })")
            browser.wait("/VF stays/.test(document.getElementById('line-state').textContent)")

    def test_an_export_is_of_its_document(self) -> None:
        """The image of one document isn't downloaded under the name of another, which was opened meanwhile."""
        place = self.folder / "downloads"
        place.mkdir(exist_ok=True)
        with self.page("CLS\n", "first.asm") as browser:
            (self.folder / "second.asm").write_text("RET\n")
            browser.downloads(place)
            browser.value(
                "{ const { workbench } = chipbenchPage; const answers = workbench.answers.bind(workbench); workbench.answers = async (wanted, questions) => {"
                "const found = await answers(wanted, questions); if (questions[0] === 'image') await new Promise((done) => { globalThis.goOn = done; }); return found; }; }"
            )
            browser.value("document.getElementById('download-image').click()")
            browser.wait("globalThis.goOn !== undefined")
            self.open_named("second.asm")
            browser.value("goOn()")
            time.sleep(0.5)
            assert sorted(one.name for one in place.iterdir()) == []
