"""Playing: arrow keys, breakpoints, the end of a run, faults; and the settings, which belong to the file."""

from __future__ import annotations

import json
import time

from browser_page import SETTLED, PageTests
from driver import CONTROL

LOOP = "LD V0, 5\nLOOP: ADD V1, 1\nSE V1, 200\nJP LOOP\nHERE: LD V1, 0\nJP LOOP\n"
DIRECTION = "chipbenchPage.player.direction"


class PlayTests(PageTests):
    def chosen(self, **fields: str | bool) -> None:
        """Makes settings in the dialog."""
        self.browser.click("#show-settings")
        for name, value in fields.items():
            field = f"document.querySelector('#settings form').elements.{name}"
            self.browser.value(f"{field}.{'checked' if isinstance(value, bool) else 'value'} = {json.dumps(value)}")
            self.browser.value(f"{{ const field = {field}; if (field.dispatchEvent) {{ field.dispatchEvent(new Event('input')); field.dispatchEvent(new Event('change')); }} }}")
        self.browser.click("#settings [value=apply]")
        self.rest()

    def test_arrow_keys_end_no_play(self) -> None:
        with self.page(self.example("guess"), words=("--tape", "05")) as browser:
            state = f"[{DIRECTION}, chipbenchPage.model.keys.size]"
            browser.value("document.getElementById('close-up').focus()")
            browser.press(" ", "Space")
            browser.wait("chipbenchPage.model.step > 50")
            for name in ("ArrowLeft", "ArrowRight", "ArrowUp"):
                browser.press(name, hold=0.05)
                assert browser.value(state) == [1, 0], (name, browser.value(state))

    def test_arrow_keys_of_the_game(self) -> None:
        """While it plays the arrow keys are the game's keys, where the settings say which."""
        with self.page(self.example("guess"), words=("--tape", "05")) as browser:
            size = "chipbenchPage.model.keys.size"
            self.chosen(preset="2486")
            browser.value("document.getElementById('close-up').focus()")
            browser.press(" ", "Space")
            time.sleep(0.2)
            for name in ("ArrowUp", "ArrowLeft"):
                browser.press(name, hold=0.12)
                time.sleep(0.15)
            browser.press(" ", "Space")
            self.rest()
            events = browser.value("chipbenchPage.model.keys.events")
            assert [(event["key"], event["down"]) for event in events] == [(2, True), (2, False), (4, True), (4, False)], events
            # at rest they move the step, as ever
            at = browser.value("chipbenchPage.model.step")
            browser.press("ArrowRight")
            assert browser.value("chipbenchPage.model.step") == at + 1 and browser.value(size) == 4
            self.chosen(preset="2486 letters")
            browser.value("document.getElementById('close-up').focus()")
            browser.press(" ", "Space")
            time.sleep(0.2)
            browser.press("d", "KeyD", hold=0.12)
            browser.press(" ", "Space")
            assert 6 in [event["key"] for event in browser.value("chipbenchPage.model.keys.events")]

    def test_play_stops_at_breakpoints(self) -> None:
        with self.page(LOOP) as browser:
            states = [line.split()[1] for line in self.said(LOOP, [f"regs {step}" for step in range(1300)]).splitlines()[1::3]]
            stops = [step for step, pc in enumerate(states) if pc == "0208"]
            assert len(stops) == 2
            browser.value("chipbenchPage.editor.breakpoints.set([5])")
            for stop in stops:
                browser.click("#play")
                browser.wait(f"chipbenchPage.model.step === {stop} && {DIRECTION} === 0")
                browser.wait("/^breakpoint at step/.test(document.getElementById('run-result').textContent)")
            self.rest()
            assert self.registers()["pc"] == "0208"

    def test_what_is_told_of_a_step_goes_with_it(self) -> None:
        """The answer of a search, and why a run ended, aren't told of the step after."""
        with self.page(LOOP) as browser:
            for run in ("chipbenchPage.editor.breakpoints.set([5]); document.querySelector('[data-run=break-on]').click()", "chipbenchPage.editor.goToLine(5); document.getElementById('search-line').click()"):
                self.step(0)
                browser.value(run)
                told = "[...document.querySelectorAll('#run-result, #search-result')].map((one) => one.textContent).join('')"
                browser.wait(f"/step [1-9]/.test({told})")
                browser.value("document.getElementById('close-up').focus()")
                browser.press("ArrowRight")
                browser.wait(f"{told} === ''")

    def test_play_without_a_run(self) -> None:
        """A fault pauses a play, which records nothing and says why; it begins none either."""
        with self.page(LOOP) as browser:
            browser.click("#play")
            browser.wait("chipbenchPage.model.step > 100")
            self.put_line(1, "LD V0, NOWHERE")
            browser.wait(f"{DIRECTION} === 0")
            at = browser.value("chipbenchPage.model.step")
            assert "a line has a fault" in self.text_of("#run-result"), self.text_of("#run-result")
            browser.value("document.getElementById('close-up').focus()")
            browser.press(" ", "Space")
            browser.press("w", "KeyW", hold=0.1)
            time.sleep(0.3)
            assert browser.value(f"[chipbenchPage.model.step, chipbenchPage.model.keys.size, {DIRECTION}]") == [at, 0, 0]
            assert self.text_of("#machine-state") == "before the faults"
            self.put_line(1, "LD V0, 5")
            self.rest()
            browser.click("#play")
            browser.wait(f"chipbenchPage.model.step > {at + 100}")

    def test_the_end_of_the_run(self) -> None:
        """It is told before it comes, and what there is then."""
        with self.page(LOOP) as browser:
            last = browser.value("chipbenchPage.model.lastStep")
            self.step(last - 2400)
            self.rest()
            browser.click("#play")
            browser.wait("/^the run ends in [1-5] s, at step 1,000,000/.test(document.getElementById('run-result').textContent)")
            browser.wait(f"{DIRECTION} === 0")
            assert browser.value("chipbenchPage.model.step") == last
            assert "Play starts again at step 0" in self.text_of("#run-result"), self.text_of("#run-result")

    def test_settings_belong_to_the_file(self) -> None:
        """Each file has its own, which come back with it."""
        text = "RND V0, 255\nADD V1, 1\nJP #200\n"
        with self.page(text, "first.asm") as browser:
            (self.folder / "second.asm").write_text("RND V1, 255\n")
            self.chosen(random="seed", seed="7", rate="20", profile="vip", every="5000")
            browser.value("chipbenchPage.editor.breakpoints.set([2])")
            self.step(40)
            self.open_named("second.asm")
            self.rest()
            state = (
                "(({ model, editor }) => { const { seed, tape, rate, profile, every } = { seed: '', tape: '', profile: 'schip', every: '1000', ...model.options };"
                "return [seed, tape, rate, profile, every, editor.breakpoints.lines, model.step]; })(chipbenchPage)"
            )
            assert browser.value(state) == ["", "", "10", "schip", "1000", [], 0], browser.value(state)
            self.check_step("RND V1, 255\n", 1, [])
            self.chosen(random="tape", tape="05", rate="30", every="2000")
            self.step(5)
            self.open_named("first.asm")
            self.rest()
            assert browser.value(state) == ["7", "", "20", "vip", "5000", [2], 40], browser.value(state)
            self.check_step(text, 40, [], ("--seed", "7", "--rate", "20", "--profile", "vip"))
            self.open_named("second.asm")
            self.rest()
            assert browser.value(state) == ["", "05", "30", "schip", "2000", [], 5], browser.value(state)
            self.reload()
            assert browser.value(state) == ["", "05", "30", "schip", "2000", [], 5], browser.value(state)

    def test_colours_and_arrows_belong_to_the_file(self) -> None:
        with self.page("CLS\n", "first.asm") as browser:
            (self.folder / "second.asm").write_text("RND V1, 255\n")
            state = "[document.documentElement.dataset.screen, document.querySelector('#settings form').elements.arrows.value]"
            self.chosen(screen="amber", preset="5789")
            for name, wanted in (("second.asm", ["theme", ""]), ("first.asm", ["amber", "5789"])):
                self.open_named(name)
                browser.click("#show-settings")
                assert browser.value(state) == wanted, (name, browser.value(state))
                browser.click("#settings [value=cancel]")

    def test_a_new_game_has_a_seed(self) -> None:
        """One that stays with it."""
        with self.page_of_nothing() as browser:
            seed = browser.value("chipbenchPage.model.options.seed ?? '0'")
            assert 1 <= int(seed) <= 9999, seed
            browser.value("document.getElementById('start-empty').click()")
            self.put_line(1, "RND V0, 255")
            self.rest()
            time.sleep(0.5)
            self.reload()
            browser.wait(SETTLED)
            assert browser.value("chipbenchPage.model.options.seed") == seed
            self.check_step("RND V0, 255", 1, [], ("--seed", seed))

    def test_sound_stays(self) -> None:
        with self.page("CLS\n") as browser:
            for wanted in ("true", "false"):
                browser.click("#sound")
                self.reload()
                assert browser.value("document.getElementById('sound').ariaPressed") == wanted

    def test_crashes(self) -> None:
        """Keys under which the machine stops are found beside the author's work; they are shown, and what was there comes back."""
        text = "LOOP: LD V0, K\nSE V0, 3\nJP LOOP\nRET\n"
        with self.page(text) as browser:
            keys = "JSON.stringify(chipbenchPage.model.keys.events)"
            browser.value("chipbenchPage.model.setKeys(chipbenchPage.model.keys.with(10, 2, true).with(14, 2, false))")
            mine = browser.value(keys)
            self.tab("crashes")
            browser.wait("/^S5 at step 3(, line 4)?: a return was made with an empty call stack. 2 key events lead there/.test(document.getElementById('crashes-text').textContent)", 60.0)
            assert not browser.value("document.getElementById('crashes-badge').hidden")
            browser.click("#crashes-show")
            self.check_step(text, 3, ["kins 0 3 down", "kins 1 3 up"])
            assert self.registers()["state"] == "S5"
            assert browser.value("chipbenchPage.model.flag.step") == 3
            self.picture("crash")
            browser.click("#crashes-mine")
            assert browser.value(keys) == mine and browser.value("chipbenchPage.model.flag") is None
            browser.click("#crashes-show")
            browser.value("document.activeElement.blur()")
            browser.press("z", "KeyZ", CONTROL)
            assert browser.value(keys) == mine
            # the search goes along with the source
            self.put_line(4, "JP LOOP")
            browser.wait("document.getElementById('crashes-text').textContent === 'Proved: this game can’t crash, with any keys, any random bytes and any speed.'", 60.0)
            assert browser.value("document.getElementById('crashes-badge').hidden")
            self.put_line(4, "JP NOWHERE")
            browser.wait("/a line has a fault/.test(document.getElementById('crashes-text').textContent)", 60.0)
            assert self.text_of("#crashes-switch") == "Search"

    def test_a_search_for_crashes_is_stopped(self) -> None:
        """A long one ends by itself after a second, goes on where the author asks, and ends at the press of a button."""
        # Each key that was pressed stays in the memory, so there are many states, and I may come to its end.
        with self.page("LD V1, 16\nLD I, #F00\nLOOP: LD V0, K\nLD [I], V0\nADD I, V1\nJP LOOP\n") as browser:
            self.tab("crashes")
            # unasked it looks for a moment
            browser.wait("/^Paused after a while/.test(document.getElementById('crashes-text').textContent)", 60.0)
            for number in (1, 2):
                told = self.request("explore", {"action": "tell", "number": number})
                assert told["number"] is None, told
                if number == 1:
                    browser.click("#crashes-switch")
                    browser.wait("/^Searching: up to step [1-9]/.test(document.getElementById('crashes-text').textContent)", 60.0)
                    time.sleep(2.0)
                    assert self.text_of("#crashes-text").startswith("Searching"), self.text_of("#crashes-text")
                    browser.click("#crashes-switch")
                    browser.wait("/^Paused after a while/.test(document.getElementById('crashes-text').textContent)")

    def test_properties(self) -> None:
        """Each has its answer while the author works on; the play that breaks one is shown with its values, and what was there comes back."""
        text = ";! never V0 = 3 at DONE\n;! V1 = 0 here\nLOOP: LD V0, K\nSE V0, 3\nJP LOOP\nDONE: JP DONE\n;! ever at LOOP\n;! V0 <= NOWHERE\n"
        with self.page(text) as browser:
            keys = "JSON.stringify(chipbenchPage.model.keys.events)"
            browser.value("chipbenchPage.model.setKeys(chipbenchPage.model.keys.with(10, 2, true).with(14, 2, false))")
            mine = browser.value(keys)
            # it is searched before the tab is opened
            browser.wait("!document.getElementById('properties-badge').hidden && document.getElementById('properties-badge').textContent === '1'", 60.0)
            self.tab("properties")
            rows = "[...document.querySelectorAll('#properties-rows li')].map((row) => [...row.querySelectorAll('.line, code, p')].map((part) => part.textContent))"
            browser.wait(f"JSON.stringify({rows}).includes('proved')", 60.0)
            shown = browser.value(rows)
            assert shown[:3] == [["1", "never V0 = 3 at DONE", "broken at step 2"], ["2", "V1 = 0 here", "proved for any keys, random bytes and speed"], ["7", "ever at LOOP", "reached at step 0"]], shown
            assert shown[3][:2] == ["8", "V0 <= NOWHERE"] and shown[3][2].startswith("P3: undefined name"), shown
            browser.click("#properties-rows li:first-child .bordered")
            browser.wait("document.querySelector('#properties-rows .values')?.textContent === 'At step 2: V0 = 3'")
            self.check_step(text, 2, ["kins 0 3 down", "kins 1 3 up"])
            assert browser.value("chipbenchPage.model.flag.step") == 2
            self.picture("property")
            browser.value("document.activeElement.blur()")
            browser.press("z", "KeyZ", CONTROL)
            assert browser.value(keys) == mine and browser.value("chipbenchPage.model.flag") is None
            browser.click("#properties-rows li:first-child .bordered")
            browser.click("#properties-mine")
            assert browser.value(keys) == mine
            # the search goes along with the source
            self.put_line(4, "SE V0, 4")
            browser.wait(f"{rows}[0][2].startsWith('proved for any keys')", 60.0)
            assert browser.value("document.getElementById('properties-badge').hidden")
            browser.click("#properties-rows li:nth-child(2) .line")
            assert browser.value("chipbenchPage.editor.line") == 2
            self.put_line(4, "SE V0, NOWHERE")
            browser.wait("/a line has a fault/.test(document.getElementById('properties-text').textContent)", 60.0)
            assert self.text_of("#properties-switch") == "Search"

    def test_lines_of_properties(self) -> None:
        """They have colours and completions of their own."""
        with self.page("LOOP: ADD V0, 1\n;! always V0 <= 63 at LOOP ; so far\nJP LOOP\n") as browser:
            spans = "[...document.querySelectorAll('#colours > div')][1].querySelectorAll('span')"
            coloured = browser.value(f"[...{spans}].map((one) => [one.className, one.textContent])")
            wanted = [["directive", ";!"], ["mnemonic", "always"], ["register", "V0"], ["number", "63"], ["mnemonic", "at"], ["comment", "; so far"]]
            assert coloured == wanted, coloured
            browser.value("chipbenchPage.editor.goToLine(3); chipbenchPage.editor.focus()")
            for typed, first in ((";! ne", "never"), (" V1 = 1 at LO", "LOOP")):
                for letter in typed:
                    browser.press(letter, text=letter)
                browser.wait("!document.getElementById('completions').hidden")
                assert browser.value("document.querySelector('#completions li span').textContent") == first
                browser.press("Tab")
            browser.wait("chipbenchPage.editor.lines[2].startsWith(';! never V1 = 1 at LOOP')")
