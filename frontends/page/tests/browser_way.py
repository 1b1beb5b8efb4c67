"""What stands in an author's way: the focus while it plays, what undo takes back, what is out of sight."""

from __future__ import annotations

import json
import time

from browser_page import PageTests
from driver import ALT, CONTROL, SHIFT

WAITS = "LOOP: LD V0, K\nADD V1, 1\nJP LOOP\n"
FOCUS = "document.activeElement.id || document.activeElement.localName"
KEYS = "chipbenchPage.model.keys.size"
PLAYS = "chipbenchPage.player.direction === 1"
SPRITE = "LD I, SHIP\nDRW V0, V1, 2\nHERE: JP HERE\nSHIP: DB $...11..., $..1111..\n"


class WayTests(PageTests):
    def test_the_keys_of_a_play_reach_the_game(self) -> None:
        """Also where it was begun in the source, by a key."""
        with self.page(WAITS) as browser:
            browser.value("chipbenchPage.editor.goToLine(1); chipbenchPage.editor.focus()")
            browser.press("k", "KeyK", ALT)
            browser.wait(PLAYS)
            assert browser.value(FOCUS) == "close-up", browser.value(FOCUS)
            browser.press("w", "KeyW", text="w", hold=0.2)
            browser.wait(f"{KEYS} === 2")
            assert browser.value("chipbenchPage.model.text") == WAITS

    def test_a_list_with_the_focus_leaves_the_game_its_keys(self) -> None:
        with self.page(WAITS) as browser:
            browser.click("#play")
            browser.wait(PLAYS)
            browser.value("document.getElementById('speed').focus()")
            browser.press("w", "KeyW", text="w", hold=0.2)
            browser.wait(f"{KEYS} === 2")

    def test_a_field_that_is_clicked_takes_no_letter_of_a_game(self) -> None:
        """A number or a box leaves them to the game, and a number takes digits; a text pauses the play, and then takes them."""
        with self.page(WAITS) as browser:
            browser.value("Object.assign(document.getElementById('find'), { hidden: false })")
            self.tab("sprite")
            browser.click("#play")
            browser.wait(PLAYS)
            for place, count in (("#find [name=exact]", 2), ("#sprite-rows", 4)):
                browser.click(place)
                assert browser.value(f"document.activeElement.matches('{place}')"), (place, browser.value(FOCUS))
                browser.press("w", "KeyW", text="w", hold=0.2)
                browser.wait(f"{KEYS} === {count}")
            browser.press("1", "Digit1", text="1")
            assert [browser.value(KEYS), browser.value(PLAYS), browser.value("document.getElementById('sprite-rows').value")] == [4, True, "81"]
            browser.click("#find [name=what]")
            browser.wait("chipbenchPage.player.direction === 0")
            assert "paused: what you type goes into the field" in self.text_of("#run-result"), self.text_of("#run-result")
            keys = browser.value(KEYS)
            browser.press("w", "KeyW", text="w")
            assert [browser.value(KEYS), browser.value("document.querySelector('#find [name=what]').value")] == [keys, "w"]

    def test_a_letter_changes_no_run_that_stands(self) -> None:
        """Unless the keys are in sight; else it is told what the letter would do."""
        with self.page(WAITS) as browser:
            self.step(50)
            browser.value("document.getElementById('close-up').focus()")
            browser.press("w", "KeyW", text="w")
            time.sleep(0.2)
            assert browser.value(KEYS) == 0
            assert "recorded while the game plays" in self.text_of("#run-result"), self.text_of("#run-result")
            self.tab("keys")
            browser.press("w", "KeyW", text="w")
            browser.wait(f"{KEYS} === 1")

    def test_undo_takes_back_what_was_changed_last(self) -> None:
        """After lines that were written by a button, the lines; after an event, the event."""
        with self.page(SPRITE) as browser:
            browser.value("chipbenchPage.model.setKeys(chipbenchPage.model.keys.with(3, 5, true))")
            self.tab("sprite")
            browser.value("chipbenchPage.editor.goToLine(4)")
            browser.click("#sprite-line")
            browser.click("#sprite button:nth-child(1)")
            browser.click("#sprite-write")
            assert browser.value("chipbenchPage.model.text") != SPRITE
            browser.press("z", "KeyZ", CONTROL)
            assert [browser.value("chipbenchPage.model.text"), browser.value(KEYS)] == [SPRITE, 1]
            browser.press("y", "KeyY", CONTROL)
            assert browser.value("chipbenchPage.model.text") != SPRITE
            browser.value("chipbenchPage.model.setKeys(chipbenchPage.model.keys.with(9, 5, false)); document.activeElement.blur()")
            browser.press("z", "KeyZ", CONTROL)
            assert browser.value(KEYS) == 1

    def test_show_keeps_the_focus(self) -> None:
        """It goes to the button that brings the author's keys back, and from there to the one before."""
        with self.page(";! never V0 = 3 at DONE\nLOOP: LD V0, K\nSE V0, 3\nJP LOOP\nDONE: JP DONE\n") as browser:
            self.tab("properties")
            show = "#properties-rows .bordered"
            browser.wait(f"document.querySelector({json.dumps(show)})?.hidden === false", 60.0)
            browser.value(f"document.querySelector({json.dumps(show)}).focus()")
            browser.press("Enter", text="\r")
            browser.wait(f"{FOCUS} === 'properties-mine'")
            browser.press("Enter", text="\r")
            browser.wait(f"document.activeElement.matches({json.dumps(show)})")

    def test_a_composition_is_one_change(self) -> None:
        """What an input method puts together is taken back by one undo."""
        if self.browser.name != "chromium":
            print("    nothing is tried: this browser has no protocol for input methods")
            return
        with self.page("; \n") as browser:
            browser.value("chipbenchPage.editor.goToLine(1); chipbenchPage.editor.select(2, 2); chipbenchPage.editor.focus()")
            for text in ("n", "ni", "你"):
                browser.call("Input.imeSetComposition", text=text, selectionStart=len(text), selectionEnd=len(text))
            # text and undo go together also where it is kept before its end
            self.wait_kept("; 你\n")
            assert self.kept()["history"]["text"]["done"][-1]["inserted"] == "你", self.kept()["history"]
            browser.type("你好")
            browser.wait("chipbenchPage.model.text === '; 你好\\n'")
            time.sleep(0.2)
            browser.press("z", "KeyZ", CONTROL)
            assert browser.value("chipbenchPage.model.text") == "; \n", browser.value("chipbenchPage.model.text")

    def test_a_play_stops_where_no_more_events_are_taken(self) -> None:
        """It says so, and the answers go on."""
        with self.page(WAITS) as browser:
            many = "new (chipbenchPage.model.keys.constructor)(Array.from({ length: 9999 }, (_, step) => ({ step: 100_000 + step, key: 1, down: step % 2 === 0 })))"
            browser.value(f"chipbenchPage.model.setKeys({many})")
            self.rest()
            browser.value("document.getElementById('close-up').focus()")
            browser.press(" ", "Space")
            browser.wait(PLAYS)
            browser.press("w", "KeyW", text="w", hold=0.1)
            browser.wait("chipbenchPage.player.direction === 0")
            assert "no more than 10,000" in self.text_of("#run-result"), self.text_of("#run-result")
            assert browser.value(KEYS) == 9999
            self.rest()
            assert browser.value("document.querySelector('.notice') === null"), self.text_of("#notices")

    def test_a_notice_covers_no_button_above_the_text(self) -> None:
        with self.page("CLS\n") as browser:
            browser.value(f"{self.module('notices.mjs')}.then(({{ notice }}) => notice('one', 'A long text, as it is told where something went wrong, and what may be done about it then.', {{ bad: true, choices: [['Yes', () => {{}}], ['Another one', () => {{}}]] }}))")
            for width, height in ((1600, 1000), (1440, 900), (1000, 600), (720, 450), (360, 640)):
                browser.size(width, height)
                browser.wait(f"innerWidth === {width}")
                covered = browser.value(
                    "[...document.querySelectorAll('header button, header summary, #source-part .head button, #tabs button, #transport button')].filter((one) => one.checkVisibility())"
                    ".filter((one) => { const b = one.getBoundingClientRect(); const top = document.elementFromPoint(b.x + b.width / 2, b.y + b.height / 2); return top !== null && top.closest('#notices') !== null; }).map((one) => one.textContent)"
                )
                assert covered == [], (width, covered)
                left, right, bottom = browser.value("(({ left, right, bottom }) => [left, right, bottom])(document.querySelector('.notice').getBoundingClientRect())")
                inside = browser.value("[...document.querySelectorAll('.notice button')].every((one) => { const b = one.getBoundingClientRect(); return b.left >= 0 && b.right <= innerWidth; })")
                assert left >= 0 and right <= width and bottom <= height and inside, (width, left, right, bottom)

    def test_a_short_text_has_no_scroll_bar(self) -> None:
        with self.page("LD V0, 5\nCLS\n") as browser:
            for width, height in ((1600, 1000), (1440, 900), (1000, 600), (720, 450)):
                browser.size(width, height)
                browser.wait(f"innerWidth === {width}")
                self.rest()
                more = browser.value("(({ scrollWidth, clientWidth, scrollHeight, clientHeight }) => [scrollWidth - clientWidth, scrollHeight - clientHeight])(document.getElementById('editor'))")
                assert more == [0, 0], (width, more)

    def test_each_tab_is_in_sight(self) -> None:
        """At 200 % of 1,440 by 900 too, and on a phone."""
        with self.page("CLS\n") as browser:
            for width, height in ((1440, 900), (1000, 600), (720, 450), (360, 640)):
                browser.size(width, height)
                browser.wait(f"innerWidth === {width}")
                self.rest()
                cut = browser.value(
                    "[...document.querySelectorAll('#tabs button')].filter((one) => one.checkVisibility()).filter((one) => { const b = one.getBoundingClientRect(); const t = one.parentElement.getBoundingClientRect();"
                    "return b.left < t.left || b.right > t.right + 1 || b.bottom > t.bottom + 1 || b.right > innerWidth; }).map((one) => one.textContent)"
                )
                assert cut == [], (width, cut)

    def test_the_dialog_of_saving_says_where_it_goes(self) -> None:
        """A folder with the bridge; a download where the browser has no file access."""
        with self.page("CLS\n") as browser:
            if browser.value("typeof showSaveFilePicker === 'function'") and self.is_one_file:
                return
            self.press_button("#save-as-button")
            browser.wait("document.getElementById('save-as').open")
            shown = browser.value("[...document.querySelectorAll('#save-as p')].filter((one) => one.checkVisibility()).map((one) => one.textContent).join(' ')")
            assert ("folder" in shown, "download" in shown) == (not self.is_one_file, self.is_one_file), shown
            browser.press("Escape")

    def test_menus_by_the_keyboard(self) -> None:
        """Arrows go through a menu, and Escape closes it."""
        with self.page("CLS\n") as browser:
            browser.value("document.querySelector('#file-menu summary').focus()")
            browser.press("ArrowDown")
            assert browser.value("[document.getElementById('file-menu').open, document.activeElement.id]") == [True, "save-as-button"]
            browser.press("ArrowDown")
            assert browser.value(FOCUS) == "show-documents"
            browser.press("ArrowUp")
            browser.press("ArrowUp")
            assert browser.value(FOCUS) == "export-game"
            browser.press("Escape")
            assert browser.value("[document.getElementById('file-menu').open, document.activeElement.localName]") == [False, "summary"]

    def test_shift_tab_takes_indentation_out(self) -> None:
        """Of the cursor's line, and of all lines that are chosen."""
        with self.page("        LD V0, 1\n        LD V1, 1\nCLS\n") as browser:
            browser.value("chipbenchPage.editor.goToLine(1); chipbenchPage.editor.focus()")
            browser.press("Tab", "Tab", SHIFT)
            assert browser.value("chipbenchPage.model.text") == "LD V0, 1\n        LD V1, 1\nCLS\n", browser.value("chipbenchPage.model.text")
            browser.value("chipbenchPage.editor.select(0, chipbenchPage.editor.length)")
            browser.press("Tab", "Tab", SHIFT)
            assert browser.value("chipbenchPage.model.text") == "LD V0, 1\nLD V1, 1\nCLS\n", browser.value("chipbenchPage.model.text")
