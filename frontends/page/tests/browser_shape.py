"""How the page looks and who can use it: widths, themes, the keyboard, names."""

from __future__ import annotations

import json
import time

from browser_page import REST, PageTests
from driver import ALT, CONTROL, SHIFT


class ShapeTests(PageTests):
    def test_keyboard_alone(self) -> None:
        text = self.example("bounce")
        with self.page(text) as browser:
            browser.press("t", "KeyT")
            assert browser.value("document.activeElement.id") == "close-up"
            moves = [
                (("ArrowRight", "ArrowRight", 0), 1),
                (("ArrowRight", "ArrowRight", SHIFT), 11),
                (("l", "KeyL", 0), 1011),
                ((".", "Period", 0), 1012),
                ((">", "Period", SHIFT), 1022),
                (("j", "KeyJ", 0), 22),
                (("ArrowLeft", "ArrowLeft", 0), 21),
                (("ArrowLeft", "ArrowLeft", SHIFT), 11),
                (("PageDown", "PageDown", 0), 1011),
                (("PageUp", "PageUp", 0), 11),
                (("End", "End", 0), browser.value("chipbenchPage.model.lastStep")),
                (("Home", "Home", 0), 0),
            ]
            for (key, code, modifiers), step in moves:
                browser.press(key, code, modifiers)
                assert browser.value("chipbenchPage.model.step") == step, (key, step)
            browser.press("k", "KeyK")
            browser.wait("chipbenchPage.model.step > 100")
            browser.press("k", "KeyK")
            at = browser.value("chipbenchPage.model.step")
            browser.press("b", "KeyB")
            browser.wait("chipbenchPage.model.step === 0 && chipbenchPage.player.direction === 0")
            assert at > 100
            browser.press("o", "KeyO")
            assert browser.value("document.activeElement.id") == "source-text"
            browser.press("Home", modifiers=CONTROL)
            browser.press("Tab")
            browser.press(".", "Period", ALT)
            assert browser.value("chipbenchPage.model.step") == 1
            assert browser.value("document.getElementById('source-text').value").startswith("        ; A ball")
            browser.press("Escape")
            assert browser.value("document.activeElement.id") == "close-up"
            # a run that stands is changed where its keys are in sight
            self.tab("keys")
            browser.press("5", "KeyW")
            assert browser.value("chipbenchPage.model.keys.at(1, 5)?.down") is True
            browser.press("z", "KeyZ", CONTROL)
            assert browser.value("chipbenchPage.model.keys.size") == 0
            self.tab("words")
            browser.press("?", "Slash", SHIFT)
            assert browser.value("document.getElementById('help').open")
            self.picture("help")
            browser.press("Escape")
            # Tab reaches everything that can be pressed or typed into, but for what Escape and
            # Shift+Tab leave
            browser.value("document.querySelector('.skip').focus(); globalThis.reached = new Set(); document.addEventListener('focusin', ({ target }) => reached.add(target))")
            for _ in range(120):
                if browser.value("document.activeElement.id") == "source-text":
                    browser.value("document.getElementById('split-source').focus()")
                browser.press("Tab")
                # what comes after the last part is the browser's own, which keeps the focus from the tests after this one
                if browser.value("document.activeElement.id") == "overview":
                    break
            missed = browser.value(
                "[...document.querySelectorAll('button, input, select, textarea, summary, [tabindex=\"0\"]')]"
                ".filter((one) => one.checkVisibility() && !one.disabled && one.tabIndex >= 0 && !one.closest('dialog, details:not([open]) > div') && !reached.has(one)).map((one) => one.outerHTML.slice(0, 80))"
            )
            assert missed == [], missed

    def tab_to(self, condition: str) -> None:
        """Tab goes from the focus on, or from the start of the page where there is none, to where this holds."""
        self.browser.value("if (document.activeElement === document.body) document.querySelector('.skip').focus()")
        for _ in range(60):
            if self.browser.value(condition):
                return
            self.browser.press("Tab")
        raise AssertionError(f"never reached: {condition}")

    def test_a_game_by_the_keyboard(self) -> None:
        """From an example to a play, a change, a key and a saved file, without a pointer."""
        focus = "document.activeElement"
        with self.page_of_nothing() as browser:
            browser.wait("document.querySelectorAll('.example').length === 4")
            browser.value("document.activeElement.blur()")
            self.tab_to(f"{focus}.classList.contains('example') && /breaker/.test({focus}.textContent)")
            browser.press("Enter", text="\r")
            browser.wait(f"chipbenchPage.model.text.length > 1000 && {focus}.id === 'play'")
            browser.press(" ", "Space", text=" ")
            browser.wait("chipbenchPage.model.step > 100")
            browser.press(" ", "Space", text=" ")
            browser.press("o", "KeyO")
            browser.press("Home", modifiers=CONTROL)
            for character in "; mine":
                browser.press(character, "", 0, character)
            browser.press("Enter", text="\r")
            browser.press("Escape")
            assert browser.value(f"{focus}.id") == "close-up"
            browser.press("i", "KeyI")
            for _ in range(4):
                browser.press("ArrowRight")
            assert browser.value(f"{focus}.dataset.tab") == "keys", browser.value(f"{focus}.outerHTML")
            self.tab_to(f"{focus}.ariaLabel === 'Key 5'")
            browser.press("Enter", text="\r")
            browser.wait("chipbenchPage.model.keys.size === 1")
            if not self.is_one_file:
                browser.press("s", "KeyS", CONTROL)
                browser.wait("document.getElementById('file-state').textContent === 'saved'")
                assert (self.folder / "nothing.asm").read_text() == "; mine\n" + self.example("breaker")

    def test_menus_and_dialogs_by_the_keyboard(self) -> None:
        """Enter opens them, Escape closes them, and the focus is then where it was."""
        focus = "document.activeElement"
        with self.page("CLS\n") as browser:
            browser.value("document.activeElement.blur()")
            self.tab_to(f"{focus}.localName === 'summary' && {focus}.parentElement.id === 'file-menu'")
            browser.press("Enter", text="\r")
            browser.wait("document.getElementById('file-menu').open")
            browser.press("Tab")
            assert browser.value(f"{focus}.id") == "save-as-button"
            browser.press("Escape")
            assert browser.value(f"!document.getElementById('file-menu').open && {focus}.localName === 'summary'")
            for button, dialog in (("show-settings", "settings"), ("show-help", "help")):
                self.tab_to(f"{focus}.id === '{button}'")
                browser.press("Enter", text="\r")
                browser.wait(f"document.getElementById('{dialog}').open")
                browser.press("Escape")
                browser.wait(f"!document.getElementById('{dialog}').open && {focus}.id === '{button}'")

    def test_names_of_what_can_be_pressed(self) -> None:
        with self.page(self.example("guess")) as browser:
            browser.value("chipbenchPage.model.setKeys(chipbenchPage.model.keys.with(20, 3, true))")
            self.rest()
            for tab in ("source", "words", "stack", "memory", "sprite", "keys", "crashes", "properties", "search"):
                self.tab(tab)
                assert browser.nameless() == [], (tab, browser.nameless())

    def test_its_words_are_plain(self) -> None:
        """What is read and what is heard, in the page and in its dialogs; the title of a source that is in no file."""
        odd = "/by the signal|Fewer are faster|Keys of the keyboard|a step back, on\\b|without a file|Key of key/gi"
        words = (
            "(() => { const body = document.body.cloneNode(true); body.querySelectorAll('script').forEach((one) => one.remove());"
            "const names = [...document.querySelectorAll('[aria-label], [title]')].flatMap((one) => [one.ariaLabel, one.title]);"
            "return [document.title, body.textContent, ...names].join('\\n'); })()"
        )
        with self.page_on([str(self.folder / "nothing.asm")] if self.is_one_file else [], ()) as browser:
            browser.value("chipbenchPage.model.setKeys(chipbenchPage.model.keys.with(1770, 9, true))")
            self.tab("keys")
            self.step(1770)
            browser.wait("document.querySelector('#event-rows [aria-label]') !== null")
            found = browser.value(f"[...new Set({words}.match({odd}))]")
            assert found == [], found

    def test_themes_and_widths(self) -> None:
        text = self.example("scroller")
        with self.page(text, "scroller.asm") as browser:
            browser.value("chipbenchPage.model.setKeys(chipbenchPage.model.keys.with(20, 3, true).with(45, 3, false).with(60, 12, true))")
            self.put_line(2, "        OPTION SCHIP10 ; mine")
            self.step(70)
            for theme in ("light", "dark"):
                browser.theme(theme)
                for width, height in ((360, 800), (700, 900), (900, 800), (1150, 800), (1400, 900), (1600, 1000)):
                    browser.size(width, height)
                    time.sleep(0.15)
                    wide = browser.value("document.documentElement.scrollWidth")
                    assert wide <= width, f"{wide} pixels at {width}"
                    spilt = browser.value(
                        "[...document.querySelectorAll('button, input, select, section, .track')].filter((one) => one.checkVisibility() && !one.closest('.scroller, #tabs'))"
                        ".filter((one) => { const box = one.getBoundingClientRect(); return box.right > innerWidth + 1 || box.left < -1; }).map((one) => one.id || one.textContent)"
                    )
                    assert spilt == [], (width, spilt)
                    square = browser.value("(() => { const b = document.getElementById('screen').getBoundingClientRect(); return b.width / b.height; })()")
                    assert abs(square - 2) < 0.02, square
                    self.picture(f"theme-{theme}-{width}")
                for one, other in (
                    ("--text", "--chrome"), ("--text", "--panel"), ("--text", "--sunken"), ("--faint", "--panel"), ("--faint", "--sunken"), ("--faint", "--chrome"),
                    ("--fault", "--fault-ground"), ("--fault", "--panel"), ("--changed", "--changed-ground"), ("--text", "--accent-ground"),
                    ("--faint", "--accent-ground"), ("--accent-text", "--accent"), ("--text", "--changed-ground"), ("--text", "--fault-ground"), ("--accent", "--accent-ground"),
                ):  # fmt: skip
                    assert self.contrast(one, other) >= 4.5, (theme, one, other, self.contrast(one, other))
                for one in ("--comment", "--word", "--directive", "--register", "--number", "--string"):
                    for other in ("--panel", "--accent-ground", "--fault-ground"):
                        assert self.contrast(one, other) >= 4.5, (theme, one, other, self.contrast(one, other))
                assert self.contrast("--screen-lit", "--screen-dark") >= 7

    def contrast(self, one: str, other: str) -> float:
        def light(name: str) -> float:
            colour = self.browser.value(f"getComputedStyle(document.documentElement).getPropertyValue({json.dumps(name)}).trim()")
            parts = [int(colour[place : place + 2], 16) / 255 for place in (1, 3, 5)]
            linear = [part / 12.92 if part <= 0.03928 else ((part + 0.055) / 1.055) ** 2.4 for part in parts]
            return 0.2126 * linear[0] + 0.7152 * linear[1] + 0.0722 * linear[2]

        lighter, darker = sorted((light(one), light(other)), reverse=True)
        return (lighter + 0.05) / (darker + 0.05)

    def test_line_of_pc_is_in_view(self) -> None:
        """At each size the line of pc is in view after each step, and the screen and the timelines without scrolling."""
        text = "; a game of 120 lines\n" + "".join(f"L{number}: LD V{number % 16:X}, {number}\n" for number in range(115)) + "JP L0\n"
        with self.page(text) as browser:
            for width, height in ((1440, 900), (1240, 700), (1024, 768), (800, 600), (720, 450), (390, 844), (360, 640)):
                browser.size(width, height)
                for theme in ("light", "dark"):
                    browser.theme(theme)
                    time.sleep(0.15)
                    self.check_view(width, height)
                    self.picture(f"view-{width}-{height}-{theme}")

    def test_tabs(self) -> None:
        """The chosen tab is that of the panel that is shown, and the keyboard reaches it; the source is a tab where there is little room."""
        chosen = "[...document.querySelectorAll('#tabs [role=tab]')].filter((tab) => tab.checkVisibility() && tab.getAttribute('aria-selected') === 'true' && tab.tabIndex === 0).map((tab) => tab.dataset.tab).join()"
        shown = "[...document.querySelectorAll('.panel')].filter((panel) => panel.checkVisibility()).map((panel) => panel.id).join()"
        panels = ("words", "stack", "memory", "sprite", "keys", "crashes", "search")
        with self.page(self.example("bounce")) as browser:
            for width, height in ((1440, 900), (720, 450), (390, 844)):
                browser.size(width, height)
                for tab in (*panels, "words"):
                    browser.value(f"document.getElementById('tab-{tab}').click()")
                    assert browser.value(chosen) == tab, (width, tab, browser.value(chosen))
                    assert browser.value(shown) == f"{tab}-part", (width, tab, browser.value(shown))
                    assert browser.value("document.getElementById('source-part').checkVisibility()") == (width == 1440)
                if width < 1440:
                    browser.value("document.getElementById('tab-source').click()")
                    assert (browser.value(chosen), browser.value(shown)) == ("source", "")
                browser.value("document.querySelector('#tabs [aria-selected=true]').focus()")
                browser.press("ArrowRight")
                assert browser.value(chosen) == ("stack" if width == 1440 else "words"), (width, browser.value(chosen))

    def check_view(self, width: int, height: int) -> None:
        boxes = (
            "(() => { const box = (name) => { const b = document.querySelector(name).getBoundingClientRect(); return [b.left, b.top, b.right, b.bottom]; };"
            "return [box('#gutter .here'), box('#editor'), box('#screen'), box('#registers-part'), box('#close-up'), box('#play'), scrollY]; })()"
        )
        for step in (3, 30, 31, 60, 61, 90, 114, 116):
            if width < 1000 and step in (61, 116):
                # it is so when the source comes back from behind a tab
                self.tab("words")
                self.step(step)
                self.browser.value(f"chipbenchPage.appearance.showTab('source'); {REST}")
            self.step(step)
            here, editor, *others, scrolled = self.browser.value(boxes)
            assert scrolled == 0, (width, height, step)
            assert here[1] >= editor[1] - 1 and here[3] <= min(editor[3], height) + 1, (width, height, step, here, editor)
            for left, top, right, bottom in others:
                assert left >= 0 and top >= 0 and right <= width and bottom <= height, (width, height, step, others)

    def test_splitters_and_colours_stay(self) -> None:
        with self.page(self.example("bounce")) as browser:
            wide = "document.getElementById('source-part').getBoundingClientRect().width"
            before = browser.value(wide)
            x, y = browser.center("#split-source")
            browser.mouse("mousePressed", x, y)
            browser.mouse("mouseMoved", x + 60, y)
            browser.mouse("mouseMoved", x + 120, y)
            browser.mouse("mouseReleased", x + 120, y, 0)
            assert abs(browser.value(wide) - before - 120) < 12, (before, browser.value(wide))
            browser.click("#show-settings")
            browser.value("{ const { elements } = document.querySelector('#settings form'); elements.theme.value = 'dark'; elements.screen.value = 'amber'; }")
            browser.click("#settings [value=apply]")
            colours = "[getComputedStyle(document.documentElement).colorScheme, getComputedStyle(document.documentElement).getPropertyValue('--screen-lit').trim()]"
            assert browser.value(colours) == ["dark", "#ffb640"], browser.value(colours)
            assert self.starts() == 1
            self.reload()
            assert browser.value(colours) == ["dark", "#ffb640"]
            assert abs(browser.value(wide) - before - 120) < 12
            self.check_step(self.example("bounce"), 100, [])
            browser.value("chipbenchPage.appearance.choose({ theme: 'system', screen: 'theme' })")
