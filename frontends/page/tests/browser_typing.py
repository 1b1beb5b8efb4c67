"""Typing in a long source: how long a key takes, and the cursor where the text area doesn't hold all lines."""

from __future__ import annotations

import time

from browser_page import PageTests
from driver import CONTROL, SHIFT

KEYS = 21
LONG = "".join(f"L{number}: LD V{number % 16:X}, {number % 200} ; a line of the game\n" for number in range(1700)) + "; a comment\n" * 2299 + "; end"
# From here on each key tells how long it took: from its first event to the page laid out with what it typed. `gaps` are the longest
# times for which nothing else could run, from a key to the answers of the program.
WATCHED = """{
    globalThis.keys = [];
    globalThis.gaps = [];
    const [after, ping] = [new MessageChannel(), new MessageChannel()];
    let [began, last] = [0, null];
    addEventListener('keydown', () => { [began, last] = [performance.now(), performance.now()]; gaps.push(0); ping.port2.postMessage(0); }, true);
    addEventListener('input', () => after.port2.postMessage(0), true);
    after.port1.onmessage = () => { document.getElementById('source-text').offsetHeight; keys.push(performance.now() - began); };
    ping.port1.onmessage = () => {
        const now = performance.now();
        gaps[gaps.length - 1] = Math.max(gaps.at(-1), now - last);
        last = now;
        if (now - began < 150) ping.port2.postMessage(0);
    };
}"""


class TypingTests(PageTests):
    def test_time_of_a_key(self) -> None:
        """Under 16 milliseconds at any length, with one layout, and no long task when the answers come."""
        plain = self.plain_key()
        for name, text, line in (("of 30 lines", self.example("bounce"), 1), ("of 4,000 lines", LONG, 2000)):
            with self.page(text) as browser:
                browser.value(f"chipbenchPage.editor.goToLine({line})")
                browser.press("End")
                layouts = self.layouts_of_keys()
                browser.value(WATCHED)
                tries = []
                for _ in range(3):
                    browser.value("keys.length = 0; gaps.length = 0")
                    self.type_slowly("x" * KEYS)
                    tries.append(tuple(browser.value(f"{of}.sort((one, other) => one - other)[{KEYS // 2}]") for of in ("keys", "gaps")))
                key, gap = (min(one[place] for one in tries) for place in (0, 1))
                counted = "" if layouts is None else f", {layouts:.1f} layouts a key"
                print(f"    a key in a source {name}: the middle {key:.1f} ms; at most {gap:.1f} ms at a time{counted}; in a plain text area {plain:.1f} ms")
                # beside other work on this machine a plain text area is slow too
                assert key < max(16, 2.5 * plain) * browser.patience, tries
                assert gap < 50 * browser.patience, tries
                assert layouts is None or layouts <= 1.1, layouts
                assert browser.value("chipbenchPage.model.text").split("\n")[line - 1].endswith("x" * 3 * KEYS)

    def test_layouts_of_a_key(self) -> None:
        """One, at any length, where the browser counts them."""
        for text, line in ((self.example("bounce"), 1), (LONG, 2000)):
            with self.page(text) as browser:
                browser.value(f"chipbenchPage.editor.goToLine({line})")
                browser.press("End")
                layouts = self.layouts_of_keys()
                if layouts is None:
                    print("    nothing is tried: this browser counts no layouts")
                    return
                assert layouts <= 1.1, layouts

    def test_lines_in_sight_alone(self) -> None:
        """The page holds these, and the text area those around the cursor: at the start, in the middle and at the end."""
        with self.page(LONG) as browser:
            for line in (1, 2000, 4000):
                browser.value(f"chipbenchPage.editor.goToLine({line})")
                browser.wait(f"[...document.querySelectorAll('#gutter .number')].some((one) => one.textContent === '{line}')")
                assert browser.value("document.getElementById('source-text').value.length") < 20_000
                assert browser.value("document.querySelectorAll('#editor *').length") < 1500, browser.value("document.querySelectorAll('#editor *').length")

    def plain_key(self) -> float:
        """How long a key takes in a text area of 30 lines and nothing else."""
        self.browser.open("about:blank")
        self.browser.value(
            "document.body.innerHTML = '<textarea id=source-text rows=40 cols=80></textarea>'; document.querySelector('textarea').value = 'LD V0, 5\\n'.repeat(30);"
            "document.querySelector('textarea').focus()"
        )
        self.browser.value(WATCHED)
        tries = []
        for _ in range(2):
            self.browser.value("keys.length = 0")
            self.type_slowly("x" * KEYS)
            tries.append(self.browser.value(f"keys.sort((one, other) => one - other)[{KEYS // 2}]"))
        return min(tries)

    def layouts_of_keys(self) -> float | None:
        """How often the page is laid out for a key in a comment, which changes no answer."""
        before = self.browser.layouts()
        if before is None:
            return None
        self.type_slowly(" ; xxxxxxx")
        before = self.browser.layouts() or 0
        self.type_slowly("x" * 10)
        return ((self.browser.layouts() or 0) - before) / 10

    def type_slowly(self, text: str) -> None:
        for character in text:
            self.browser.press(character, "", 0, character)
            time.sleep(0.18)

    def place(self) -> list[int]:
        """The line of the cursor, from 1, and the characters before it."""
        return self.browser.value("(() => { const { line, column } = chipbenchPage.editor.cursor; return [line, column]; })()")

    def test_the_cursor_in_a_long_source(self) -> None:
        """By lines, pages and to the ends, by the pointer and after scrolling away: what is typed stands where the cursor was."""
        with self.page(LONG) as browser:
            browser.value("chipbenchPage.editor.goToLine(1000)")
            for _ in range(60):
                browser.press("ArrowDown")
            assert self.place() == [1060, 0], self.place()
            page = browser.value("Math.floor(document.getElementById('editor').clientHeight / 20) - 1")
            browser.press("End")
            width = len(LONG.split("\n")[1059])
            browser.press("PageDown")
            assert self.place() == [1060 + page, width], self.place()
            browser.press("PageUp")
            browser.press("PageUp", modifiers=SHIFT)
            assert self.place() == [1060 - page, width], self.place()
            assert browser.value("(({ start, end }) => chipbenchPage.editor.text.slice(start, end).split('\\n').length)(chipbenchPage.editor.selection)") == page + 1
            browser.press("End", modifiers=CONTROL)
            assert self.place() == [4000, 5]
            browser.value("document.getElementById('editor').scrollTop = 20000")
            browser.wait("[...document.querySelectorAll('#gutter .number')].some((one) => one.textContent === '1010')")
            browser.press("x", "KeyX", 0, "x")
            assert browser.value("chipbenchPage.editor.text").endswith("; endx")
            browser.wait("chipbenchPage.editor.lines.length === 4000 && document.getElementById('editor').scrollTop > 70000")
            browser.press("Home", modifiers=CONTROL)
            browser.press("a", "KeyA", CONTROL)
            browser.press("Delete")
            assert browser.value("chipbenchPage.editor.text") == ""
            browser.press("z", "KeyZ", CONTROL)
            browser.press("z", "KeyZ", CONTROL)
            assert browser.value("chipbenchPage.editor.text") == LONG

    def test_a_finger_in_the_source(self) -> None:
        """The text area then holds the lines in sight, for the browser to find a place in them; with a key it holds those around the cursor again."""
        covers = (
            "(() => { const [area, editor] = ['source-text', 'editor'].map((name) => document.getElementById(name).getBoundingClientRect());"
            "return area.top <= editor.top && area.bottom >= editor.bottom; })()"
        )
        held = "document.getElementById('source-text').value.split('\\n').length"
        with self.page(LONG) as browser:
            browser.value("chipbenchPage.editor.goToLine(1000); document.getElementById('editor').scrollTop = 40000")
            browser.wait("[...document.querySelectorAll('#gutter .number')].some((one) => one.textContent === '2010')")
            browser.value("document.getElementById('paper').dispatchEvent(new PointerEvent('pointerdown', { pointerType: 'touch', bubbles: true }))")
            assert browser.value(covers) and browser.value(held) < 120, browser.value(held)
            assert self.place() == [1000, 0], self.place()
            browser.press("x", "KeyX", 0, "x")
            assert browser.value("chipbenchPage.editor.lines[999]").startswith("xL999"), browser.value("chipbenchPage.editor.lines[999]")
            assert browser.value(held) < 40, browser.value(held)
            browser.wait("[...document.querySelectorAll('#gutter .number')].some((one) => one.textContent === '1000')")

    def test_the_mouse_in_the_source(self) -> None:
        """A press puts the cursor, a drag selects, also beyond what is in sight; two presses select a word."""
        with self.page(LONG) as browser:
            x, y, width = browser.value(
                "(() => { const b = document.querySelector('#colours div').getBoundingClientRect();"
                "return [b.x + 0.6 * document.querySelector('#marks .measure span').getBoundingClientRect().width / 100, b.y, document.querySelector('#marks .measure span').getBoundingClientRect().width / 100]; })()"
            )
            browser.mouse("mouseMoved", x + 4 * width, y + 50, 0)
            browser.mouse("mousePressed", x + 4 * width, y + 50)
            browser.mouse("mouseReleased", x + 4 * width, y + 50, 0)
            assert self.place() == [3, 4], self.place()
            browser.mouse("mousePressed", x + 5 * width, y + 50)
            browser.mouse("mouseMoved", x + 5 * width, y + 90)
            browser.mouse("mouseMoved", x + 5 * width, 995)
            browser.wait("chipbenchPage.editor.cursor.line > 150")
            browser.mouse("mouseReleased", x + 5 * width, 995, 0)
            start, end = browser.value("(({ start, end }) => [start, end])(chipbenchPage.editor.selection)")
            assert start == LONG.index("L2:") + 5 and end - start > 5000, (start, end)
            browser.press("Delete")
            assert browser.value("chipbenchPage.editor.text") == LONG[:start] + LONG[end:]
