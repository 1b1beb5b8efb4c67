"""How the page is laid out: at each size each part is in sight, no text lies over another, and the colours can be told apart."""

from __future__ import annotations

import contextlib
import tempfile
import time
from collections.abc import Iterator
from pathlib import Path

from browser_page import PageTests, wait_for
from driver import CONTROL, Browser
from small_png import pixels

SIZES = ((1440, 900), (1280, 800), (1024, 768), (720, 450), (390, 844), (360, 640))
PANELS = ("words", "stack", "memory", "sprite", "keys", "crashes", "properties", "search")
# the texts that are seen, each with its box, cut off where its parts are, its colour and the colour below it
TEXTS = """(() => {
    const seen = [];
    const walker = document.createTreeWalker(document.body, NodeFilter.SHOW_TEXT);
    const parse = (colour) => { const parts = colour.match(/[\\d.]+/g).map(Number); return [...parts.slice(0, 3), parts[3] ?? 1]; };
    const over = (above, below) => above.slice(0, 3).map((part, place) => part * above[3] + below[place] * (1 - above[3]));
    const ground = (element) => {
        const grounds = [];
        for (let at = element; at !== null; at = at.parentElement) {
            const colour = parse(getComputedStyle(at).backgroundColor);
            if (colour[3] > 0) grounds.push(colour);
            if (colour[3] === 1) break;
        }
        return grounds.reverse().reduce((below, above) => over(above, below), [255, 255, 255]);
    };
    while (walker.nextNode()) {
        const node = walker.currentNode;
        const element = node.parentElement;
        if (node.data.trim() === '' || element.closest('#editor, script, .unseen, .skip, #notices') || !element.checkVisibility({ opacityProperty: true, visibilityProperty: true })) continue;
        const range = document.createRange();
        range.selectNodeContents(node);
        let { left, top, right, bottom } = range.getBoundingClientRect();
        for (let at = element; at !== null; at = at.parentElement) {
            const style = getComputedStyle(at);
            if (style.overflow === 'visible' && at !== document.body) continue;
            const box = at.getBoundingClientRect();
            [left, top, right, bottom] = [Math.max(left, box.left), Math.max(top, box.top), Math.min(right, box.right), Math.min(bottom, box.bottom)];
        }
        if (right - left < 2 || bottom - top < 4) continue;
        const style = getComputedStyle(element);
        const large = parseFloat(style.fontSize) >= 24 || (parseFloat(style.fontSize) >= 18.66 && Number(style.fontWeight) >= 700);
        const below = ground(element);
        seen.push({ text: node.data.trim().slice(0, 40), box: [left, top, right, bottom], colour: over(parse(style.color), below), below, large,
            path: `${element.closest('[id]')?.id} ${element.localName}` });
    }
    return seen;
})()"""
# what lies where something else should be: the middle of a control that another part covers
COVERED = """[...document.querySelectorAll('button, input, select, summary, .track, textarea')]
    .filter((one) => one.checkVisibility() && !one.closest('dialog, #sprite, .unseen') && one.id !== 'source-text')
    .filter((one) => { one.scrollIntoView({ block: 'nearest', inline: 'nearest' }); const b = one.getBoundingClientRect();
        const there = document.elementFromPoint(b.x + b.width / 2, b.y + b.height / 2);
        return there === null || !(one.contains(there) || there.contains(one) || there.closest('label')?.contains(one)); })
    .map((one) => one.outerHTML.slice(0, 90))"""


def light(colour: list[float]) -> float:
    parts = [part / 255 for part in colour]
    linear = [part / 12.92 if part <= 0.03928 else ((part + 0.055) / 1.055) ** 2.4 for part in parts]
    return 0.2126 * linear[0] + 0.7152 * linear[1] + 0.0722 * linear[2]


def contrast(one: list[float], other: list[float]) -> float:
    lighter, darker = sorted((light(one), light(other)), reverse=True)
    return (lighter + 0.05) / (darker + 0.05)


class LayoutTests(PageTests):
    def played(self, browser: Browser) -> None:
        """A game with some keys, a breakpoint and a call, at a step in the middle."""
        browser.value(
            "{ const { model, editor } = chipbenchPage; model.setKeys(model.keys.with(200, 5, true).with(400, 5, false).with(900, 6, true).with(1500, 6, false));"
            "model.setPlayed(3000); editor.breakpoints.set([60]); }"
        )
        self.step(2300)

    @contextlib.contextmanager
    def wide_page(self) -> Iterator[Browser]:
        """A game at 1,440 by 900."""
        with self.page(self.example("breaker")) as browser:
            browser.size(1440, 900)
            browser.wait("innerWidth === 1440")
            yield browser

    def width(self, selector: str) -> float:
        return self.browser.value(f"document.querySelector('{selector}').getBoundingClientRect().width")

    def test_source_and_screen_come_first(self) -> None:
        with self.wide_page():
            assert self.width("#source-part") >= 560 and self.width("#screen") >= 520, (self.width("#source-part"), self.width("#screen"))

    def test_the_gutter(self) -> None:
        """It has the number of the line, a breakpoint and a mark, and nothing wider."""
        with self.wide_page():
            assert 55 < self.width("#gutter") < 57, self.width("#gutter")

    def test_bytes_that_are_hidden(self) -> None:
        """Addresses and bytes make room for the text, and come back."""
        shown = "document.getElementById('editor').innerText.includes('6005')"
        with self.page("LD V0, 5\n") as browser:
            browser.size(1440, 900)
            browser.wait("innerWidth === 1440")
            assert browser.value(shown)
            text = "document.getElementById('editor').clientWidth - (document.getElementById('fields')?.getBoundingClientRect().width ?? 0)"
            before = browser.value(text)
            browser.click("#bytes")
            assert not browser.value(shown) and browser.value(text) > before + 90
            browser.click("#bytes")
            assert browser.value(shown)

    def test_one_row_of_moves(self) -> None:
        controls = (
            "[...document.querySelectorAll('#time-part :is(button, input, select, summary)')].filter((one) => one.checkVisibility() && !one.closest('details > div'))"
            ".map((one) => { const b = one.getBoundingClientRect(); return b.y + b.height / 2; })"
        )
        with self.wide_page() as browser:
            middles = browser.value(controls)
            assert 8 <= len(middles) <= 14 and max(middles) - min(middles) < 3, middles

    def test_the_time_is_that_of_the_play(self) -> None:
        """Near the right end of the overview is what was played last, and not the last step that there could be."""
        with self.wide_page() as browser:
            browser.click("#play")
            browser.wait("chipbenchPage.model.step > 1500")
            browser.click("#play")
            played = browser.value("chipbenchPage.model.step")
            left, top, width = browser.value("(({ left, top, width }) => [left, top, width])(document.getElementById('overview').getBoundingClientRect())")
            browser.mouse("mousePressed", left + 0.95 * width, top + 5)
            browser.mouse("mouseReleased", left + 0.95 * width, top + 5, 0)
            step = browser.value("chipbenchPage.model.step")
            assert 0.7 * played < step < 2 * played, (played, step)
            self.played(browser)
            assert browser.value("chipbenchPage.timeline.window") == [0, 3150], browser.value("chipbenchPage.timeline.window")

    def test_the_screen_is_dark(self) -> None:
        """In both themes."""
        with self.wide_page() as browser:
            for theme in ("light", "dark"):
                browser.theme(theme)
                dark, lit = (
                    light([int(colour[at : at + 2], 16) for at in (1, 3, 5)])
                    for colour in browser.value("['--screen-dark', '--screen-lit'].map((name) => getComputedStyle(document.documentElement).getPropertyValue(name).trim())")
                )
                assert dark < 0.02 and lit > 0.4, (theme, dark, lit)

    def test_parts_at_each_size(self) -> None:
        """No panel is without height, no text lies over another, nothing covers a control, and each text has a contrast of 4.5 or more."""
        with self.page(self.example("breaker")) as browser:
            self.played(browser)
            for width, height in SIZES:
                browser.size(width, height)
                for theme in ("light", "dark"):
                    browser.theme(theme)
                    for tab in PANELS if theme == "light" else ("words", "keys"):
                        self.tab(tab)
                        time.sleep(0.1)
                        self.check_part(f"#{tab}-part", width, height)
                        self.check_texts((width, height, theme, tab))
                    self.tab("source")
                    time.sleep(0.1)
                    self.check_part("#editor", width, height)
                    assert browser.value(COVERED) == [], (width, height, browser.value(COVERED))
                    self.picture(f"layout-{width}-{height}-{theme}")

    def test_nothing_is_out_of_reach(self) -> None:
        """At each size: no part is without height, and no control lies below another part or outside of the window."""
        low = "[...document.querySelectorAll('main section, #time-part')].filter((one) => one.checkVisibility() && one.getBoundingClientRect().height < 36).map((one) => one.id)"
        with self.page(self.example("breaker")) as browser:
            for width, height in SIZES:
                browser.size(width, height)
                browser.wait(f"innerWidth === {width}")
                time.sleep(0.1)
                assert browser.value(low) == [], (width, height, browser.value(low))
                assert browser.value(COVERED) == [], (width, height, browser.value(COVERED))

    def check_part(self, selector: str, width: int, height: int) -> None:
        """The panel, the screen, the registers and the time are in sight and have a size."""
        for part, least in ((selector, 90), ("#screen", 90), ("#registers-part", 70), ("#close-up", 30), ("#transport", 36), ("#tabs", 30)):
            left, top, right, bottom = self.browser.value(
                f"(() => {{ const b = document.querySelector('{part}').getBoundingClientRect(); return [b.left, b.top, b.right, b.bottom]; }})()"
            )
            assert left >= -1 and top >= -1 and right <= width + 1 and bottom <= height + 1, (part, width, height, left, top, right, bottom)
            assert bottom - top >= least and right - left >= 150, (part, width, height, bottom - top, right - left)

    def check_texts(self, where: tuple[object, ...]) -> None:
        texts = self.browser.value(TEXTS)
        assert len(texts) > 30, where
        for text in texts:
            told = contrast(text["colour"], text["below"])
            assert told >= (3 if text["large"] else 4.5), (where, text, told)
        for place, one in enumerate(texts):
            for other in texts[place + 1 :]:
                wide = min(one["box"][2], other["box"][2]) - max(one["box"][0], other["box"][0])
                tall = min(one["box"][3], other["box"][3]) - max(one["box"][1], other["box"][1])
                assert wide < 2 or tall < 5, (where, one, other)

    def test_menus_are_whole(self) -> None:
        """At each size an open menu lies in the window, with all that stands in its rows; what is too long for its height scrolls."""
        with self.page(self.example("breaker")) as browser:
            for width, height in SIZES:
                browser.size(width, height)
                browser.wait(f"innerWidth === {width}")
                for menu in ("#file-menu", "#more-menu"):
                    browser.value(f"document.querySelector('{menu}').open = true")
                    left, top, right, bottom = browser.value(f"(({{ left, top, right, bottom }}) => [left, top, right, bottom])(document.querySelector('{menu} > div').getBoundingClientRect())")
                    assert left >= 0 and top >= 0 and right <= width and bottom <= height, (menu, width, height, left, top, right, bottom)
                    cut = browser.value(
                        f"[...document.querySelectorAll('{menu} > div :is(button, kbd)')].filter((one) => one.checkVisibility())"
                        f".filter((one) => {{ const b = one.getBoundingClientRect(); return b.left < {left} || b.right > {right} || one.scrollWidth > one.clientWidth + 1 && one.localName === 'button'; }})"
                        ".map((one) => one.textContent)"
                    )
                    assert cut == [], (menu, width, cut)
                    self.picture(f"menu-{menu[1:]}-{width}")
                    browser.value(f"document.querySelector('{menu}').open = false")

    def test_the_card_of_a_fault_is_in_sight(self) -> None:
        """Also where its line is the last one in sight: there it stands above the line."""
        boxes = "['#fault-help', '#editor', '#gutter .faulty'].map((name) => { const b = document.querySelector(name).getBoundingClientRect(); return [b.top, b.bottom]; })"
        text = "".join(f"L{number}: LD V0, {number}\n" for number in range(100)).replace("LD V0, 60", "DRV V0, V1, 4")
        with self.page(text) as browser:
            for width, height in ((1440, 900), (720, 450)):
                browser.size(width, height)
                browser.wait(f"innerWidth === {width}")
                for place in ("first", "last"):
                    lines = browser.value("Math.floor(document.getElementById('editor').clientHeight / 20)")
                    browser.value("chipbenchPage.editor.goToLine(1)")
                    browser.wait("document.getElementById('fault-help').hidden")
                    browser.value(f"document.getElementById('editor').scrollTop = {20 * (60 if place == 'first' else 62 - lines)}; chipbenchPage.editor.select(chipbenchPage.editor.placeOf(61, 0), chipbenchPage.editor.placeOf(61, 0))")
                    browser.wait("!document.getElementById('fault-help').hidden && document.querySelectorAll('#fault-help button').length === 2")
                    card, editor, line = browser.value(boxes)
                    assert editor[0] <= card[0] and card[1] <= editor[1], (width, place, card, editor)
                    assert card[0] >= line[1] if place == "first" else card[1] <= line[0], (width, place, card, line)

    def test_numbers_of_the_ruler(self) -> None:
        """None of them shows beside the number of the step, which covers a part of it."""
        ink = (
            "(() => { const canvas = document.querySelector('#close-up canvas'); const copy = new OffscreenCanvas(canvas.width, 16).getContext('2d', { willReadFrequently: true });"
            "copy.drawImage(canvas, 0, 0); const { data, width } = copy.getImageData(0, 3, canvas.width, 10);"
            "return Array.from({ length: width }, (_, x) => Array.from({ length: 10 }, (_, y) => data[4 * (y * width + x) + 3]).filter((alpha) => alpha > 40).length); })()"
        )
        with self.page(self.example("bounce")) as browser:
            browser.size(1440, 900)
            browser.wait("innerWidth === 1440")
            for step, after in ((0, 12), (1000, 24)):
                self.step(step)
                columns = browser.value(ink)
                # the box of the step is the widest part without a gap
                right = max((place for place in range(len(columns)) if columns[place] == 10 and columns[place - 6] == 10), default=0)
                beside = [place for place in range(right + 1, min(len(columns), right + after)) if 0 < columns[place] < 10]
                assert right > 20 and beside == [], (step, right, beside)

    def test_notices_are_whole(self) -> None:
        """A long one is read without scrolling, in the window."""
        with self.page("CLS\n") as browser:
            browser.value("chipbenchPage.model.setOptions({ rate: '2000' })")
            browser.wait("document.querySelector('.notice') !== null")
            for width, height in SIZES[:-2]:
                browser.size(width, height)
                browser.wait(f"innerWidth === {width}")
                box = "(({ left, right }) => [left, right])(document.querySelector('.notice').getBoundingClientRect())"
                left, right = browser.value(box)
                cut = browser.value("(({ scrollHeight, clientHeight }) => scrollHeight - clientHeight)(document.querySelector('.notice p'))")
                assert left >= 0 and right <= width and cut <= 1, (width, left, right, cut)
            browser.value("chipbenchPage.model.setOptions({ rate: '10' })")
            browser.wait("document.querySelector('.notice') === null")

    def test_pictures_of_the_sizes(self) -> None:
        """In a picture of the page the screen is where it is said to be, with as many lit pixels, and the other parts aren't blank."""
        with self.page(self.example("breaker")) as browser, tempfile.TemporaryDirectory() as folder:
            self.played(browser)
            lit_share = browser.value(
                "(() => { const lit = document.getElementById('screen').getContext('2d').getImageData(0, 0, 128, 64).data; let count = 0;"
                "for (let place = 0; place < lit.length; place += 4) if (lit[place] > 100) count += 1; return count / 8192; })()"
            )
            for width, height in ((1440, 900), (720, 450), (390, 844)):
                browser.size(width, height)
                self.tab("source")
                place = Path(folder) / "page.png"

                taken: list[tuple[int, int, list[tuple[int, ...]]]] = []

                def part(selector: str) -> list[tuple[int, ...]]:
                    wide, _, colours = taken[-1]
                    left, top, right, bottom = (
                        round(edge)
                        for edge in browser.value(f"(() => {{ const b = document.querySelector('{selector}').getBoundingClientRect(); return [b.left, b.top, b.right, b.bottom]; }})()")
                    )
                    return [colour for row in range(top, bottom) for colour in colours[row * wide + left : row * wide + right]]

                def share() -> float:
                    browser.picture(place)
                    taken[:] = [pixels(place.read_bytes())]
                    screen = part("#screen")
                    return sum(colour[1] > 150 for colour in screen) / len(screen)

                # a picture that is taken too soon is of the size before
                wait_for(lambda: abs(share() - lit_share) < 0.03, f"the screen in a picture of {width} by {height}")
                assert taken[-1][:2] == (width, height)
                for selector in ("#editor", "#registers-part", "#close-up", "#transport", "header"):
                    assert len(set(part(selector))) > 8, (width, selector)

    def test_nothing_moves(self) -> None:
        """A notice, a fault, a message and a play leave each part where it is."""
        boxes = """[...document.querySelectorAll('section, footer, #editor, #screen, #tabs, #play, #step, #close-up, #overview')].filter((one) => one.checkVisibility())
            .map((one) => { const b = one.getBoundingClientRect(); return [one.id || one.localName, b.x, b.y, b.width, b.height].join(' '); })"""
        text = self.example("breaker")
        with self.page(text) as browser:
            for width, height in ((1440, 900), (1024, 768)):
                browser.size(width, height)
                self.step(300)
                before = browser.value(boxes)
                assert len(before) >= 12, before
                self.put_line(30, "        LD V1, NOWHERE")
                self.rest()
                assert browser.value(boxes) == before, width
                browser.press("z", "KeyZ", CONTROL)
                browser.value("chipbenchPage.model.setOptions({ rate: '2000' })")
                browser.wait("document.querySelector('.notice') !== null")
                assert browser.value(boxes) == before, width
                browser.value("chipbenchPage.model.setOptions({ rate: '10' })")
                browser.wait("document.querySelector('.notice') === null")
                browser.value("document.querySelector('[data-run=out]').click()")
                browser.wait("document.getElementById('run-result').textContent !== ''")
                browser.click("#play")
                browser.wait("chipbenchPage.model.step > 700")
                assert browser.value(boxes) == before, width
                browser.click("#play")

    def test_notices(self) -> None:
        """One is seen, the newest, which says how many there are."""
        seen = "[...document.querySelectorAll('.notice')].filter((one) => one.checkVisibility()).map((one) => one.querySelector('p').textContent)"
        with self.page("CLS\n") as browser:
            browser.value(f"{self.module('notices.mjs')}.then(({{ notice }}) => {{ notice('one', 'One.'); notice('two', 'Two.', {{ choices: [['Yes', () => {{}}]] }}); notice('one', 'One more.', {{ bad: true }}); }})")
            assert browser.value(seen) == ["One more."], browser.value(seen)
            assert browser.value("[...document.querySelectorAll('.notice .count')].at(-1).textContent") == "1 of 2"
            browser.value("[...document.querySelectorAll('.notice')].at(-1).querySelector('button').click()")
            assert browser.value(seen) == ["Two."], browser.value(seen)
            self.notice_button("Yes")
            assert browser.value(seen) == []

    def test_notices_go(self) -> None:
        """With their cause: what was told of a text isn't told of another one. What only tells, and asks nothing, goes by itself."""
        told = "[...document.querySelectorAll('.notice p')].map((one) => one.textContent)"
        with self.page("CLS\n", "first.asm") as browser:
            (self.folder / "second.asm").write_text("LD V0, 5\n")
            browser.value("chipbenchPage.model.setOptions({ rate: '2000' })")
            browser.wait(f"{told}.length === 1")
            browser.value("chipbenchPage.model.setOptions({ rate: '10' })")
            browser.wait(f"{told}.length === 0")
            self.put_line(1, "LD V1, 6")
            time.sleep(0.5)
            self.reload()
            browser.wait(f"{told}.some((text) => text.includes('The browser kept this text'))")
            self.open_named("second.asm")
            assert not any("The browser kept this text" in text for text in browser.value(told)), browser.value(told)
            browser.value(f"{self.module('notices.mjs')}.then(({{ notice }}) => notice('mere', 'So it is.'))")
            browser.wait(f"{told}.includes('So it is.')")
            browser.wait(f"!{told}.includes('So it is.')", 20.0)

    def test_the_focus_is_seen(self) -> None:
        """Whatever Tab reaches shows that it has the focus."""
        with self.page(self.example("breaker")) as browser:
            self.played(browser)
            self.tab("keys")
            browser.value("document.querySelector('.skip').focus()")
            unseen = []
            for _ in range(90):
                browser.press("Tab")
                if browser.value("document.activeElement.id") == "source-text":
                    browser.value("document.getElementById('split-source').focus()")
                told = browser.value(
                    "(() => { const one = document.activeElement; const style = getComputedStyle(one); const after = getComputedStyle(one, '::after');"
                    "const ring = style.outlineStyle !== 'none' && parseFloat(style.outlineWidth) >= 2; const line = one.id === 'split-source' && after.backgroundColor !== 'rgba(0, 0, 0, 0)';"
                    "return ring || line || one === document.body ? '' : one.outerHTML.slice(0, 90); })()"
                )
                # what comes after the last part is the browser's own
                if browser.value("document.activeElement.id") == "overview":
                    break
                if told:
                    unseen.append(told)
            assert unseen == [], unseen

    def test_the_start(self) -> None:
        """A new source begins with examples and a template, which run at once."""
        with self.page("", "old.asm", ()) as browser:
            assert not browser.value("document.getElementById('start').checkVisibility()")
        with self.page_of_nothing() as browser:
            browser.wait("document.querySelectorAll('.example').length === 4")
            for width, height in SIZES:
                browser.size(width, height)
                time.sleep(0.1)
                assert browser.value("document.getElementById('start').checkVisibility()")
                self.check_texts((width, height, "start"))
            self.picture("start")
            browser.size(1440, 900)
            browser.wait("[...document.querySelectorAll('.example')].find((one) => /breaker/.test(one.textContent)).checkVisibility()")
            browser.value("[...document.querySelectorAll('.example')].find((one) => /breaker/.test(one.textContent)).click()")
            browser.wait("chipbenchPage.model.text.length > 1000")
            assert browser.value("chipbenchPage.model.text") == self.example("breaker")
            assert browser.value("document.activeElement.id") == "play"
            browser.press(" ", "Space", text=" ")
            browser.wait("chipbenchPage.model.step > 300")
            browser.press(" ", "Space", text=" ")
            assert self.text_of("#fault-count") == "no faults"
            # the template is one more, and takes the place of nothing that was typed
            browser.value("document.getElementById('show-start').click()")
            browser.value("[...document.querySelectorAll('.example')].find((one) => /Template/.test(one.textContent)).click()")
            browser.wait("chipbenchPage.model.text.startsWith('; A ship')")
            self.rest()
            assert self.text_of("#fault-count") == "no faults"
