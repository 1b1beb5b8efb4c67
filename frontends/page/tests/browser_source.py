"""What an author types: edits, faults, undo, colours, completions."""

from __future__ import annotations

import json
import re
import subprocess
import time

from browser_page import TOP, PageTests
from driver import ALT, CONTROL, SHIFT


class SourceTests(PageTests):
    def test_edit_of_a_line(self) -> None:
        text = self.example("bounce")
        with self.page(text) as browser:
            self.step(1000)
            assert self.registers()["V0"] == "1f"
            self.put_line(5, "        LD V2, 255")
            self.rest()
            changed = text.replace("LD V2, 1\n", "LD V2, 255\n", 1)
            assert browser.value("document.getElementById('source-text').value") == changed
            assert "V0" in self.text_of("#edit-effect"), self.text_of("#edit-effect")
            assert self.text_of("#file-state").startswith("not in a file" if self.is_one_file else "not saved")
            assert self.path.read_text() == text
            self.check_step(changed, 1000, [])
            assert self.starts() == 1
            browser.press("z", "KeyZ", CONTROL)
            self.check_step(text, 1000, [])

    def test_fault(self) -> None:
        text = self.example("bounce")
        with self.page(text) as browser:
            self.step(1000)
            self.put_line(11, "        ADD V1")
            self.rest()
            assert self.text_of("#fault-count") == "1 fault, the first in line 11"
            assert self.text_of("#marks .told").startswith("F4: "), self.text_of("#marks .told")
            assert self.text_of("#machine-state") == "before the faults"
            assert "F4" in self.text_of("#line-state")
            assert self.registers()["V0"] == "1f"
            browser.value("chipbenchPage.editor.goToLine(1)")
            browser.press("F8")
            assert browser.value("chipbenchPage.editor.line") == 11
            self.picture("fault")
            browser.press("F1")
            browser.wait("document.getElementById('explanation').open")
            assert self.text_of("#explanation-title") == "F4"
            browser.press("Escape")
            self.put_line(11, "        ADD V1, V3")
            self.rest()
            assert self.text_of("#fault-count") == "no faults"
            self.check_step(text, 1000, [])

    def test_long_lines_are_told(self) -> None:
        with self.page("LD V0, 5\nLD V1, 6\n") as browser:
            self.put_line(1, "; " + "é" * 150)
            self.rest()
            assert "O1" in self.text_of("#marks .told"), self.text_of("#marks .told")
            self.put_line(1, "LD V0, 7")
            self.check_step("LD V0, 7\nLD V1, 6\n", 2, [])
            assert self.starts() == 1

    def test_typing(self) -> None:
        """Indents, and what Ctrl and Enter look for."""
        with self.page("") as browser:
            browser.value("document.getElementById('source-text').focus()")
            for line in ("START:  LD V0, 5", "LD V1, 6", "<LOOP:   ADD V0, 1", "SE V0, 9", "JP LOOP", "<HERE:JP HERE"):
                if line.startswith("<"):
                    browser.press("Backspace")
                browser.type(line.removeprefix("<"))
                browser.press("Enter", text="\r")
            text = "START:  LD V0, 5\n        LD V1, 6\nLOOP:   ADD V0, 1\n        SE V0, 9\n        JP LOOP\nHERE:JP HERE\n        "
            assert browser.value("document.getElementById('source-text').value") == text
            browser.press("Backspace")
            browser.press("Tab")
            browser.press("Tab")
            browser.press("Backspace")
            assert browser.value("document.getElementById('source-text').value") == text
            browser.value("document.getElementById('source-text').setSelectionRange(3, 34)")
            browser.press("Tab")
            assert browser.value("document.getElementById('source-text').value").startswith("        START:  LD V0, 5\n                LD V1, 6\nLOOP:")
            browser.press("z", "KeyZ", CONTROL)
            assert browser.value("document.getElementById('source-text').value") == text
            browser.value("chipbenchPage.editor.goToLine(6)")
            browser.press("Enter", "Enter", CONTROL)
            browser.wait("/^step/.test(document.getElementById('search-result').textContent)")
            found = browser.value("chipbenchPage.model.step")
            self.check_step(text, found, [])
            assert self.registers()["V0"] == "09" and self.registers()["pc"] == "020a"
            browser.value("chipbenchPage.editor.goToLine(3)")
            browser.press("Enter", "Enter", CONTROL | SHIFT)
            browser.wait(f"chipbenchPage.model.step < {found}")
            self.rest()
            assert self.registers()["V0"] == "08" and self.registers()["pc"] == "0204"
            assert browser.value("document.getElementById('source-text').value") == text

    def test_a_long_source(self) -> None:
        text = "".join(f"L{number}: LD V{number % 16:X}, {number % 200}\n" for number in range(1700)) + "; end\n" * 2300
        with self.page(text) as browser:
            self.step(1500)
            began = time.monotonic()
            self.put_line(800, "L799: LD V7, 3")
            self.rest()
            print(f"    an edit in 4,000 lines: shown in {1000 * (time.monotonic() - began):.0f} ms, the machine in {browser.value('chipbenchPage.viewer.took'):.0f} ms")
            assert self.starts() == 1
            browser.value("chipbenchPage.editor.goToLine(1700)")
            browser.wait("[...document.querySelectorAll('#gutter .number')].some((one) => one.textContent === '1700')")
            assert browser.value("document.querySelectorAll('#gutter .row').length") < 120

    def source(self) -> str:
        return self.browser.value("document.getElementById('source-text').value")

    def test_undo_of_typing(self) -> None:
        """By words and by pauses, forth and back, and across a reload."""
        with self.page("CLS\n") as browser:
            browser.value("chipbenchPage.editor.goToLine(2)")
            for character in "LD V0, 5":
                self.type_character(character)
            time.sleep(1.1)
            self.type_character("5")
            seen = [self.source()]
            while seen[-1] != "CLS\n":
                browser.press("z", "KeyZ", CONTROL)
                seen.append(self.source())
                assert len(seen) < 9, seen
            assert seen == ["CLS\nLD V0, 55", "CLS\nLD V0, 5", "CLS\nLD V0, ", "CLS\nLD ", "CLS\n"], seen
            browser.press("y", "KeyY", CONTROL)
            browser.press("Z", "KeyZ", CONTROL | SHIFT)
            assert self.source() == "CLS\nLD V0, "
            time.sleep(0.5)
            self.reload()
            assert self.source() == "CLS\nLD V0, "
            browser.value("document.getElementById('source-text').focus()")
            browser.press("y", "KeyY", CONTROL)
            assert self.source() == "CLS\nLD V0, 5"
            for _ in range(3):
                browser.press("z", "KeyZ", CONTROL)
            assert self.source() == "CLS\n"
            browser.press("z", "KeyZ", CONTROL)
            assert self.source() == "CLS\n"
            self.check_step("CLS\n", 1, [])

    def type_character(self, character: str) -> None:
        self.browser.press(character, "", 0, character)

    def test_colours_and_words(self) -> None:
        """Colours over the text as it is, completions, and what is told of a word."""
        with self.page("LOOP:   LD V0, 5 ; five\n        JP LOOP\n") as browser:
            kinds = "[...document.querySelectorAll('#colours div:first-child span')].map((part) => [part.className, part.textContent])"
            assert browser.value(kinds) == [["mnemonic", "LD"], ["register", "V0"], ["number", "5"], ["comment", "; five"]]
            assert browser.value("[...document.querySelectorAll('#colours div')].map((row) => row.textContent).join('\\n')") == self.source()
            browser.value("chipbenchPage.editor.goToLine(3)")
            for character in "JP LO":
                self.type_character(character)
            browser.wait("!document.getElementById('completions').hidden")
            assert "514" not in self.text_of("#completions") and "LOOP" in self.text_of("#completions"), self.text_of("#completions")
            browser.press("Tab")
            assert self.source().endswith("\nJP LOOP"), self.source()
            assert browser.value("document.getElementById('completions').hidden")
            self.rest()
            browser.value("chipbenchPage.editor.goToLine(2)")
            x, y = browser.value("(() => { const b = document.querySelectorAll('#colours div')[1].getBoundingClientRect(); return [b.x, b.y]; })()")
            width = browser.value("document.querySelector('#marks .measure span').getBoundingClientRect().width / 100")
            browser.mouse("mouseMoved", x + 12.5 * width, y + 10, 0)
            browser.wait("/^LOOP = 512 .*line 1$/.test(document.getElementById('hover').textContent)")
            browser.mouse("mouseMoved", x + 9.5 * width, y + 10, 0)
            browser.wait("/JP a {2}.1NNN.: goes to a/.test(document.getElementById('hover').textContent)")

    def test_faults_are_underlined(self) -> None:
        """At their tokens, with the program's own sentence, by its command `check`."""
        said = "game.asm:2:12: F9: undefined name\n        JP LOOPS\n           ^~~~~\n"
        program = self.program
        self.program = self.with_check(said)
        try:
            with self.page("LOOP:   LD V0, 5\n        JP LOOPS\n") as browser:
                browser.wait("document.querySelector('#marks .underline') !== null")
                place = browser.value("[...document.querySelectorAll('#marks .underline')].map((one) => [one.style.left, one.style.width])")
                assert place == [["11ch", "5ch"]], place
                assert self.text_of("#marks .told") == "F9: undefined name", self.text_of("#marks .told")
                self.put_line(2, "        JP LOOP")
                self.rest()
                assert browser.value("document.querySelector('#marks .underline')") is None
        finally:
            self.program = program

    def test_fixes(self) -> None:
        """What the program says of the cursor's line stands below it, with buttons that put it right; a fix that doesn't help isn't there."""
        text = "START:  LD V0 5\n        JP STRAT\n        LD V1, 300\n        MOV V2, 1\n"
        with self.page(text) as browser:
            shown = "(document.getElementById('fault-help').hidden ? '' : document.getElementById('fault-help').innerText)"
            buttons = "[...document.querySelectorAll('#fault-help button')].map((button) => button.firstChild.textContent)"
            below = "document.getElementById('fault-help').getBoundingClientRect().top - document.getElementById('editor').getBoundingClientRect().top"
            for line, sentence, title, fixed in (
                (1, "a comma is missing", "Put a comma", "START:  LD V0, 5"),
                (2, "did you mean START?", "Write START", "        JP START"),
                (4, "MOV is written LD here", "Write LD", "        LD V2, 1"),
            ):
                browser.value(f"chipbenchPage.editor.goToLine({line})")
                browser.wait(f"{shown}.includes({json.dumps(sentence)}) && {buttons}[0] === {json.dumps(title)}")
                assert browser.value(below) >= 20 * line, browser.value(below)
                self.picture(f"fix-{line}")
                if line == 1:
                    browser.value("document.querySelector('#fault-help button').click()")
                else:
                    browser.press("Enter", "Enter", ALT)
                assert browser.value(f"chipbenchPage.editor.lines[{line - 1}]") == fixed, browser.value("chipbenchPage.editor.text")
                browser.wait(f"{shown} === ''")
            browser.value("chipbenchPage.editor.goToLine(3)")
            browser.wait(f"{shown}.includes('has to lie from -128 to 255')")
            assert browser.value(buttons) == ["More"], browser.value(buttons)
            # no part of what is said is cut off
            assert browser.value(
                "(() => { const card = document.getElementById('fault-help'); const [box, there] = [card, document.getElementById('editor')].map((one) => one.getBoundingClientRect());"
                "return card.scrollWidth <= card.clientWidth && box.left >= there.left && box.right <= there.right && box.bottom <= there.bottom; })()"
            )
            browser.press("Escape")
            assert browser.value(shown) == "" and browser.value("document.activeElement.id") == "source-text"
            # a fix is one change, which is undone
            browser.press("z", "KeyZ", CONTROL)
            assert browser.value("chipbenchPage.editor.lines[3]") == "        MOV V2, 1"

    def test_fixes_of_other_languages(self) -> None:
        """Comments, shifts, numbers and operands as other assemblers write them have a button each, as the language server has a fix for them."""
        lines = {
            "LD V0, 1 // note": "LD V0, 1 ; note", "LD V0, 1 << 2": "LD V0, 1 < 2", "LD V0, 8 >> 1": "LD V0, 8 > 1", "LD V0, 0x1f": "LD V0, #1f",
            "DRW V0 V1 5": "DRW V0, V1, 5", "DA 'ab": "DA 'ab'", "START": "START:",
        }  # fmt: skip
        with self.page("".join(f"{line}\n" for line in lines)) as browser:
            for number, (line, fixed) in enumerate(lines.items(), 1):
                browser.value(f"chipbenchPage.editor.goToLine({number})")
                browser.wait("[...document.querySelectorAll('#fault-help:not([hidden]) button')].length === 2")
                browser.press("Enter", "Enter", ALT)
                assert browser.value(f"chipbenchPage.editor.lines[{number - 1}]") == fixed, (line, browser.value(f"chipbenchPage.editor.lines[{number - 1}]"))
            self.rest()
            assert self.text_of("#fault-count") == "no faults", self.text_of("#fault-count")

    def test_documents_of_an_explanation(self) -> None:
        """A document that the page of a code names opens in the dialog, at the row of the code."""
        with self.page("MOV V2, 1\n") as browser:
            browser.value("chipbenchPage.editor.goToLine(1); chipbenchPage.editor.focus()")
            browser.press("F1")
            browser.wait("document.getElementById('explanation').open && document.getElementById('explanation-text').textContent.includes('docs/LANGUAGE.md')")
            browser.wait("document.querySelector('#explanation-text button')?.textContent === 'docs/LANGUAGE.md'")
            assert self.text_of("#explanation-title") == "F3"
            browser.click("#explanation-text button")
            browser.wait("document.querySelector('#explanation-text mark') !== null")
            assert self.text_of("#explanation-title") == "docs/LANGUAGE.md"
            assert self.text_of("#explanation-text mark").startswith("| F3 "), self.text_of("#explanation-text mark")
            assert self.text_of("#explanation-text") == (TOP / "docs/LANGUAGE.md").read_text(encoding="utf-8")
            box = browser.value("(({ top, bottom }) => [top, bottom])(document.querySelector('#explanation-text mark').getBoundingClientRect())")
            assert 0 <= box[0] and box[1] <= 1000, box

    def test_licences(self) -> None:
        """The licences open at the end of the help, whole."""
        with self.page("CLS\n") as browser:
            browser.click("#show-help")
            assert not browser.value("document.getElementById('licences').open")
            browser.click("#licences summary")
            browser.wait("document.getElementById('licences-text').textContent.includes('MIT licence')")
            assert self.text_of("#licences-text") == (TOP / "THIRD-PARTY").read_text(encoding="utf-8")

    def test_find_and_replace(self) -> None:
        text = "".join(f"L{number}: LD V{number % 16:X}, {number % 200}\n" for number in range(600))
        with self.page(text) as browser:
            cursor = "(({ line, column }) => [line, column])(chipbenchPage.editor.cursor)"
            browser.value("chipbenchPage.editor.goToLine(5)")
            browser.press("f", "KeyF", CONTROL)
            browser.wait("document.activeElement.name === 'what'")
            browser.type("va, 1")
            assert browser.value(cursor) == [11, 13], browser.value(cursor)
            browser.press("Enter", text="\r")
            assert browser.value(cursor) == [107, 14], browser.value(cursor)
            assert self.text_of("#find-told") == f"2 of {text.count('VA, 1')}", self.text_of("#find-told")
            browser.press("Enter", modifiers=SHIFT)
            assert browser.value(cursor) == [11, 13], browser.value(cursor)
            browser.value("document.querySelector('#find [name=by]').value = 'VA, 2'; document.querySelector('#find [value=all]').click()")
            assert browser.value("chipbenchPage.editor.text") == text.replace("VA, 1", "VA, 2")
            browser.press("Escape")
            assert browser.value("document.activeElement.id") == "source-text"
            browser.press("z", "KeyZ", CONTROL)
            assert browser.value("chipbenchPage.editor.text") == text

    def test_go_to_a_line(self) -> None:
        """By its number, and by pages."""
        text = "".join(f"L{number}: LD V{number % 16:X}, {number % 200}\n" for number in range(600))
        with self.page(text) as browser:
            browser.value("chipbenchPage.editor.goToLine(5)")
            browser.press("g", "KeyG", CONTROL)
            browser.wait("document.activeElement.name === 'line'")
            browser.type("432")
            browser.press("Enter", text="\r")
            assert browser.value("chipbenchPage.editor.line") == 432
            browser.wait("[...document.querySelectorAll('#gutter .number')].some((one) => one.textContent === '432')")
            assert browser.value("document.getElementById('find').hidden && document.activeElement.id === 'source-text'")

    def test_page_down(self) -> None:
        """The cursor goes along: what is typed then stands in sight."""
        text = "".join(f"L{number}: LD V{number % 16:X}, {number % 200}\n" for number in range(600))
        with self.page(text) as browser:
            browser.value("chipbenchPage.editor.goToLine(5); document.getElementById('source-text').focus()")
            for _ in range(3):
                browser.press("PageDown")
            line = browser.value("chipbenchPage.editor.line")
            assert 60 < line < 200, line
            browser.press("PageUp")
            assert 30 < browser.value("chipbenchPage.editor.line") < line
            browser.press("x", text="x")
            browser.wait("document.getElementById('source-text').value.includes('xL')")

    def test_the_text_of_a_fault_is_whole(self) -> None:
        """At each width the sentence on the cursor's line, and what helps, are seen from their first letter to their last."""
        text = "; a long line of the game that goes on and on\nA_NAME_THAT_IS_LONG:    LD A_NAME_THAT_IS_LONG, ANOTHER_NAME  ; that goes on\n"
        seen = """((sentence) => {
            const walker = document.createTreeWalker(document.body, NodeFilter.SHOW_TEXT);
            while (walker.nextNode()) {
                const { currentNode: node } = walker;
                const place = node.data.indexOf(sentence);
                if (place < 0 || !node.parentElement.checkVisibility()) continue;
                const range = document.createRange();
                range.setStart(node, place);
                range.setEnd(node, place + sentence.length);
                const box = range.getBoundingClientRect();
                let isWhole = box.left >= 0 && box.right <= innerWidth && box.bottom <= innerHeight;
                for (let at = node.parentElement; at !== null; at = at.parentElement) {
                    const clip = at.getBoundingClientRect();
                    if (getComputedStyle(at).overflow !== 'visible' && (box.left < clip.left - 1 || box.right > clip.right + 1 || box.bottom > clip.bottom + 1)) isWhole = false;
                }
                if (isWhole) return true;
            }
            return false;
        })"""
        said = subprocess.run([self.program, "check", self.saved(text)], capture_output=True, text=True).stdout.splitlines()
        sentences = [said[0].split(": ", 2)[2], *(line.removeprefix("help: ") for line in said[1:] if line.startswith("help: "))]
        assert len(sentences) >= 2, said
        with self.page(text) as browser:
            for width, height in ((1440, 900), (1024, 768), (720, 450), (390, 844)):
                browser.size(width, height)
                browser.wait(f"innerWidth === {width}")
                self.tab("source")
                browser.value("chipbenchPage.editor.goToLine(1); chipbenchPage.editor.goToLine(2)")
                for sentence in sentences:
                    browser.wait(f"{seen}({json.dumps(sentence)})")

    def saved(self, text: str) -> str:
        place = self.folder / "checked.asm"
        place.write_text(text)
        return str(place)

    def test_the_form_of_the_line(self) -> None:
        """On an instruction the line's own form is told, and not all that its word has."""
        with self.page("LD V0, 5\nLD V1, V0\nLD V2, DT\nLD B, V2\n") as browser:
            x, y = browser.value("(() => { const b = document.querySelector('#colours div').getBoundingClientRect(); return [b.x, b.y]; })()")
            for line, form in enumerate(("LD Vx, kk  (6XKK): Vx := kk", "LD Vx, Vy  (8XY0): Vx := Vy", "LD Vx, DT  (FX07): Vx := delay timer", "LD B, Vx  (FX33)")):
                browser.mouse("mouseMoved", x + 12, y + 20 * line + 10, 0)
                browser.wait(f"document.getElementById('hover').textContent.startsWith({json.dumps(form)})")
                assert "\n" not in self.text_of("#hover"), self.text_of("#hover")

    def with_check(self, said: str) -> str:
        """The program; where it lacks the command `check`, one that has it, with this answer."""
        if re.search(r"^\s+check\b", subprocess.run([self.program, "--help"], capture_output=True, text=True).stdout, re.MULTILINE):
            return self.program
        place, answer = self.folder / "with-check", self.folder / "with-check.out"
        answer.write_text(said)
        place.write_text(
            f'#!/bin/sh\ncase "$1" in\ncheck) cat "{answer}"; exit 1 ;;\n--help) "{self.program}" --help; echo "  check  Prints the faults" ;;\n'
            f'*) exec "{self.program}" "$@" ;;\nesac\n'
        )
        place.chmod(0o755)
        return str(place)
