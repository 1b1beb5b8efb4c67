"""Files: what is kept, saved, opened, downloaded; windows, and programs that end."""

from __future__ import annotations

import contextlib
import json
import os
import signal
import socket
import subprocess
import sys
import time
from pathlib import Path

from browser_page import REST, SETTLED, PageTests, wait_for
from driver import CONTROL


def has_arrived(path: Path) -> bool:
    """Whether a download is there: a browser makes an empty file at first."""
    return path.exists() and path.stat().st_size > 0


# a file on the disk, which is what the author chooses
FAKE_FILE = """{
  globalThis.disk = { name: 'mine.asm', text: '' };
  const bytesOf = (text) => Uint8Array.from(text, (character) => character.charCodeAt(0));
  const handleOf = (file) => ({
    name: file.name,
    getFile: async () => ({ arrayBuffer: async () => bytesOf(file.text).buffer }),
    createWritable: async () => ({ write: async (bytes) => { file.text = String.fromCharCode(...bytes); }, close: async () => {} }),
  });
  globalThis.showSaveFilePicker = async () => handleOf(disk);
  globalThis.showOpenFilePicker = async () => [handleOf(disk)];
}"""

# what is told of an edit, and whether pixels are coloured, in each picture from now on
WATCH_EFFECTS = """{
  globalThis.effects = new Set();
  const plain = ['--screen-dark', '--screen-lit'].map((name) => getComputedStyle(document.documentElement).getPropertyValue(name).trim());
  const copy = new OffscreenCanvas(128, 64).getContext('2d', { willReadFrequently: true });
  const watch = () => {
    effects.add(document.getElementById('edit-effect').textContent);
    copy.drawImage(document.getElementById('screen'), 0, 0);
    const colours = new Set(new Uint32Array(copy.getImageData(0, 0, 128, 64).data.buffer));
    const names = [...colours].map((colour) => `#${[0, 8, 16].map((bits) => ((colour >>> bits) & 255).toString(16).padStart(2, '0')).join('')}`);
    if (names.some((name) => !plain.includes(name))) effects.add('a flash');
    requestAnimationFrame(watch);
  };
  watch();
}"""


class FileTests(PageTests):
    def test_reload(self) -> None:
        text = self.example("guess")
        with self.page(text) as browser:
            self.put_line(1, "; mine")
            browser.value("chipbenchPage.model.setKeys(chipbenchPage.model.keys.with(20, 3, true).with(40, 3, false)); chipbenchPage.model.setStep(777)")
            self.rest()
            self.reload()
            self.rest()
            assert browser.value("document.getElementById('source-text').value").startswith("; mine\n")
            assert browser.value("chipbenchPage.model.keys.size") == 2
            assert browser.value("chipbenchPage.model.step") == 777
            assert "The browser kept this text" in self.text_of("#notices")
            self.check_step(text, 777, ["kins 20 3 down", "kins 40 3 up"])

    def test_the_text_before_is_told_once(self) -> None:
        """Where the file changed meanwhile its text is shown, and mine is offered: at the first load, and among the earlier texts from then on."""
        with self.page(self.example("guess")) as browser:
            self.put_line(1, "; mine")
            self.rest()
            time.sleep(0.5)
            self.path.write_text("CLS\n")
            self.reload()
            assert self.source() == "CLS\n"
            assert "that you had before" in self.text_of("#notices"), self.text_of("#notices")
            time.sleep(0.5)
            # it is told once, and there again and again
            self.reload()
            assert self.source() == "CLS\n"
            assert "that you had before" not in self.text_of("#notices"), self.text_of("#notices")
            browser.value("document.getElementById('show-earlier').click()")
            browser.value("document.querySelector('#earlier-texts button').click()")
            assert self.source().startswith("; mine\n")
            assert self.path.read_text() == "CLS\n"

    def source(self) -> str:
        return self.browser.value("document.getElementById('source-text').value")

    def test_save(self) -> None:
        with self.page("CLS\r\nLD V0, 5\r\n") as browser:
            self.path.write_bytes(b"CLS\r\nLD V0, 5\r\n")
            self.reload()
            self.put_line(2, "LD V0, 6")
            browser.press("s", "KeyS", CONTROL)
            browser.wait("document.getElementById('file-state').textContent === 'saved'")
            assert self.path.read_bytes() == b"CLS\r\nLD V0, 6\r\n"
            self.put_line(2, "LD V0, 7")
            self.path.write_bytes(b"another\n")
            browser.press("s", "KeyS", CONTROL)
            browser.wait("document.querySelector('.notice') !== null")
            assert self.path.read_bytes() == b"another\n"
            browser.value("[...document.querySelectorAll('.notice button')].find((button) => /over/.test(button.textContent)).click()")
            browser.wait("document.getElementById('file-state').textContent === 'saved'")
            assert self.path.read_bytes() == b"CLS\r\nLD V0, 7\r\n"

    def test_downloads_and_uploads(self) -> None:
        text = self.example("guess")
        place = self.folder / "downloads"
        place.mkdir(exist_ok=True)
        with self.page(text, "guess.asm") as browser:
            browser.downloads(place)
            browser.value("chipbenchPage.model.setKeys(chipbenchPage.model.keys.with(20, 3, true))")
            for kind in ("source", "keys", "image"):
                browser.value(f"document.getElementById('download-{kind}').click()")
            for name in ("guess.asm", "guess.keys", "guess.ch8"):
                wait_for(lambda: has_arrived(place / name), name)
            assert (place / "guess.asm").read_text() == text
            assert (place / "guess.keys").read_text() == "20 3 down\n"
            assert (place / "guess.ch8").read_bytes().hex() + "\n" == self.said(text, ["image"])
            other = self.folder / "elsewhere.asm"
            other.write_text("LD V3, 9\n")
            self.upload(other)
            browser.wait("document.getElementById('source-text').value === 'LD V3, 9\\n'")
            self.step(1)
            assert self.registers()["V3"] == "09"
            self.open_named("guess.asm")
            assert self.source() == text
            assert browser.value("chipbenchPage.model.keys.size") == 1
            keys = self.folder / "other.keys"
            keys.write_text("40 5 down\n")
            self.upload(keys)
            browser.wait("chipbenchPage.model.keys.at(40, 5)?.down === true && chipbenchPage.model.keys.size === 1")
            self.upload(place / "guess.ch8")
            browser.wait("document.getElementById('file-name').textContent === 'guess.ch8'")
            assert self.source() != text
            assert self.said(browser.value("document.getElementById('source-text').value"), ["image"]) == self.said(text, ["image"])
            self.check_an_edited_image(place)

    def check_an_edited_image(self, place: Path) -> None:
        """What `dis` made of an image is edited, and assembled to what the program itself makes of it."""
        self.put_line(1, "RND V0, 7")
        self.rest()
        (place / "guess.ch8").unlink()
        self.browser.value("document.getElementById('download-image').click()")
        wait_for(lambda: has_arrived(place / "guess.ch8"), "the edited image")
        assert (place / "guess.ch8").read_bytes().hex() + "\n" == self.said(self.browser.value("document.getElementById('source-text').value"), ["image"])
        assert (place / "guess.ch8").read_bytes()[:2] == b"\xc0\x07"
        large = self.folder / "large.ch8"
        large.write_bytes(bytes(3585))
        self.upload(large)
        self.browser.wait("/over 3584 bytes/.test(document.getElementById('notices').textContent)")
        assert str(self.folder.parent) not in self.text_of("#notices"), self.text_of("#notices")

    def test_open_takes_the_title(self) -> None:
        """Save writes the file of the title, and no other."""
        with self.page("CLS\n", "first.asm") as browser:
            first = self.path
            second = self.folder / "second.asm"
            second.write_text("LD V0, 2\n")
            elsewhere = self.folder / "elsewhere"
            elsewhere.mkdir(exist_ok=True)
            third = elsewhere / "third.asm"
            third.write_text("LD V0, 3\n")
            # one that the browser was handed, from wherever it lies: saving asks for a name
            self.upload(third)
            browser.wait("document.getElementById('source-text').value === 'LD V0, 3\\n'")
            browser.press("s", "KeyS", CONTROL)
            time.sleep(0.3)
            assert first.read_text() == "CLS\n", f"the first file has the text of another: {first.read_text()!r}"
            assert self.text_of("#file-name") == "third.asm", self.text_of("#file-name")
            assert browser.value("document.title").startswith("third.asm")
            browser.wait("document.getElementById('save-as').open")
            browser.click("#save-as [value=save]")
            browser.wait("document.getElementById('file-state').textContent === 'saved'")
            assert (self.folder / "third.asm").read_text() == "LD V0, 3\n"
            assert third.read_text() == "LD V0, 3\n"
            # one of the folder
            self.put_line(1, "LD V0, 33")
            self.open_named("second.asm")
            assert self.source() == "LD V0, 2\n"
            self.put_line(1, "LD V0, 22")
            browser.press("s", "KeyS", CONTROL)
            browser.wait("document.getElementById('file-state').textContent === 'saved'")
            assert (first.read_text(), second.read_text()) == ("CLS\n", "LD V0, 22\n")
            # a reload stays with it, and what wasn't saved of the others is kept
            self.reload()
            assert (self.text_of("#file-name"), self.source()) == ("second.asm", "LD V0, 22\n")
            self.open_named("third.asm")
            assert self.source() == "LD V0, 33\n"
            assert (self.folder / "third.asm").read_text() == "LD V0, 3\n"

    def test_an_image(self) -> None:
        """Its source is opened under its name, and is in no file until it is saved; the image stays as it is."""
        image = bytes.fromhex(self.said(self.example("guess"), ["image"]))
        with self.page(image, "guess.ch8", ("--tape", "05")) as browser:
            shown = self.source()
            assert shown == subprocess.run([self.program, "dis", str(self.path)], capture_output=True, text=True, check=True).stdout
            assert (self.text_of("#file-name"), browser.value("document.title")) == ("guess.ch8", "guess.ch8 – chipbench")
            assert self.text_of("#file-state").startswith("not in a file"), self.text_of("#file-state")
            self.check_step(shown, 300, [], ("--tape", "05"))
            # what is typed is there again after a reload, and the source of the image can be taken again
            self.put_line(1, "RND V0, 7 ; mine")
            mine = self.source()
            self.rest()
            self.reload()
            assert self.source() == mine
            self.notice_button("Take the source of the image")
            assert self.source() == shown
            browser.value("document.getElementById('source-text').focus()")
            browser.press("z", "KeyZ", CONTROL)
            assert self.source() == mine
            # saving asks for a name, and proposes that of a source
            browser.press("s", "KeyS", CONTROL)
            browser.wait("document.getElementById('save-as').open")
            assert browser.value("document.querySelector('#save-as [name=name]').value") == "guess.asm"
            browser.click("#save-as [value=save]")
            browser.wait("document.getElementById('file-state').textContent === 'saved'")
            assert self.text_of("#file-name") == "guess.asm"
            assert ((self.folder / "guess.asm").read_text(), self.path.read_bytes()) == (mine, image)
            self.reload()
            assert (self.text_of("#file-name"), self.source()) == ("guess.asm", mine)

    def test_save_as(self) -> None:
        """A file that is there already is told of before it is written over, and its text is kept."""
        with self.page("CLS\n", "first.asm") as browser:
            other = self.folder / "taken.asm"
            other.write_text("LD V0, 9 ; theirs\n")
            self.save_as("taken.asm")
            browser.wait("/taken.asm already/.test(document.getElementById('notices').textContent)")
            assert other.read_text() == "LD V0, 9 ; theirs\n"
            self.notice_button("Write mine over it")
            browser.wait("document.getElementById('file-name').textContent === 'taken.asm'")
            assert (other.read_text(), self.path.read_text()) == ("CLS\n", "CLS\n")
            browser.value("document.getElementById('show-earlier').click()")
            assert "theirs" in self.text_of("#earlier-texts"), self.text_of("#earlier-texts")
            browser.value("document.querySelector('#earlier-texts button').click()")
            browser.wait("document.getElementById('source-text').value === 'LD V0, 9 ; theirs\\n'")
            self.save_as("a/b.asm")
            browser.wait("/no slash/.test(document.getElementById('notices').textContent)")
            assert other.read_text() == "CLS\n"
            self.browser.console = [line for line in self.browser.console if "400" not in line]

    def save_as(self, name: str) -> None:
        self.browser.value("document.getElementById('save-as-button').click()")
        self.browser.wait("document.getElementById('save-as').open")
        self.browser.value(f"document.querySelector('#save-as [name=name]').value = {json.dumps(name)}")
        self.browser.click("#save-as [value=save]")

    def test_text_before_a_save(self) -> None:
        with self.page("CLS ; first\n") as browser:
            self.put_line(1, "CLS ; second")
            browser.press("s", "KeyS", CONTROL)
            browser.wait("document.getElementById('file-state').textContent === 'saved'")
            assert self.path.read_text() == "CLS ; second\n"
            browser.value("document.getElementById('show-earlier').click()")
            assert "first" in self.text_of("#earlier-texts"), self.text_of("#earlier-texts")
            browser.value("document.querySelector('#earlier-texts button').click()")
            browser.wait("document.getElementById('source-text').value === 'CLS ; first\\n'")
            assert self.path.read_text() == "CLS ; second\n"

    def test_a_file_that_changes_on_the_disk(self) -> None:
        """It is told when the author comes back to the window, and before it is written over."""
        with self.page("CLS\n") as browser:
            self.put_line(1, "LD V0, 1 ; mine")
            self.path.write_text("LD V0, 2 ; theirs\n")
            browser.value("dispatchEvent(new Event('focus'))")
            browser.wait("/changed by another program/.test(document.getElementById('notices').textContent)")
            self.notice_button("Keep mine")
            browser.press("s", "KeyS", CONTROL)
            browser.wait("/Your text wasn't saved/.test(document.getElementById('notices').textContent)")
            assert self.path.read_text() == "LD V0, 2 ; theirs\n"
            self.notice_button("Leave it")
            self.path.write_text("LD V0, 3 ; theirs\n")
            browser.value("dispatchEvent(new Event('focus'))")
            browser.wait("/changed by another program/.test(document.getElementById('notices').textContent)")
            self.notice_button("Take its text")
            assert self.source() == "LD V0, 3 ; theirs\n"
            assert self.text_of("#file-state") == "saved"
            browser.value("document.getElementById('source-text').focus()")
            browser.press("z", "KeyZ", CONTROL)
            assert self.source() == "LD V0, 1 ; mine\n"

    def test_a_file_that_cannot_be_saved(self) -> None:
        """Nothing is lost, and it is told."""
        with self.page("CLS\n") as browser:
            self.put_line(1, "LD V0, 1 ; mine")
            self.path.unlink()
            self.path.mkdir()
            browser.press("s", "KeyS", CONTROL)
            browser.wait("/It wasn't saved: .*is not a file/.test(document.getElementById('notices').textContent)")
            assert self.source() == "LD V0, 1 ; mine\n"
            self.path.rmdir()
            browser.press("s", "KeyS", CONTROL)
            browser.wait("/Write mine over it/.test(document.getElementById('notices').textContent)")
            self.notice_button("Write mine over it")
            browser.wait("document.getElementById('file-state').textContent === 'saved'")
            assert self.path.read_text() == "LD V0, 1 ; mine\n"
            self.browser.console = [line for line in self.browser.console if "409" not in line]

    def test_a_full_disk(self) -> None:
        """Saving says so, and neither the file nor what was typed is lost."""
        place = self.folder / "small"
        place.mkdir()
        if subprocess.run(["mount", "-t", "tmpfs", "-o", "size=64k", "tmpfs", str(place)], capture_output=True).returncode != 0:
            print("    nothing is tried: this user can't mount a small disk")
            return
        try:
            with self.page("CLS ; first\n", "small/game.asm") as browser:
                with contextlib.suppress(OSError), (place / "filler").open("wb", buffering=0) as filler:
                    while filler.write(bytes(4096)):
                        pass
                self.put_line(1, "LD V0, 1 ; mine")
                browser.press("s", "KeyS", CONTROL)
                browser.wait("/It wasn't saved: .*No space left/.test(document.getElementById('notices').textContent)")
                assert (self.path.read_text(), sorted(os.listdir(place))) == ("CLS ; first\n", ["filler", "game.asm"])
                assert self.source() == "LD V0, 1 ; mine\n"
                assert self.text_of("#file-state").startswith("not saved")
                self.reload()
                assert self.source() == "LD V0, 1 ; mine\n"
                (place / "filler").unlink()
                browser.press("s", "KeyS", CONTROL)
                browser.wait("document.getElementById('file-state').textContent === 'saved'")
                assert self.path.read_text() == "LD V0, 1 ; mine\n"
                self.browser.console = [line for line in self.browser.console if "500" not in line]
        finally:
            subprocess.run(["umount", "--lazy", str(place)], check=True)

    def test_a_hundred_connections(self) -> None:
        """The page goes on while a hundred others are connected: some say nothing, some a part of a request."""
        text = self.example("bounce")
        with self.page(text) as browser, contextlib.ExitStack() as stack:
            host, port = self.address.split("/")[2].split(":")
            for number in range(100):
                other = stack.enter_context(socket.create_connection((host, int(port)), timeout=5))
                other.sendall([b"", b"G", b"GET / HTTP/1.1\r\nHost: x\r\n"][number % 3])
            self.check_step(text, 1000, [])
            self.put_line(5, "        LD V2, 255")
            self.rest()
            self.check_step(text.replace("LD V2, 1\n", "LD V2, 255\n", 1), 1000, [])
            self.reload()
            self.check_step(text.replace("LD V2, 1\n", "LD V2, 255\n", 1), 7, [])

    def test_key_files(self) -> None:
        """Files of key events are read as the program reads them, comments and all; what it refuses is told with the line."""
        text = self.example("guess")
        with self.page(text) as browser:
            keys = self.folder / "play.keys"
            keys.write_bytes(b"; a play, as the guide writes one\n\n  100 #5 down ; press\r\n#78 5 up\n200 12 down")
            self.upload(keys)
            browser.wait("chipbenchPage.model.keys.size > 0 || document.querySelector('.notice') !== null")
            assert browser.value("chipbenchPage.model.keys.size") == 3, self.text_of("#notices")
            self.check_step(text, 300, ["kins 100 5 down", "kins 120 5 up", "kins 200 12 down"])
            for line, why in (
                ("100 16 down", "there is no such KEY"),
                ("100 5 down", "an earlier line already has"),
                ("1 2 3", "expected STEP KEY"),
                ("5 5 down now", "expected STEP KEY"),
            ):
                keys.write_text(f"; a comment\n100 5 down\n{line}\n")
                self.upload(keys)
                browser.wait(f"/line 3 of the keys: {why}/.test(document.getElementById('notices').textContent)")
                assert browser.value("chipbenchPage.model.keys.size") == 3

    def test_source_with_keys(self) -> None:
        """One file that assembles as it is, and opens again."""
        text = self.example("guess")
        place = self.folder / "games"
        place.mkdir(exist_ok=True)
        with self.page(text, "guess.asm") as browser:
            browser.downloads(place)
            browser.value("chipbenchPage.model.setKeys(chipbenchPage.model.keys.with(20, 3, true).with(44, 3, false)); chipbenchPage.model.setStep(77)")
            options = {"rate": "20", "seed": "7", "profile": "vip", "every": "5000"}
            browser.value(f"chipbenchPage.model.setOptions({json.dumps(options)})")
            browser.value("document.getElementById('download-game').click()")
            wait_for(lambda: has_arrived(place / "guess.game.asm"), "the game")
            assert self.said((place / "guess.game.asm").read_text(), ["image"]) == self.said(text, ["image"])
            browser.value("chipbenchPage.model.setKeys(chipbenchPage.model.keys.without(20, 3).with(5, 5, true)); chipbenchPage.model.setStep(3); chipbenchPage.model.setOptions({ rate: '10' })")
            self.upload(place / "guess.game.asm")
            browser.wait("document.getElementById('file-name').textContent === 'guess.game.asm' && chipbenchPage.model.keys.size === 2")
            assert self.source() == text
            self.rest()
            assert browser.value("chipbenchPage.model.step") == 77
            assert {name: browser.value(f"chipbenchPage.model.options.{name}") for name in options} == options, browser.value("chipbenchPage.model.options")
            self.check_step(text, 77, ["kins 20 3 down", "kins 44 3 up"], ("--rate", "20", "--seed", "7", "--profile", "vip"))

    def test_breakpoints_and_colours_go_with_the_game(self) -> None:
        """Where the source is saved with its keys, and opened again."""
        place = self.folder / "games"
        place.mkdir(exist_ok=True)
        with self.page(self.example("guess"), "guess.asm") as browser:
            browser.downloads(place)
            browser.value("chipbenchPage.editor.breakpoints.set([3, 5]); document.getElementById('download-game').click()")
            wait_for(lambda: has_arrived(place / "guess.game.asm"), "the game")
            self.upload(place / "guess.game.asm")
            browser.wait("document.getElementById('file-name').textContent === 'guess.game.asm'")
            assert browser.value("chipbenchPage.editor.breakpoints.lines") == [3, 5], browser.value("chipbenchPage.editor.breakpoints.lines")
            browser.value("chipbenchPage.model.setLook({ screen: 'amber', arrows: '2486' }); document.getElementById('download-game').click()")
            wait_for(lambda: has_arrived(place / "guess.game.game.asm"), "the game")
            self.upload(place / "guess.game.game.asm")
            browser.wait("document.getElementById('file-name').textContent === 'guess.game.game.asm'")
            assert browser.value("[chipbenchPage.model.look.screen, chipbenchPage.model.look.arrows]") == ["amber", "2486"]

    def test_pictures_and_scripts(self) -> None:
        text = self.example("bounce")
        place = self.folder / "exports"
        place.mkdir(exist_ok=True)
        with self.page(text, "bounce.asm") as browser:
            browser.downloads(place)
            browser.value("chipbenchPage.model.setKeys(chipbenchPage.model.keys.with(20, 3, true))")
            self.step(400)
            for name in ("picture", "script"):
                browser.value(f"document.getElementById('download-{name}').click()")
            browser.value("document.getElementById('show-animation').click()")
            browser.value("{ const { elements } = document.querySelector('#animation form'); elements.first.value = 0; elements.last.value = 400; }")
            browser.click("#animation [value=save]")
            for name in ("bounce-400.png", "bounce.script", "bounce.out", "bounce-0-400.gif"):
                wait_for(lambda: has_arrived(place / name), name)
            assert (place / "bounce-400.png").read_bytes()[16:24] == bytes([0, 0, 4, 0, 0, 0, 2, 0])
            script = (place / "bounce.script").read_text().splitlines()
            assert script[0] == "kins 20 3 down"
            assert (place / "bounce.out").read_text() == self.said(text, script)
            animation = (place / "bounce-0-400.gif").read_bytes()
            assert animation[:10] == b"GIF89a\x00\x02\x00\x01" and animation[-1:] == b";"
            size = "new Promise((done, fail) => { const image = new Image(); image.onload = () => done([image.width, image.height]); image.onerror = fail; image.src = URL.createObjectURL(new Blob([new Uint8Array(%s)], { type: 'image/gif' })); })"
            browser.open("about:blank")
            assert browser.value(size % list(animation)) == [512, 256]

    def test_cases(self) -> None:
        """A case for `test` has the source, the settings, the keys and the answers at their steps; a program with that word carries it out."""
        text = self.example("guess")
        place = self.folder / "cases"
        place.mkdir(exist_ok=True)
        with self.page(text, "guess.asm", ("--tape", "05")) as browser:
            browser.downloads(place)
            browser.value("chipbenchPage.model.setKeys(chipbenchPage.model.keys.with(20, 3, true).with(44, 3, false))")
            self.step(100)
            browser.value("document.getElementById('download-case').click()")
            wait_for(lambda: has_arrived(place / "guess.test"), "the case")
            events = ["kins 20 3 down", "kins 44 3 up"]
            questions = [f"{word} {step}" for step in (20, 44, 100) for word in ("regs", "screen")]
            answers = [self.said(text, [*events, question], ("--tape", "05")).removeprefix("ok\nok\n") for question in questions]
            asked = "".join(f"> {command}\n{answer}" for command, answer in zip([*events, *questions], ["ok\n", "ok\n", *answers]))
            assert (place / "guess.test").read_text() == f"case guess at step 100\nsource\n{text}end\nrate 10\ntape 05\n{asked}"
            run = subprocess.run([self.program, "test", str(place / "guess.test")], capture_output=True, text=True)
            assert (run.returncode, run.stdout) == (0, "1 passed, 0 failed\n"), run
            self.put_line(1, "end")
            browser.value("document.getElementById('download-case').click()")
            browser.wait("/can't hold a source with a line `end`/.test(document.getElementById('notices').textContent)")

    def test_a_game_is_exported(self) -> None:
        """As a page that plays it by the keys of the keyboard, with its settings and its arrow keys."""
        self.export_game(("--seed", "7", "--rate", "20"))

    def test_a_game_is_exported_with_its_quirks(self) -> None:
        self.export_game(("--seed", "7", "--rate", "20", "--profile", "vip", "--quirks", "edges=wrap"))

    def export_game(self, words: tuple[str, ...]) -> None:
        """Digits at random columns, some of them at the edge."""
        text = "LD I, #300\nLOOP: LD V0, K\nRND V1, #3F\nOR V1, V4\nLD F, V0\nDRW V1, V2, 5\nLD V4, 60\nJP LOOP\n"
        place = self.folder / "games"
        place.mkdir(exist_ok=True)
        with self.page(text, "a game.asm", words=words) as browser:
            browser.downloads(place)
            browser.value("chipbenchPage.model.setLook({ screen: 'theme', arrows: '2486', letters: false })")
            self.press_button("#export-game")
            wait_for(lambda: has_arrived(place / "a game.html"), "the page of the game")
        try:
            browser.open((place / "a game.html").as_uri())
            browser.wait("globalThis.chipbenchPlayer?.game.step > 10")
            assert browser.value("document.title") == "a game"
            # what was asked of the session and taken
            browser.value(
                "globalThis.events = []; { const { game } = chipbenchPlayer; const ask = game.ask.bind(game);"
                "game.ask = (command) => { const answer = ask(command); if (answer === 'ok\\n') events.push(command); return answer; }; }"
            )
            browser.press("ArrowDown", "ArrowDown", hold=0.3)
            browser.press("x", "KeyX", hold=0.3)
            browser.wait("events.length === 4")
            step, screen = browser.value("(() => { const { game } = chipbenchPlayer; return [game.step, game.ask(`screen ${game.step}`)]; })()")
            events = browser.value("events")
            assert [event.split()[2:] for event in events] == [["8", "down"], ["8", "up"], ["0", "down"], ["0", "up"]], events
            assert len(screen.splitlines()) > 5, screen
            assert self.said(text, [*events, f"screen {step}"], words) == "ok\n" * 4 + screen
        finally:
            browser.open("about:blank")

    def test_files_without_a_bridge(self) -> None:
        """Where the browser has file access of its own, a file is saved in its place and followed; else saving is a download."""
        place = self.folder / "saved"
        place.mkdir(exist_ok=True)
        saved = "document.getElementById('file-state').textContent === 'saved'"
        with self.page("CLS\n") as browser:
            if not browser.value("typeof showSaveFilePicker === 'function'"):
                browser.downloads(place)
                browser.press("s", "KeyS", CONTROL)
                browser.wait("document.getElementById('save-as').open")
                browser.value("document.querySelector('#save-as [name=name]').value = 'mine.asm'; document.querySelector('#save-as [value=save]').click()")
                browser.wait(saved)
                wait_for(lambda: has_arrived(place / "mine.asm"), "the file that was saved")
                assert (place / "mine.asm").read_text() == "CLS\n"
                return
            browser.value(FAKE_FILE)
            browser.press("s", "KeyS", CONTROL)
            browser.wait(saved)
            assert [browser.value("disk.text"), self.text_of("#file-name")] == ["CLS\n", "mine.asm"]
            self.put_line(1, "LD V0, 5")
            browser.wait(f"!({saved})")
            browser.press("s", "KeyS", CONTROL)
            browser.wait(saved)
            assert browser.value("disk.text") == "LD V0, 5\n"
            browser.value("disk.text = 'LD V0, 6 ; theirs\\n'")
            browser.wait("document.getElementById('source-text').value === 'LD V0, 6 ; theirs\\n'")
            browser.value("disk = { ...disk, name: 'other.asm', text: 'RET\\n' }; document.getElementById('upload-elsewhere').click()")
            browser.wait("document.getElementById('file-name').textContent === 'other.asm'")
            assert self.source() == "RET\n"

    def test_an_address_without_its_last_slash(self) -> None:
        """It is the page too."""
        with self.page("LD V0, 5\n") as browser:
            browser.open(self.address.removesuffix("/"))
            browser.wait(SETTLED)
            self.step(1)
            assert self.registers()["V0"] == "05"
            assert browser.value("location.pathname").endswith("/"), browser.value("location.pathname")

    def test_faulty_arguments(self) -> None:
        """Each ends with a sentence that names it, before anything starts."""
        self.path.write_text("LD V0, 5\n")
        wrong = []
        for faulty in (("--port", "99999"), ("--seed", "1x"), ("--rate", "x"), ("--profile", "Foo")):
            words = [sys.executable, "-B", str(self.page_folder / "bridge.py"), "--no-open", *faulty, str(self.path)]
            try:
                run = subprocess.run(words, capture_output=True, text=True, timeout=5 * self.browser.patience)
            except subprocess.TimeoutExpired:
                wrong.append((*faulty, "the page was started"))
                continue
            if (run.returncode, run.stdout) != (2, "") or faulty[1] not in run.stderr or "Traceback" in run.stderr:
                wrong.append((*faulty, run.returncode, run.stderr.strip()))
        assert wrong == [], wrong

    def test_the_file_that_a_browser_is_given(self) -> None:
        """It leads on to the page, from a file of mode 0600."""
        with self.page("LD V0, 5\n") as browser:
            place = self.folder / "open.html"
            place.write_text(f'<!doctype html><meta http-equiv="refresh" content="0; url={self.address}">')
            browser.open(place.as_uri())
            browser.wait(f"location.protocol === 'http:' && {SETTLED}")
            browser.requests.clear()

    def test_garbage_in_the_storage(self) -> None:
        """What the browser kept may be anything: the page comes up, and shows the text that there is."""
        with self.page("CLS\n") as browser:
            self.wait_kept("CLS\n")
            for change, shown in (
                ("for (const name of Object.keys(record)) if (!['key', 'name'].includes(name)) delete record[name]", "CLS\n"),
                ("record.text = 5", "CLS\n"),
                ("Object.assign(record, { text: 'LD V0, 7 ; mine\\n', keys: 5, form: 7, step: 'x', options: [1], history: 5 })", "LD V0, 7 ; mine\n"),
                ("Object.assign(record, { keys: 'nonsense', form: { encoding: 'x' }, step: -5, options: { rate: 'abc', x: 'y' }, history: { text: { done: [5] } } })", "LD V0, 7 ; mine\n"),
                ("Object.assign(record, { options: { rate: '99999' }, step: 1e300 })", "LD V0, 7 ; mine\n"),
            ):
                # what the page itself writes comes before
                time.sleep(0.6)
                known = "record.known = record.isFile ? record.known : null" if self.is_one_file else ""
                self.put_kept(f"{change}; {known}; localStorage['chipbench-page, earlier'] = '[7, {{}}]'; localStorage['chipbench-page, appearance'] = '5'")
                self.reload()
                if self.is_one_file and shown == "CLS\n":
                    # the text stood in the storage alone
                    assert self.source() == "", (change, self.source())
                    continue
                assert self.source() == shown, (change, self.source())
                self.step(1)
                assert self.registers()["pc"] == "0202"

    def test_texts_of_two_windows(self) -> None:
        """What another window keeps of a text isn't lost to what this one keeps."""
        with self.page("CLS\n") as browser:
            self.wait_kept("CLS\n")
            self.put_kept("record.text = 'LD V0, 1 ; theirs\\n'")
            self.step(5)
            time.sleep(0.5)
            assert "theirs" in self.kept()["text"]
            self.put_line(1, "LD V0, 2 ; mine")
            self.wait_kept("LD V0, 2 ; mine\n")
            assert "Another window" in self.text_of("#notices")
            self.put_line(1, "LD V0, 3 ; mine")
            self.wait_kept("LD V0, 3 ; mine\n")
            self.notice_button("Take it back")
            assert browser.value("document.getElementById('source-text').value") == "LD V0, 1 ; theirs\n"
            self.notice_button("Take it back")
            assert browser.value("document.getElementById('source-text').value") == "LD V0, 3 ; mine\n"

    def test_a_bridge_that_is_gone(self) -> None:
        """The program goes on in the page; saving says that nothing answers, and is done once the bridge is there again."""
        with self.page("LD V0, 5\n") as browser:
            assert self.bridge is not None
            self.bridge.send_signal(signal.SIGSTOP)
            browser.offline(True)
            try:
                self.put_line(1, "LD V0, 7")
                self.step(1)
                assert self.registers()["V0"] == "07"
                browser.press("s", "KeyS", CONTROL)
                browser.wait("/It wasn't saved: the bridge doesn't answer/.test(document.getElementById('notices').textContent)")
            finally:
                self.bridge.send_signal(signal.SIGCONT)
                browser.offline(False)
            browser.press("s", "KeyS", CONTROL)
            browser.wait("document.getElementById('file-state').textContent === 'saved'")
            assert self.path.read_text() == "LD V0, 7\n"
            self.browser.console = [line for line in self.browser.console if "ERR_INTERNET_DISCONNECTED" not in line]

    def test_a_file_is_followed(self) -> None:
        """Where nothing is unsaved, what another program saves is here at once, unasked; the cursor stays, and undo brings the text before back."""
        text = "".join(f"L{number}: LD V0, {number}\n" for number in range(40))
        with self.page(text) as browser:
            browser.value("chipbenchPage.editor.goToLine(30)")
            theirs = "; theirs\n" + text.replace("L5: LD V0, 5", "L5: LD V0, 55")
            self.path.write_text(theirs)
            browser.wait(f"chipbenchPage.model.text === {json.dumps(theirs)}")
            assert self.text_of("#file-state") == "saved"
            assert "saved by another program" in self.text_of("#notices")
            assert browser.value("chipbenchPage.editor.line") == 31
            self.check_step(theirs, 6, [])
            browser.press("z", "KeyZ", CONTROL)
            assert browser.value("chipbenchPage.model.text") == text
            # now there is something unsaved: it is asked
            self.path.write_text("CLS\n")
            browser.wait("/changed by another program/.test(document.getElementById('notices').textContent)")
            assert browser.value("chipbenchPage.model.text") == text

    def test_a_name_without_an_end(self) -> None:
        """A file that is saved under such a name is one that Open lists."""
        with self.page("CLS\n", "first.asm") as browser:
            self.save_as("star2")
            browser.wait("document.getElementById('file-name').textContent === 'star2.asm'")
            assert (self.folder / "star2.asm").read_text() == "CLS\n" and not (self.folder / "star2").exists()
            self.open_named("first.asm")

    def test_another_document_is_no_edit(self) -> None:
        """What differs from the one before isn't told as a change, nor coloured on the screen."""
        other = "LD F, V0\nDRW V0, V0, 5\nHERE: JP HERE\n"
        with self.page("LD V0, 9\nHERE: JP HERE\n", "first.asm") as browser:
            (self.folder / "second.asm").write_text(other)
            self.step(3)
            browser.value(WATCH_EFFECTS)
            for name in ("second.asm", "first.asm", "second.asm"):
                self.open_named(name)
                self.step(3)
            assert browser.value("[...effects]") == [""], browser.value("[...effects]")
            # an edit is told
            self.put_line(2, "DRW V1, V1, 4")
            browser.wait("effects.has('a flash') && [...effects].some((effect) => effect.startsWith('the edit changed'))")

    def test_a_byte_order_mark(self) -> None:
        """It isn't seen, so the card of its fault names it, and takes it out."""
        with self.page("\ufeffCLS\nLD V0, 5\n") as browser:
            browser.value("chipbenchPage.editor.goToLine(1)")
            browser.wait("/invisible byte order mark/.test(document.getElementById('fault-help').textContent)")
            browser.wait("document.querySelector('#fault-help button')?.firstChild.textContent === 'Remove the byte order mark'")
            browser.value("document.querySelector('#fault-help button').click()")
            assert browser.value("chipbenchPage.model.text") == "CLS\nLD V0, 5\n"
            self.check_step("CLS\nLD V0, 5\n", 2, [])

