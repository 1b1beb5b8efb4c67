"""What each test of the page needs: a page on a file of its own, in a browser, and what the program itself says."""

from __future__ import annotations

import contextlib
import json
import subprocess
import sys
import tempfile
import time
import urllib.parse
from collections.abc import Callable, Iterator
from pathlib import Path
from typing import Any

from driver import Browser
from small_png import small

TOP = Path(__file__).resolve().parents[3]
PROVED = TOP / "crates/chipbench/out/chipbench"
EXAMPLES = ("bounce", "guess", "profiles", "scroller")

SETTLED = "globalThis.chipbenchPage?.viewer.machine && document.getElementById('last-step').textContent !== ''"
REGISTERS = """Object.fromEntries([...document.querySelectorAll('#registers dl > div')]
    .map((cell) => [cell.querySelector('dt').textContent, cell.querySelector('dd').textContent]))"""
# which pixels of the canvas are lit, a text of 32 digits for each row with one; those that an edit has changed have another colour for a while
POINTS = """(() => {
    const canvas = document.getElementById('screen');
    const copy = new OffscreenCanvas(128, 64).getContext('2d', { willReadFrequently: true });
    copy.drawImage(canvas, 0, 0);
    const data = new Uint32Array(copy.getImageData(0, 0, 128, 64).data.buffer);
    const lit = ['--screen-lit', '--changed'].map((name) => {
        const colour = getComputedStyle(document.documentElement).getPropertyValue(name).trim();
        const [red, green, blue] = [1, 3, 5].map((place) => parseInt(colour.slice(place, place + 2), 16));
        return new Uint32Array(new Uint8Array([red, green, blue, 255]).buffer)[0];
    });
    const rows = {};
    for (let row = 0; row < 64; row += 1) {
        let digits = '';
        for (let at = 0; at < 128; at += 4) {
            let digit = 0;
            for (let bit = 0; bit < 4; bit += 1) digit = 2 * digit + (lit.includes(data[row * 128 + at + bit]) ? 1 : 0);
            digits += digit.toString(16);
        }
        if (/[^0]/.test(digits)) rows[row] = digits;
    }
    return rows;
})()"""
# resolves when the database of the page is empty, and stays so
EMPTY = """new Promise((done, fail) => {
    const opening = indexedDB.open('chipbench-page');
    opening.onerror = () => fail(opening.error);
    opening.onsuccess = () => {
        IDBObjectStore.prototype.put = () => {};
        const names = [...opening.result.objectStoreNames];
        const clearing = opening.result.transaction(names, 'readwrite');
        for (const name of names) clearing.objectStore(name).clear();
        clearing.oncomplete = () => { opening.result.close(); done(); };
    };
})"""
# what the database of the page has of a document: `%s` is a condition on `record`
KEPT = """new Promise((done, fail) => {
    const opening = indexedDB.open('chipbench-page');
    opening.onerror = () => fail(opening.error);
    opening.onsuccess = () => {
        const reading = opening.result.transaction('documents').objectStore('documents').getAll();
        reading.onsuccess = () => { opening.result.close(); done(reading.result.find((record) => %s) ?? null); };
    };
})"""
# resolves when the page has shown the answer to all that was changed
REST = """new Promise((done) => {
    const { viewer } = chipbenchPage;
    viewer.addEventListener('settled', () => requestAnimationFrame(() => requestAnimationFrame(done)), { once: true });
    viewer.refresh();
})"""


def rows_of(screen: str) -> dict[str, str]:
    return {str(int(line[:2])): line[3:] for line in screen.splitlines()[1:-1]}


class PageTests:
    """What each test needs: a page on a file of its own, and what the program itself says."""

    def __init__(self, browser: Browser, program: str, page: Path, pictures: Path | None) -> None:
        """`page` is the folder of the page, or the page in one file, which is then opened from disk."""
        self.program = program
        self.page_folder = page
        self.is_one_file = page.is_file()
        self.pictures = pictures
        self.browser = browser
        self.folder = Path(tempfile.mkdtemp(prefix="chipbench-page-test-"))
        self.bridge: subprocess.Popen[str] | None = None
        self.path = self.folder / "none.asm"
        self.address = ""
        #: Where the pages of this run were: they ask of nowhere else.
        self.origins: set[str] = set()
        self.starts_before = 0

    @contextlib.contextmanager
    def page(self, text: str | bytes, name: str = "game.asm", words: tuple[str, ...] = ()) -> Iterator[Browser]:
        """The page on a new file with this text, or on an image with these bytes, in a browser that keeps nothing of it yet."""
        self.path = self.folder / name
        self.path.write_bytes(text.encode() if isinstance(text, str) else text)
        with self.page_on([str(self.path)] if isinstance(text, str) else ["--image", str(self.path)], words) as browser:
            yield browser

    def page_of_nothing(self) -> contextlib.AbstractContextManager[Browser]:
        """The page on a source that isn't there yet."""
        return self.page_on([str(self.folder / "nothing.asm")], ())

    @contextlib.contextmanager
    def page_on(self, opened: list[str], words: tuple[str, ...]) -> Iterator[Browser]:
        with self.one_file_on(opened, words) if self.is_one_file else self.bridge_on(opened, words) as browser:
            yield browser
            for line in browser.console:
                raise AssertionError(f"the page complained: {line}")
            for request in browser.requests:
                parts = urllib.parse.urlsplit(request)
                assert parts.netloc in self.origins or parts.scheme in ("about", "blob", "data"), f"a request to {request}"

    def begin(self, address: str) -> None:
        """Opens the page, as each test finds it."""
        self.address = address
        # a worker of the page before may be told of late
        self.origins.add(address.split("/")[2])
        self.browser.console.clear()
        self.browser.requests.clear()
        self.browser.size(1600, 1000)
        self.browser.theme("light")
        self.browser.open(address)
        self.browser.wait(SETTLED)

    @contextlib.contextmanager
    def one_file_on(self, opened: list[str], words: tuple[str, ...]) -> Iterator[Browser]:
        """The page in one file on what the author opens in it, in a browser that keeps nothing of it yet."""
        clear = "localStorage.clear(); sessionStorage.clear();"
        try:
            self.begin(self.page_folder.resolve().as_uri())
            # what is kept goes, and nothing is kept from then on
            self.browser.value(EMPTY)
            self.browser.value(f"{clear} addEventListener('pagehide', () => {{ {clear} }})")
            self.browser.open("about:blank")
            self.begin(self.address)
            place = Path(opened[-1])
            if place.exists():
                self.upload(place)
                self.browser.wait(f"document.getElementById('file-name').textContent === {json.dumps(place.name)}")
            if words:
                options = {"rate": "10", **{name.removeprefix("--"): value for name, value in zip(words[::2], words[1::2])}}
                self.browser.value(f"chipbenchPage.model.setOptions({json.dumps(options)})")
            self.rest()
            self.starts_before = self.browser.value("chipbenchPage.workbench.starts") - 1
            yield self.browser
        finally:
            self.browser.open("about:blank")

    @contextlib.contextmanager
    def bridge_on(self, opened: list[str], words: tuple[str, ...]) -> Iterator[Browser]:
        self.bridge = subprocess.Popen(
            [sys.executable, "-B", str(self.page_folder / "bridge.py"), "--no-open", "--port", "0", *words, *opened],
            stdout=subprocess.PIPE,
            stderr=subprocess.DEVNULL,
            text=True,
        )
        assert self.bridge.stdout is not None
        try:
            self.begin(self.bridge.stdout.readline().split()[1])
            yield self.browser
        finally:
            self.browser.open("about:blank")
            self.bridge.terminate()
            self.bridge.wait(5.0 * self.browser.patience)

    def example(self, name: str) -> str:
        return (TOP / f"examples/{name}.asm").read_text()

    def said(self, text: str, commands: list[str], words: tuple[str, ...] = ()) -> str:
        """What the program itself answers."""
        place = self.folder / "said.asm"
        place.write_text(text)
        script = "".join(f"{command}\n" for command in commands)
        run = subprocess.run([self.program, "debug", *words, str(place)], input=script, capture_output=True, text=True, check=True)
        return run.stdout

    def step(self, step: int) -> None:
        self.browser.value(f"chipbenchPage.model.setStep({step}); {REST}")

    def tab(self, name: str) -> None:
        """Shows one of the panels, or the source where that is behind a tab."""
        self.browser.value(f"chipbenchPage.appearance.showTab({json.dumps(name)})")

    def press_button(self, selector: str) -> None:
        """Presses a button, wherever it is: in a menu that is closed, or behind a tab."""
        self.browser.value(f"document.querySelector({json.dumps(selector)}).click()")

    def request(self, name: str, body: dict[str, object]) -> dict[str, Any]:
        """What a request of the page is answered, whatever carries it."""
        return json.loads(self.browser.value(f"{self.module('bridge.mjs')}.then(({{ request }}) => request('{name}', {json.dumps(body)})).then(JSON.stringify)"))

    def module(self, name: str) -> str:
        """An expression for one of the page's modules, which comes later."""
        return f"Promise.resolve(chipbenchModules['{name}'])" if self.is_one_file else f"import(new URL('{name}', document.baseURI))"

    def starts(self) -> int:
        """How often the program was started since the page was opened; by the page in one file also on what it was opened on."""
        return self.browser.value("chipbenchPage.workbench.starts") - self.starts_before

    def kept(self, name: str = "game.asm") -> Any:
        """What the browser keeps of the document of that name, or none."""
        return self.browser.value(KEPT % f"record.name === {json.dumps(name)}")

    def wait_kept(self, text: str, name: str = "game.asm") -> None:
        """Waits until the browser keeps that text."""
        wait_for(lambda: (self.kept(name) or {}).get("text") == text, f"{name} is kept with that text")

    def put_kept(self, change: str, name: str = "game.asm") -> None:
        """Changes what the browser keeps of a document, as another window would: `change` is a statement about `record`."""
        self.browser.value(
            "new Promise((done) => { const opening = indexedDB.open('chipbench-page'); opening.onsuccess = () => {"
            "const writing = opening.result.transaction('documents', 'readwrite'); const store = writing.objectStore('documents');"
            f"store.getAll().onsuccess = ({{ target }}) => {{ const record = target.result.find((one) => one.name === {json.dumps(name)});"
            f"record.stamp = `of a test ${{Math.random()}}`; {change}; store.put(record); }};"
            "writing.oncomplete = () => { opening.result.close(); done(); }; }; })"
        )

    def rest(self) -> None:
        self.browser.value(REST)

    def reload(self) -> None:
        self.browser.reload()
        self.browser.wait(SETTLED)

    def registers(self) -> dict[str, str]:
        return self.browser.value(REGISTERS)

    def text_of(self, selector: str) -> str:
        return self.browser.value(f"document.querySelector({json.dumps(selector)}).textContent")

    def check_step(self, text: str, step: int, events: list[str], words: tuple[str, ...] = ()) -> None:
        """What is shown at a step is what the program says of it."""
        self.step(step)
        said = self.said(text, [*events, f"regs {step}", f"screen {step}"], words).splitlines(keepends=True)[len(events) :]
        first, second = said[0].split(), said[1].split()
        shown = self.registers()
        assert [shown[f"V{number:X}"] for number in range(16)] == first[1:], (shown, first)
        size = {"64 × 32": "low", "128 × 64": "high"}[self.text_of("#screen-size")]
        assert [shown["pc"], shown["I"], shown["DT"], shown["ST"], shown["rnd"], size, shown["state"]] == [
            *second[1:10:2],
            second[10],
            second[11],
        ], (shown, second)
        assert self.browser.value(POINTS) == rows_of("".join(said[3:])), step

    def put_line(self, line: int, text: str) -> None:
        """Types a text in place of a line."""
        self.browser.value(
            f"chipbenchPage.editor.goToLine({line});"
            "{ const area = document.getElementById('source-text');"
            "const end = area.value.indexOf('\\n', area.selectionStart);"
            "area.setSelectionRange(area.selectionStart, end < 0 ? area.value.length : end); }"
        )
        self.browser.type(text)

    def picture(self, name: str) -> None:
        if self.pictures is not None:
            self.browser.picture(self.pictures / f"{name}-{self.browser.name}.png")

    def notice_button(self, text: str) -> None:
        self.browser.value(f"[...document.querySelectorAll('.notice button')].find((button) => button.textContent === {json.dumps(text)}).click()")

    def open_named(self, name: str) -> None:
        """Opens a file of the folder in the dialog, or without a bridge as one from elsewhere."""
        if self.is_one_file:
            self.upload(self.folder / name)
            self.browser.wait(f"document.getElementById('file-name').textContent === {json.dumps(name)}")
            return
        self.browser.click("#upload")
        self.browser.wait(f"[...document.querySelectorAll('#open-files button')].some((button) => button.firstChild.textContent === {json.dumps(name)})")
        self.browser.value(f"[...document.querySelectorAll('#open-files button')].find((button) => button.firstChild.textContent === {json.dumps(name)}).click()")
        self.browser.wait(f"document.getElementById('file-name').textContent === {json.dumps(name)}")

    def upload(self, path: Path) -> None:
        self.browser.choose("#upload-file", path)

    def make_documents(self, folder: Path) -> None:
        """The pictures of the three examples that stand in the documents."""
        with self.document_page("bounce", "light", folder):
            self.step(1000)
            self.put_line(5, "        LD V2, 255")
            self.rest()
        with self.document_page("guess", "dark", folder, ("--tape", "05")) as browser:
            events = [(62, 6), (150, 6), (330, 0), (420, 0), (610, 5), (700, 5)]
            made = "".join(f".with({step}, {key}, {str(place % 2 == 0).lower()})" for place, (step, key) in enumerate(events))
            browser.value(f"chipbenchPage.appearance.showTab('keys'); chipbenchPage.model.setKeys(chipbenchPage.model.keys{made})")
            self.step(350)
        with self.document_page("scroller", "light", folder):
            self.step(77)

    @contextlib.contextmanager
    def document_page(self, name: str, theme: str, folder: Path, words: tuple[str, ...] = ()) -> Iterator[Browser]:
        with self.page(self.example(name), f"{name}.asm", words) as browser:
            browser.size(1440, 900)
            browser.theme(theme)
            yield browser
            browser.value("document.activeElement.blur()")
            # the time that is shown is that of a question, and not of the program's start
            self.rest()
            time.sleep(0.5)
            place = folder / f"page-{name}.png"
            browser.picture(place)
            place.write_bytes(small(place.read_bytes()))
            print(f"{place}: {place.stat().st_size} bytes")


def wait_for(condition: Callable[[], bool], name: str) -> None:
    deadline = time.monotonic() + 10 * Browser.patience
    while not condition():
        if time.monotonic() > deadline:
            raise TimeoutError(name)
        time.sleep(0.05)
