"""What the browser keeps: nothing is lost, documents stay apart, and what there is can be listed and deleted."""

from __future__ import annotations

import functools
import http.server
import json
import threading
import time

from browser_page import KEPT, PageTests, wait_for
from driver import CONTROL

FULL = "globalThis.putBefore = IDBObjectStore.prototype.put; IDBObjectStore.prototype.put = function () { this.transaction.abort(); };"
UNREAD = """globalThis.getBefore = IDBObjectStore.prototype.get; IDBObjectStore.prototype.get = function (key) {
    if (this.transaction.mode === 'readonly') this.transaction.abort();
    return getBefore.call(this, key);
};"""


class QuietHandler(http.server.SimpleHTTPRequestHandler):
    """Serves files, and tells of none."""

    def log_message(self, format: str, *args: object) -> None:
        pass


class KeptTests(PageTests):
    def rows(self) -> list[str]:
        """The names in the list of documents."""
        self.press_button("#show-documents")
        self.browser.wait("document.getElementById('documents').open")
        return self.browser.value("[...document.querySelectorAll('#document-rows strong')].map((one) => one.textContent)")

    def in_row(self, name: str, label: str) -> None:
        self.browser.value(f"document.querySelector('#document-rows [aria-label={json.dumps(f'{label}: {name}')}]').click()")

    def test_documents_are_listed_named_and_deleted(self) -> None:
        with self.page("CLS\n", "first.asm") as browser:
            elsewhere = self.folder / "elsewhere"
            elsewhere.mkdir(exist_ok=True)
            for name in ("second.asm", "third.asm"):
                (elsewhere / name).write_text(f"LD V0, {len(name)} ; {name}\n")
                self.upload(elsewhere / name)
                browser.wait(f"document.getElementById('file-name').textContent === {json.dumps(name)}")
                self.wait_kept(f"LD V0, {len(name)} ; {name}\n", name)
            assert sorted(self.rows()) == ["first.asm", "second.asm", "third.asm"]
            assert "KB" in self.text_of("#document-rows"), self.text_of("#document-rows")
            self.in_row("second.asm", "Rename")
            browser.value("{ const field = document.querySelector('#document-rows input'); field.value = 'named.asm'; field.dispatchEvent(new Event('change')); }")
            browser.wait("[...document.querySelectorAll('#document-rows strong')].some((one) => one.textContent === 'named.asm')")
            self.in_row("named.asm", "Open")
            browser.wait("document.getElementById('file-name').textContent === 'named.asm'")
            assert browser.value("chipbenchPage.model.text") == "LD V0, 10 ; second.asm\n"
            self.rows()
            self.in_row("third.asm", "Delete")
            browser.wait("![...document.querySelectorAll('#document-rows strong')].some((one) => one.textContent === 'third.asm')")
            assert self.kept("third.asm") is None

    def test_a_full_store_is_told(self) -> None:
        """At once, beside the name too; and what was kept stays as it was, text and undo."""
        with self.page("CLS\n") as browser:
            self.put_line(1, "LD V0, 1")
            self.wait_kept("LD V0, 1\n")
            before = self.kept()
            browser.value(FULL)
            self.put_line(1, "LD V0, 2")
            browser.wait("/no room/.test(document.getElementById('file-state').textContent)")
            assert "no room left" in self.text_of("#notices"), self.text_of("#notices")
            after = self.kept()
            assert (after["text"], after["history"]) == (before["text"], before["history"])
            # closing the window asks
            assert browser.value("!dispatchEvent(new Event('beforeunload', { cancelable: true }))")
            # where there is room again, it is kept
            browser.value("IDBObjectStore.prototype.put = putBefore")
            self.put_line(1, "LD V0, 3")
            self.wait_kept("LD V0, 3\n")
            browser.wait("!/no room/.test(document.getElementById('file-state').textContent)")
            assert browser.value("dispatchEvent(new Event('beforeunload', { cancelable: true }))")

    def test_a_document_that_cannot_be_read(self) -> None:
        """What is kept of it stays as it is, what is typed is another document, and later it is read with its keys and its undo."""
        with self.page("CLS\n", "first.asm") as browser:
            (self.folder / "second.asm").write_text("RET\n")
            self.put_line(1, "LD V0, 1 ; mine")
            browser.value("chipbenchPage.model.setKeys(chipbenchPage.model.keys.with(3, 5, true))")
            self.wait_kept("LD V0, 1 ; mine\n", "first.asm")
            self.open_named("second.asm")
            before = self.kept("first.asm")
            browser.value(UNREAD)
            self.open_named("first.asm")
            browser.wait("/first.asm can't be read/.test(document.getElementById('notices').textContent)")
            self.put_line(1, "LD V0, 2 ; typed")
            typed = "record.text.includes('; typed')"
            wait_for(lambda: self.browser.value(KEPT % typed) is not None, "what is typed is kept")
            assert self.browser.value(KEPT % f"record.key === {json.dumps(before['key'])}")["stamp"] == before["stamp"]
            browser.value("IDBObjectStore.prototype.get = getBefore")
            self.notice_button("Read it again")
            browser.wait("chipbenchPage.model.text === 'LD V0, 1 ; mine\\n'")
            assert browser.value("chipbenchPage.model.keys.size") == 1
            while browser.value("chipbenchPage.model.textHistory.canUndo"):
                browser.value("chipbenchPage.editor.undo()")
            assert browser.value("chipbenchPage.model.text") == "CLS\n"

    def test_text_and_undo_are_one(self) -> None:
        """What can be undone after a reload is what led to the text that is there."""
        with self.page("CLS\n") as browser:
            for number in range(1, 4):
                browser.value("chipbenchPage.editor.goToLine(1)")
                browser.value(f"chipbenchPage.editor.type('; {number}\\n')")
            wanted = browser.value("chipbenchPage.model.text")
            self.reload()
            assert browser.value("chipbenchPage.model.text") == wanted
            for number in (2, 1, 0):
                browser.value("chipbenchPage.editor.undo()")
                assert browser.value("chipbenchPage.model.text") == "".join(f"; {left}\n" for left in range(number, 0, -1)) + "CLS\n"

    def test_what_was_typed_last_is_kept(self) -> None:
        """Also where the window is closed before it was written."""
        with self.page("CLS\n") as browser:
            self.put_line(1, "LD V0, 9 ; the last")
            self.reload()
            assert browser.value("chipbenchPage.model.text") == "LD V0, 9 ; the last\n"

    def test_two_files_of_one_name(self) -> None:
        """They are two documents: neither settings, keys nor texts of one come to the other."""
        with self.page("CLS\n", "first.asm") as browser:
            for number in (1, 2):
                folder = self.folder / f"folder{number}"
                folder.mkdir(exist_ok=True)
                (folder / "game.asm").write_text(f"LD V0, {number}\n")
            self.upload(self.folder / "folder1/game.asm")
            browser.wait("chipbenchPage.model.text === 'LD V0, 1\\n'")
            browser.value("chipbenchPage.model.setOptions({ rate: '20', profile: 'vip' }); chipbenchPage.model.setKeys(chipbenchPage.model.keys.with(3, 5, true))")
            self.put_line(1, "LD V0, 11 ; mine")
            self.upload(self.folder / "folder2/game.asm")
            browser.wait("chipbenchPage.model.text === 'LD V0, 2\\n'")
            assert browser.value("[chipbenchPage.model.options.profile ?? 'schip', chipbenchPage.model.options.rate, chipbenchPage.model.keys.size]") == ["schip", "10", 0]
            # what was put aside comes back into its own document, and not into this one
            self.notice_button("Take it back")
            browser.wait("chipbenchPage.model.text === 'LD V0, 11 ; mine\\n'")
            assert browser.value("[chipbenchPage.model.options.profile, chipbenchPage.model.keys.size]") == ["vip", 1]
            # one that is opened again has what it had
            self.upload(self.folder / "folder2/game.asm")
            browser.wait("chipbenchPage.model.text === 'LD V0, 2\\n'")
            self.upload(self.folder / "folder1/game.asm")
            browser.wait("chipbenchPage.model.options.profile === 'vip'")

    def test_a_text_of_another_folder_is_not_written_here(self) -> None:
        """A text that belongs to a file of another folder doesn't become that of the file of the same name in this one."""
        with self.page("CLS\n") as browser:
            self.wait_kept("CLS\n")
            browser.value(
                "new Promise((done) => { const opening = indexedDB.open('chipbench-page'); opening.onsuccess = () => { const writing = opening.result.transaction('earlier', 'readwrite');"
                "writing.objectStore('earlier').put({ id: 'x', time: Date.now(), text: 'RET ; another folder\\n', key: '/another/folder/game.asm', name: 'game.asm', isFile: true, why: 'of a test' });"
                "writing.oncomplete = () => { opening.result.close(); done(); }; }; })"
            )
            self.reload()
            self.press_button("#show-earlier")
            browser.value("document.querySelector('#earlier-texts button').click()")
            browser.wait("chipbenchPage.model.text === 'RET ; another folder\\n'")
            browser.press("s", "KeyS", CONTROL)
            time.sleep(0.4)
            assert self.path.read_text() == "CLS\n"
            browser.wait("document.getElementById('save-as').open")
            browser.press("Escape")

    def test_what_stood_in_the_small_storage_is_taken_over(self) -> None:
        """Once: texts, keys, settings, what can be undone, and earlier texts."""
        with self.page("CLS\n") as browser:
            self.wait_kept("CLS\n")
            old = {"text": "LD V0, 5 ; old\n", "form": {"encoding": "utf-8", "lineEnd": "\n"}, "keys": "3 5 down\n", "options": {"rate": "20"}, "step": 7}
            undone = {"at": 8, "removed": "", "inserted": " ; old", "selectionBefore": [8, 8], "selectionAfter": [14, 14]}
            history = {"text": {"done": [undone], "undone": []}, "keys": {"done": [], "undone": []}}
            earlier = [{"text": "RET ; earlier\n", "slot": "elsewhere old.asm", "name": "old.asm", "isFile": False, "time": 5, "why": "of a test"}]
            browser.value(
                f"addEventListener('pagehide', () => {{ localStorage['chipbench-page elsewhere old.asm'] = {json.dumps(json.dumps(old))};"
                f"localStorage['chipbench-page elsewhere old.asm, history'] = {json.dumps(json.dumps(history))};"
                f"localStorage['chipbench-page, earlier'] = {json.dumps(json.dumps(earlier))}; }})"
            )
            self.reload()
            assert browser.value("Object.keys(localStorage).filter((name) => /old.asm|earlier/.test(name))") == []
            assert "old.asm" in self.rows()
            self.in_row("old.asm", "Open")
            browser.wait("chipbenchPage.model.text === 'LD V0, 5 ; old\\n'")
            assert browser.value("[chipbenchPage.model.keys.size, chipbenchPage.model.options.rate, chipbenchPage.model.step]") == [1, "20", 7]
            browser.value("chipbenchPage.editor.undo()")
            assert browser.value("chipbenchPage.model.text") == "LD V0, 5\n"
            self.press_button("#show-earlier")
            assert "RET ; earlier" in self.text_of("#earlier-texts"), self.text_of("#earlier-texts")

    def test_a_file_that_is_deleted(self) -> None:
        """It isn't saved any more, and Save writes it again."""
        with self.page("CLS\n") as browser:
            assert self.text_of("#file-state") == "saved"
            self.path.unlink()
            browser.value("dispatchEvent(new Event('focus'))")
            browser.wait("/the file is gone/.test(document.getElementById('file-state').textContent)")
            browser.press("s", "KeyS", CONTROL)
            browser.wait("document.getElementById('file-state').textContent === 'saved'")
            assert self.path.read_text() == "CLS\n"

    def test_windows_of_one_document_know_of_each_other(self) -> None:
        with self.page("CLS\n") as browser:
            self.wait_kept("CLS\n")
            key = browser.value("chipbenchPage.documents.key")
            browser.value(
                "globalThis.heard = []; globalThis.other = new BroadcastChannel('chipbench-page'); other.onmessage = ({ data }) => heard.push(data);"
                f"other.postMessage({{ kind: 'opened', key: {json.dumps(key)} }})"
            )
            browser.wait("/Another window has this document open/.test(document.getElementById('notices').textContent)")
            assert browser.value("heard")[0] == {"kind": "here", "key": key}
            self.put_kept("record.text = 'RET ; theirs\\n'")
            browser.value(f"other.postMessage({{ kind: 'kept', key: {json.dumps(key)} }})")
            browser.wait("/Another window has changed this text/.test(document.getElementById('notices').textContent)")
            self.notice_button("Take its text")
            assert browser.value("chipbenchPage.model.text") == "RET ; theirs\n"

    def test_notices_go_with_their_document(self) -> None:
        with self.page("CLS\n", "first.asm") as browser:
            (self.folder / "second.asm").write_text("RET\n")
            large = self.folder / "large.ch8"
            large.write_bytes(bytes(3585))
            self.upload(large)
            browser.wait("/over 3584 bytes/.test(document.getElementById('notices').textContent)")
            self.open_named("second.asm")
            assert "3584" not in self.text_of("#notices"), self.text_of("#notices")

    def test_a_file_handle_is_kept(self) -> None:
        """A file that the browser's own file access gave is saved in its place after a reload too, unasked. The page is served here, since
        a page from disk has no private files."""
        if self.browser.name != "chromium":
            print("    nothing is tried: this browser has no file access")
            return
        handler = functools.partial(QuietHandler, directory=str(self.page_folder.parent))
        server = http.server.ThreadingHTTPServer(("127.0.0.1", 0), handler)
        threading.Thread(target=server.serve_forever, daemon=True).start()
        browser = self.browser
        try:
            self.begin(f"http://127.0.0.1:{server.server_port}/{self.page_folder.name}")
            browser.value("(async () => { globalThis.handle = await (await navigator.storage.getDirectory()).getFileHandle('kept.asm', { create: true }); })()")
            browser.value("chipbenchPage.documents.openText('game.asm', 'CLS\\n')")
            browser.value("globalThis.showSaveFilePicker = async () => handle; void chipbenchPage.documents.saveAs()")
            browser.wait("document.getElementById('file-state').textContent === 'saved'")
            self.reload()
            assert (self.text_of("#file-name"), self.text_of("#file-state")) == ("kept.asm", "saved")
            self.put_line(1, "RET")
            browser.wait("document.getElementById('file-state').textContent !== 'saved'")
            browser.press("s", "KeyS", CONTROL)
            browser.wait("document.getElementById('file-state').textContent === 'saved'")
            text = "(async () => (await (await (await (await navigator.storage.getDirectory()).getFileHandle('kept.asm')).getFile()).text()))()"
            wait_for(lambda: browser.value(text) == "RET\n", "the file is saved in its place")
        finally:
            browser.open("about:blank")
            server.shutdown()
            server.server_close()
