"""The bridge: its care about who asks, what it serves, and files."""

from __future__ import annotations

import http.client
import json
import os
import re
import resource
import signal
import socket
import stat
import subprocess
import sys
import tempfile
import threading
import time
import unittest
import unittest.mock
from pathlib import Path
from typing import Any

FOLDER = Path(__file__).resolve().parent
TOP = FOLDER.parents[2]
sys.path.insert(0, str(FOLDER.parent))

import bridge  # noqa: E402
import connections  # noqa: E402
import files  # noqa: E402
import served  # noqa: E402

# no answer takes as long on the busiest machine
SECONDS = 1800


class Running(unittest.TestCase):
    """A bridge with a server and a file of its own."""

    text = b"LD V0, 5\nCLS\n"

    def setUp(self) -> None:
        folder = tempfile.TemporaryDirectory()
        self.addCleanup(folder.cleanup)
        self.folder = Path(folder.name)
        self.path = self.folder / "game.asm"
        self.path.write_bytes(self.text)
        self.bridge = bridge.Bridge(files.Files(self.path), {"rate": "7"})
        self.addCleanup(self.bridge.close)
        self.server = bridge.Server(0, self.bridge)
        thread = threading.Thread(target=self.server.serve_forever, kwargs={"poll_interval": 0.01}, daemon=True)
        thread.start()
        self.addCleanup(thread.join)
        self.addCleanup(self.server.server_close)
        self.addCleanup(self.server.shutdown)
        self.host = f"127.0.0.1:{self.server.server_port}"

    def send(self, method: str, name: str, body: bytes | None = None, **headers: str) -> tuple[int, dict[str, str], bytes]:
        connection = http.client.HTTPConnection("127.0.0.1", self.server.server_port, timeout=SECONDS)
        try:
            path = name if name.startswith("/") else f"/{self.server.token}/{name}"
            connection.request(method, path, body, {key.replace("_", "-"): value for key, value in headers.items()})
            reply = connection.getresponse()
            return reply.status, dict(reply.getheaders()), reply.read()
        finally:
            connection.close()

    def ask(self, request: str, /, **body: Any) -> tuple[int, Any]:
        status, _, content = self.send("POST", request, json.dumps(body).encode(), Origin=f"http://{self.host}")
        return status, json.loads(content) if status == 200 else content.decode()

    def good(self, request: str, /, **body: Any) -> Any:
        status, reply = self.ask(request, **body)
        self.assertEqual(status, 200, reply)
        return reply

    def saved(self, text: str, known: str | None, name: str = "game.asm") -> tuple[int, Any]:
        return self.ask("save", name=name, text=text, known=known)

class Care(Running):
    """Only the page reaches the bridge."""

    def test_page_and_its_policy(self) -> None:
        status, headers, content = self.send("GET", "")
        self.assertEqual(status, 200)
        self.assertIn(b"<title>chipbench</title>", content)
        policy = headers["Content-Security-Policy"]
        self.assertIn("default-src 'none'", policy)
        # compiling WebAssembly is allowed, and no text becomes a script
        policy = policy.replace("'wasm-unsafe-eval'", "")
        for word in ("unsafe", "http:", "https:", "*", "data:"):
            self.assertNotIn(word, policy)
        self.assertEqual(headers["X-Content-Type-Options"], "nosniff")
        self.assertEqual(headers["Cache-Control"], "no-store")
        self.assertEqual(headers["Referrer-Policy"], "no-referrer")
        self.assertNotIn("Access-Control-Allow-Origin", headers)

    def test_files_have_their_kinds(self) -> None:
        for name, kind in (("main.mjs", "text/javascript"), ("style.css", "text/css"), ("icon.svg", "image/svg+xml")):
            status, headers, _ = self.send("GET", name)
            self.assertEqual(status, 200)
            self.assertTrue(headers["Content-Type"].startswith(kind))

    def test_no_other_files(self) -> None:
        for name in ("../bridge.py", "bridge.py", "..%2fbridge.py", "static/main.mjs", "main.mjs/", "/etc/passwd"):
            self.assertIn(self.send("GET", name)[0], (403, 404), name)

    def test_wrong_token(self) -> None:
        for path in ("/", "/main.mjs", "/x/main.mjs", f"/{self.server.token[:-1]}/", f"/{self.server.token}x/", "/%00/", "/%C3%A9/", "//"):
            self.assertEqual(self.send("GET", path)[0], 403, path)
        self.assertEqual(self.send("POST", "/x/about", b"{}", Origin=f"http://{self.host}")[0], 403)

    def test_wrong_host(self) -> None:
        for host in ("example.org", "127.0.0.1", f"127.0.0.1.example.org:{self.server.server_port}", f"[::1]:{self.server.server_port}"):
            self.assertEqual(self.send("GET", "", Host=host)[0], 403, host)
            self.assertEqual(self.send("POST", "about", b"{}", Host=host, Origin=f"http://{self.host}")[0], 403, host)

    def test_wrong_or_missing_origin(self) -> None:
        for origin in ("http://example.org", "null", f"https://{self.host}", f"http://{self.host}.example.org", "http://127.0.0.1"):
            self.assertEqual(self.send("POST", "about", b"{}", Origin=origin)[0], 403, origin)
        self.assertEqual(self.send("POST", "about", b"{}")[0], 403)

    def test_another_site(self) -> None:
        for site in ("cross-site", "same-site"):
            self.assertEqual(self.send("GET", "", Sec_Fetch_Site=site)[0], 403)

    def test_the_page_is_opened_from_a_file(self) -> None:
        """A browser that comes from a file comes from another site; only the page itself may be opened so."""
        came = {"Sec_Fetch_Site": "cross-site", "Sec_Fetch_Mode": "navigate", "Sec_Fetch_Dest": "document"}
        self.assertEqual(self.send("GET", "", **came)[0], 200)
        self.assertEqual(self.send("GET", "main.mjs", **came)[0], 403)
        self.assertEqual(self.send("GET", "", **{**came, "Sec_Fetch_Dest": "iframe"})[0], 403)
        self.assertEqual(self.send("GET", "/x/", **came)[0], 403)

    def test_address_without_its_last_slash(self) -> None:
        status, headers, _ = self.send("GET", f"/{self.server.token}")
        self.assertEqual((status, headers.get("Location")), (307, f"/{self.server.token}/"))
        self.assertEqual(self.send("GET", f"/{self.server.token[:-1]}")[0], 403)

    def test_only_loopback(self) -> None:
        self.assertEqual(self.server.server_address[0], "127.0.0.1")

    def test_length_of_requests(self) -> None:
        origin = f"http://{self.host}"
        self.assertEqual(self.send("POST", "about", None, Origin=origin, Content_Length="99999999")[0], 413)
        self.assertEqual(self.send("POST", "about", None, Origin=origin, Content_Length="-1")[0], 411)
        self.assertEqual(self.send("POST", "about", None, Origin=origin, Content_Length="x")[0], 411)
        self.assertEqual(self.send("POST", "about", b"2\r\n{}\r\n0\r\n\r\n", Origin=origin, Transfer_Encoding="chunked", Content_Length="2")[0], 411)

    def test_bodies_that_are_no_object(self) -> None:
        origin = f"http://{self.host}"
        for body in (b"", b"[]", b"1", b"{", b"\xff", b"[" * 100_000):
            self.assertEqual(self.send("POST", "about", body, Origin=origin)[0], 400, body[:10])

    def test_unknown_requests(self) -> None:
        for name in ("close", "_close", "__init__", "", "about/x"):
            self.assertEqual(self.ask(name)[0], 404, name)
        self.assertEqual(self.send("PUT", "about", b"{}", Origin=f"http://{self.host}")[0], 501)

    def answer_to(self, request: bytes) -> bytes:
        """All that is answered to some bytes, until the connection is closed."""
        with socket.create_connection(("127.0.0.1", self.server.server_port), timeout=SECONDS) as peer:
            peer.sendall(request)
            return b"".join(iter(lambda: peer.recv(4096), b""))

    def test_errors_of_the_server_have_the_same_headers(self) -> None:
        path = f"/{self.server.token}/".encode()
        requests = {
            501: b"BREW " + path + b" HTTP/1.1\r\n\r\n",
            400: b"GET " + path + b" one more HTTP/1.1\r\n\r\n",
            505: b"GET " + path + b" HTTP/9.9\r\n\r\n",
            414: b"GET /" + b"x" * 70_000 + b" HTTP/1.1\r\n\r\n",
            431: b"GET " + path + b" HTTP/1.1\r\n" + b"A: b\r\n" * 200 + b"\r\n",
        }
        for status, request in requests.items():
            head, _, body = self.answer_to(request).partition(b"\r\n\r\n")
            first, *lines = head.split(b"\r\n")
            self.assertIn(str(status).encode(), first)
            for name, value in bridge.HEADERS.items():
                self.assertIn(f"{name}: {value}".encode(), lines, status)
            self.assertIn(b"Content-Type: text/plain; charset=utf-8", lines)
            self.assertNotIn(b"<", body)

    def test_an_error_about_a_head_has_no_body(self) -> None:
        answer = self.answer_to(f"HEAD /{self.server.token}/ HTTP/1.1\r\n\r\n".encode())
        self.assertTrue(answer.startswith(b"HTTP/1.1 501 ") and answer.endswith(b"\r\n\r\n"), answer)



class ManyConnections(Running):
    """Connections that are idle or slow shut nobody out, and neither do threads that can't start."""

    def connect(self, sent: bytes = b"") -> socket.socket:
        peer = socket.create_connection(("127.0.0.1", self.server.server_port), timeout=SECONDS)
        self.addCleanup(peer.close)
        peer.sendall(sent)
        return peer

    def test_a_hundred_idle_and_slow_ones(self) -> None:
        """The page is answered at once, whatever a hundred others wait for."""
        for number in range(100):
            self.connect([b"", b"G", b"GET / HTTP/1.1\r\nHost: x\r\n"][number % 3])
        began = time.monotonic()
        self.assertEqual(self.good("about")["name"], "game.asm")
        # the idle ones end later
        self.assertLess(time.monotonic() - began, bridge.IDLE_SECONDS / 2)

    def test_strangers_make_room_first(self) -> None:
        """A connection of the page that waits stays, as long as there is one that never showed the token."""
        page = http.client.HTTPConnection("127.0.0.1", self.server.server_port, timeout=SECONDS)
        self.addCleanup(page.close)
        page.request("GET", f"/{self.server.token}/icon.svg")
        page.getresponse().read()
        own = page.sock
        for _ in range(connections.MAX_CONNECTIONS + 10):
            self.connect()
        self.assertEqual(self.good("about")["name"], "game.asm")
        page.request("GET", f"/{self.server.token}/icon.svg")
        self.assertEqual(page.getresponse().status, 200)
        self.assertIs(page.sock, own)

    def test_one_that_is_answered_stays(self) -> None:
        here, there = socket.socketpair()
        self.addCleanup(here.close)
        self.addCleanup(there.close)
        open_now = connections.Connections(1)
        self.assertTrue(open_now.admit(here))
        open_now.is_answered(here)
        self.assertFalse(open_now.admit(there))
        open_now.waits(here)
        self.assertTrue(open_now.admit(there))

    def test_threads_that_cannot_start(self) -> None:
        """Each gives its place back."""
        with unittest.mock.patch("threading.Thread.start", side_effect=RuntimeError("can't start new thread")):
            for _ in range(connections.MAX_CONNECTIONS + 5):
                peer = self.connect()
                self.assertEqual(peer.recv(1), b"")
        self.assertEqual(len(self.server.connections._open), 0)
        self.assertEqual(self.good("about")["name"], "game.asm")


class About(Running):
    """What the page was opened on, and what is served to it."""

    def test_about(self) -> None:
        about = self.good("about")
        self.assertEqual((about["name"], about["text"], about["isImage"]), ("game.asm", "LD V0, 5\nCLS\n", False))
        self.assertEqual((about["settings"], about["folder"]), ({"rate": "7"}, str(self.folder)))

    def test_texts(self) -> None:
        """Examples, documents and the licences are served as they are in the repository."""
        for name, path in (("bounce.asm", "examples/bounce.asm"), ("LANGUAGE.md", "docs/LANGUAGE.md"), ("THIRD-PARTY", "THIRD-PARTY")):
            status, headers, content = self.send("GET", name)
            self.assertEqual((status, headers["Content-Type"]), (200, "text/plain; charset=utf-8"), name)
            self.assertEqual(content, (TOP / path).read_bytes(), name)

    def test_the_page_of_a_game(self) -> None:
        status, _, content = self.send("GET", "game.html")
        self.assertEqual(status, 200)
        self.assertEqual(re.findall(b"@[A-Z]+@", content), [b"@TITLE@", b"@TITLE@", b"@SETTINGS@", b"@GAME@", b"@MODULE@"])

    def test_what_the_page_imports(self) -> None:
        """Each module that a served one imports is served too, and so are the modules in WebAssembly."""
        for name in ["served.mjs", *served.served_files()]:
            status, headers, content = self.send("GET", name)
            self.assertEqual(status, 200, name)
            if name.endswith(".mjs"):
                for imported in re.findall(rb"(?:from|import) ?\(?'\./([\w.]+)'", content):
                    self.assertEqual(self.send("GET", imported.decode())[0], 200, (name, imported))
            if name.endswith(".wasm"):
                self.assertEqual((headers["Content-Type"], content[:4]), ("application/wasm", b"\0asm"))


class Saving(Running):
    """The file is written only when asked, and never over what another program wrote."""

    def digest(self) -> str:
        return self.good("about")["digest"]

    def test_save(self) -> None:
        self.path.chmod(0o640)
        reply = self.good("save", name="game.asm", text="CLS\r\n\xff", known=self.digest())
        self.assertEqual(reply["saved"], True)
        self.assertEqual(self.path.read_bytes(), b"CLS\r\n\xff")
        self.assertEqual(stat.S_IMODE(self.path.stat().st_mode), 0o640)
        self.assertEqual(reply["digest"], self.digest())
        self.assertEqual(sorted(os.listdir(self.folder)), ["game.asm"])

    def test_a_changed_file_stays(self) -> None:
        known = self.digest()
        self.path.write_bytes(b"OTHER\n")
        reply = self.good("save", name="game.asm", text="MINE\n", known=known)
        self.assertEqual(reply["saved"], False)
        self.assertEqual(self.path.read_bytes(), b"OTHER\n")
        self.assertEqual(self.good("save", name="game.asm", text="MINE\n", known=reply["digest"])["saved"], True)
        self.assertEqual(self.path.read_bytes(), b"MINE\n")

    def test_a_new_file(self) -> None:
        self.path.unlink()
        self.assertIsNone(self.good("about")["text"])
        self.assertEqual(self.good("save", name="game.asm", text="CLS\n", known=None)["saved"], True)
        self.assertEqual(self.path.read_bytes(), b"CLS\n")

    def test_a_link_stays(self) -> None:
        other = self.folder / "other.asm"
        self.path.rename(other)
        self.path.symlink_to(other)
        self.assertEqual(self.good("save", name="game.asm", text="CLS\n", known=self.digest())["saved"], True)
        self.assertTrue(self.path.is_symlink())
        self.assertEqual(other.read_bytes(), b"CLS\n")

    def test_a_file_that_cannot_be_written(self) -> None:
        self.bridge._files.source = self.folder / "none" / "game.asm"
        status, reason = self.saved("CLS\n", None)
        self.assertEqual(status, 500)
        self.assertIn("can't be written", reason)

    def test_a_full_disk(self) -> None:
        """What can't be written whole leaves the file as it was, and nothing beside it."""
        other = self.folder / "other.asm"
        other.hardlink_to(self.path)
        for name in ("game.asm", "other.asm", "new.asm"):
            known = self.good("read", name=name)["digest"]
            limit = resource.getrlimit(resource.RLIMIT_FSIZE)
            before = signal.signal(signal.SIGXFSZ, signal.SIG_IGN)
            resource.setrlimit(resource.RLIMIT_FSIZE, (1000, limit[1]))
            try:
                status, reason = self.saved("; " + "x" * 2000, known, name)
            finally:
                resource.setrlimit(resource.RLIMIT_FSIZE, limit)
                signal.signal(signal.SIGXFSZ, before)
            self.assertEqual(status, 500)
            self.assertIn("can't be written", reason)
        self.assertEqual(self.path.read_bytes(), self.text)
        self.assertEqual(sorted(os.listdir(self.folder)), ["game.asm", "other.asm"])

    def test_hard_links_stay(self) -> None:
        other = self.folder / "other.asm"
        other.hardlink_to(self.path)
        for text in ("CLS\n; and a longer text than before\n", "CLS\n"):
            self.assertEqual(self.saved(text, self.digest())[1]["saved"], True)
            self.assertEqual(other.read_text(), text)
        self.assertEqual(self.path.stat().st_nlink, 2)

    @unittest.skipIf(os.geteuid() != 0, "only the administrator gives files away")
    def test_the_owner_stays(self) -> None:
        os.chown(self.path, 12345, 54321)
        self.path.chmod(0o640)
        self.assertEqual(self.saved("CLS\n", self.digest())[1]["saved"], True)
        status = self.path.stat()
        self.assertEqual((status.st_uid, status.st_gid, stat.S_IMODE(status.st_mode)), (12345, 54321, 0o640))
        self.assertEqual(self.path.read_bytes(), b"CLS\n")
        self.assertEqual(sorted(os.listdir(self.folder)), ["game.asm"])

    def test_a_pipe_is_told(self) -> None:
        """A pipe in place of SOURCE, or of another file, is neither waited for nor written."""
        self.path.unlink()
        os.mkfifo(self.path)
        for name, body in (("about", {}), ("read", {"name": "game.asm"}), ("save", {"name": "game.asm", "text": "CLS\n", "known": None})):
            status, reason = self.ask(name, **body)
            self.assertEqual((status, "is not a file" in reason), (409, True), reason)
        self.assertTrue(stat.S_ISFIFO(self.path.stat().st_mode))

    def test_a_folder_is_told(self) -> None:
        self.path.unlink()
        self.path.mkdir()
        for name, body in (("about", {}), ("save", {"name": "game.asm", "text": "CLS\n", "known": None})):
            status, reason = self.ask(name, **body)
            self.assertEqual((status, "is not a file" in reason), (409, True), reason)

    def test_without_a_file(self) -> None:
        self.bridge._files.source = None
        about = self.good("about")
        self.assertEqual((about["name"], about["text"], about["digest"]), (None, None, None))
        self.assertEqual(self.saved("CLS\n", None, "another.asm")[1]["saved"], True)
        self.assertEqual((self.folder / "another.asm").read_bytes(), b"CLS\n")


class OtherFiles(Running):
    """Files beside SOURCE: listed, read, and saved to by their plain names alone."""

    def test_files_are_listed(self) -> None:
        for name in ("other.asm", "Game.KEYS", "image.ch8", ".hidden.asm", "notes.md"):
            (self.folder / name).write_bytes(b"12345")
        (self.folder / "folder.asm").mkdir()
        reply = self.good("files")
        self.assertEqual([file["name"] for file in reply["files"]], ["game.asm", "Game.KEYS", "image.ch8", "other.asm"])
        self.assertEqual(reply["files"][3]["size"], 5)
        self.assertEqual(reply["folder"], str(self.folder))

    def test_another_file_is_read_and_saved(self) -> None:
        (self.folder / "other.asm").write_bytes(b"CLS\r\n\xff")
        reply = self.good("read", name="other.asm")
        self.assertEqual((reply["text"], reply["path"]), ("CLS\r\n\xff", str((self.folder / "other.asm").resolve())))
        self.assertEqual(self.saved("RET\n", reply["digest"], "other.asm")[1]["saved"], True)
        self.assertEqual((self.folder / "other.asm").read_bytes(), b"RET\n")
        self.assertEqual(self.path.read_bytes(), self.text)

    def test_a_file_that_is_there_is_told_before_it_is_written_over(self) -> None:
        (self.folder / "other.asm").write_bytes(b"THEIRS\n")
        status, reply = self.saved("MINE\n", None, "other.asm")
        self.assertEqual((status, reply["saved"], reply["text"]), (200, False, "THEIRS\n"))
        self.assertEqual((self.folder / "other.asm").read_bytes(), b"THEIRS\n")
        self.assertEqual(self.saved("MINE\n", reply["digest"], "other.asm")[1]["saved"], True)

    def test_names_with_a_way_in_them(self) -> None:
        for name in ("../game.asm", "a/b.asm", "/etc/passwd", ".hidden", "", ".", "..", "a\0b", "a\nb", "x" * 256, 5, None):
            for request in ("read", "save"):
                self.assertEqual(self.ask(request, name=name, text="", known=None)[0], 400, name)

    def test_links_out_of_the_folder(self) -> None:
        """What a link leads to counts, and not where the link is. SOURCE itself may lead anywhere."""
        with tempfile.TemporaryDirectory() as elsewhere:
            outside = Path(elsewhere, "outside.asm")
            outside.write_bytes(b"THEIRS\n")
            (self.folder / "near").mkdir()
            (self.folder / "near" / "far.asm").write_bytes(b"RET\n")
            leads = {
                "out.asm": outside,
                "hop.asm": Path("out.asm"),
                "new.asm": Path(elsewhere, "none.asm"),
                "up.asm": Path("..", Path(elsewhere).name, "outside.asm"),
            }
            for name, target in {**leads, "in.asm": Path("near", "far.asm")}.items():
                (self.folder / name).symlink_to(target)
            for name in leads:
                status, reason = self.ask("read", name=name)
                self.assertEqual((status, reason), (409, f"{name} leads out of the folder: files are read from and saved to one folder\n"))
                self.assertEqual(self.saved("MINE\n", None, name)[0], 409, name)
            self.assertEqual(self.good("read", name="in.asm")["text"], "RET\n")
            self.assertEqual([file["name"] for file in self.good("files")["files"]], ["game.asm", "in.asm"])
            self.assertEqual((os.listdir(elsewhere), outside.read_bytes()), (["outside.asm"], b"THEIRS\n"))
            self.path.unlink()
            self.path.symlink_to(outside)
            self.assertEqual(self.good("about")["text"], "THEIRS\n")

    def test_a_name_that_no_file_can_have(self) -> None:
        """JSON can hold one half of a pair of surrogates, which no bytes of a name stand for. The response says so."""
        for name in ("\ud800", "\udfff", "\udc7f", "\udd00", "game\ud83d.asm", "\udc80\ud800.asm"):
            for request in ("read", "save"):
                status, reason = self.ask(request, name=name, text="CLS\n", known=None)
                self.assertEqual((status, reason.strip()), (400, "a file's name has a character that can't be in one"), ascii(name))
        self.assertEqual(os.listdir(self.folder).count("game.asm"), 1)
        self.assertEqual(len(os.listdir(self.folder)), 1)
        # both halves of a pair are a character, which is a good name
        raw = b'{"name":"\\ud83d\\ude00.asm","text":"CLS\\n","known":null}'
        status, _, content = self.send("POST", "save", raw, Origin=f"http://{self.host}")
        self.assertEqual((status, json.loads(content)["saved"]), (200, True))
        self.assertEqual((self.folder / "\U0001f600.asm").read_bytes(), b"CLS\n")

    def test_a_name_that_is_no_text(self) -> None:
        """Names are bytes: each comes to the page and back as it is."""
        name = os.fsdecode(b"g\xe4me\xff.asm")
        self.path = self.folder / name
        self.path.write_bytes(b"CLS\n")
        self.bridge._files.source = self.path
        about = self.good("about")
        self.assertEqual((about["name"], about["text"]), (name, "CLS\n"))
        self.assertIn(name, [file["name"] for file in self.good("files")["files"]])
        self.assertEqual(self.saved("RET\n", about["digest"], about["name"])[1]["saved"], True)
        self.assertEqual(self.path.read_bytes(), b"RET\n")


class AnImage(Running):
    """The page on an image, in place of SOURCE."""

    def setUp(self) -> None:
        super().setUp()
        self.image = self.folder / "game.ch8"
        self.image.write_bytes(b"\x12\x00")
        self.bridge._files = files.Files(None, self.folder)

    def test_it_is_opened(self) -> None:
        self.bridge.open_image(self.image)
        about = self.good("about")
        self.assertEqual((about["name"], about["text"], about["isImage"]), ("game.ch8", "\x12\x00", True))
        self.assertEqual(about["digest"], files.digest_of(b"\x12\x00"))
        self.assertEqual(self.saved("DW #1200\n", None, "new.asm")[1]["saved"], True)
        self.assertEqual(((self.folder / "new.asm").read_bytes(), self.image.read_bytes()), (b"DW #1200\n", b"\x12\x00"))

    def test_it_is_read_once(self) -> None:
        """What takes its place later is opened by another start."""
        self.bridge.open_image(self.image)
        self.image.unlink()
        self.assertEqual(self.good("about")["text"], "\x12\x00")

    def test_what_is_no_image(self) -> None:
        pipe = self.folder / "pipe.ch8"
        os.mkfifo(pipe)
        for path, said in (
            (self.folder / "none.ch8", f"there is no file {self.folder / 'none.ch8'}"),
            (self.folder, f"{self.folder} is not a file"),
            (pipe, f"{pipe} is not a file"),
        ):
            with self.assertRaises(files.Refused) as caught:
                self.bridge.open_image(path)
            self.assertEqual(caught.exception.reason, said)
        self.assertEqual(self.good("about")["name"], None)



def what_is_open(running: "subprocess.Popen[str]") -> dict[str, Any]:
    """What a bridge that was started says of the source that it opened."""
    assert running.stdout is not None
    address = running.stdout.readline().split()[1]
    port, token = re.fullmatch(r"http://127\.0\.0\.1:(\d+)/([\w-]{32})/", address).groups()  # type: ignore[union-attr]
    connection = http.client.HTTPConnection("127.0.0.1", int(port), timeout=SECONDS)
    connection.request("POST", f"/{token}/about", b"{}", {"Origin": f"http://127.0.0.1:{port}"})
    about = json.loads(connection.getresponse().read())
    connection.close()
    return about


class TheScript(unittest.TestCase):
    """`chipbench-page`, as it is started and ended."""

    def setUp(self) -> None:
        folder = tempfile.TemporaryDirectory()
        self.addCleanup(folder.cleanup)
        self.folder = Path(folder.name)

    def run_script(self, *words: str) -> subprocess.CompletedProcess[str]:
        return subprocess.run([str(TOP / "packaging/chipbench-page"), *words], capture_output=True, text=True, timeout=SECONDS)

    def test_start_and_end(self) -> None:
        path = self.folder / "game.asm"
        path.write_text("CLS\n")
        words = ["--no-open", "--port", "0", "--seed", "7", str(path)]
        environment = {**os.environ, "TMPDIR": str(self.folder)}
        with subprocess.Popen(
            [str(TOP / "packaging/chipbench-page"), *words], stdout=subprocess.PIPE, stderr=subprocess.DEVNULL, text=True, env=environment
        ) as running:
            about = what_is_open(running)
            self.assertEqual((about["name"], about["settings"]), ("game.asm", {"seed": "7"}))
            running.terminate()
            self.assertEqual(running.wait(SECONDS), 0)
        self.assertEqual(sorted(os.listdir(self.folder)), ["game.asm"])

    def test_start_on_an_image(self) -> None:
        """Its source is opened under its name, and files are those of its folder, wherever the bridge is started."""
        (self.folder / "images").mkdir()
        (self.folder / "images/-game.ch8").write_bytes(b"\x12\x00")
        words = ["--no-open", "--port", "0", "--image=-game.ch8"]
        with subprocess.Popen(
            [str(TOP / "packaging/chipbench-page"), *words], stdout=subprocess.PIPE, stderr=subprocess.DEVNULL, text=True, cwd=self.folder / "images"
        ) as running:
            about = what_is_open(running)
            self.assertEqual((about["name"], about["text"], about["folder"]), ("-game.ch8", "\x12\x00", str(self.folder / "images")))
            running.terminate()
            self.assertEqual(running.wait(SECONDS), 0)

    def test_faulty_arguments(self) -> None:
        """Each ends with a sentence before anything starts."""
        (self.folder / "game.ch8").write_bytes(b"\x12\x00")
        (self.folder / "big.ch8").write_bytes(bytes(3585))
        for arguments, status, said in (
            (["--rate", "x"], 2, "--rate takes a number, as in --rate 10, and not x"),
            (["--tape", "0x12"], 2, "--tape takes two hexadecimal digits for each byte, without 0x or #, as in --tape 2a07, and not 0x12"),
            (["--port", "99999"], 2, "--port is a number from 0 to 65535"),
            (["--port", "-1"], 2, "--port"),
            (["--port", "x"], 2, "--port"),
            (["--nothing"], 2, "--nothing"),
            (["a.asm", "b.asm"], 2, "b.asm"),
            ([str(self.folder)], 2, "is not a file"),
            (["--image", str(self.folder)], 2, "is not a file"),
            (["--image", str(self.folder / "none.ch8")], 2, "there is no file"),
            (["--image", str(self.folder / "big.ch8")], 2, "big.ch8 can't be opened: it has over 3584 bytes"),
            (["--image", str(self.folder / "game.ch8"), "a.asm"], 2, "give SOURCE or --image, and not both"),
            (["--image"], 2, "--image"),
            (["--help"], 0, ""),
        ):
            run = self.run_script("--no-open", *arguments)
            self.assertEqual(run.returncode, status, arguments)
            self.assertIn(said, run.stderr)
            self.assertNotIn("Traceback", run.stderr)
            self.assertNotIn("http", run.stdout if status else "")

    def test_the_token_is_in_no_command_line(self) -> None:
        """The browser is given a file that only this user can read, and which leads on to the address."""
        browser, told = self.folder / "browser", self.folder / "told"
        browser.write_text(f'#!/bin/sh\nprintf "%s\\n" "$*" > "{told}.part" && mv "{told}.part" "{told}"\n')
        browser.chmod(0o755)
        environment = {**os.environ, "DISPLAY": ":0", "BROWSER": f"{browser} %s", "TMPDIR": str(self.folder)}
        with subprocess.Popen(
            [str(TOP / "packaging/chipbench-page"), "--port", "0"],
            stdout=subprocess.PIPE, stderr=subprocess.DEVNULL, text=True, env=environment, cwd=self.folder,
        ) as running:  # fmt: skip
            assert running.stdout is not None
            address = running.stdout.readline().split()[1]
            deadline = time.monotonic() + SECONDS
            while not told.exists() and time.monotonic() < deadline:
                time.sleep(0.02)
            arguments = told.read_text().strip()
            self.assertNotIn(address.split("/")[3], arguments)
            place = Path(arguments.removeprefix("file://"))
            self.assertEqual(stat.S_IMODE(place.stat().st_mode), 0o600)
            self.assertEqual(stat.S_IMODE(place.parent.stat().st_mode), 0o700)
            self.assertIn(f"url={address}", place.read_text())
            running.terminate()
            self.assertEqual(running.wait(SECONDS), 0)
        self.assertFalse(place.exists())


if __name__ == "__main__":
    unittest.main()
