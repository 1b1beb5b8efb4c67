"""The bridge between the page in a browser and the author's files.

It serves the page on 127.0.0.1, and with it the program in WebAssembly, which runs in the browser. It reads and writes files, and knows
nothing of what the program does. Nothing of it is proved.
"""

from __future__ import annotations

import argparse
import contextlib
import hmac
import html
import http.server
import json
import os
import re
import secrets
import signal
import sys
import webbrowser
from pathlib import Path
from typing import Any

from connections import Connections
from files import Files, Refused, shown
from page_requests import NAMES, Bridge
from request_values import MAX_BODY, OPTION_FORMS, OPTION_VALUES
from served import content_of, missing_programs, served_files

HOST = "127.0.0.1"
FIRST_PORT = 8464
PORTS_TRIED = 20
LAST_PORT = 65535
IDLE_SECONDS = 60

# the settings at the start, as for `chipbench debug`
SETTINGS = {
    "rate": ("N", "the number of steps between two ticks of the timers: a tick is 1/60 of a second, so 10 is 600 steps a second"),
    "tape": ("HEX", "the random bytes"),
    "seed": ("N", "a number that makes the random bytes"),
    "profile": ("NAME", "schip, vip, chip48, schip10, schip-modern or octo"),
    "quirks": ("LIST", "what differs from the profile, such as shift=vy,edges=wrap"),
    "every": ("P", "the number of steps between two checkpoints"),
}

HEADERS = {
    "Content-Security-Policy": "default-src 'none'; script-src 'self' 'wasm-unsafe-eval'; worker-src 'self'; style-src 'self'; img-src 'self'; connect-src 'self'; "
    "base-uri 'none'; form-action 'none'; frame-ancestors 'none'; require-trusted-types-for 'script'; trusted-types worker",
    "X-Content-Type-Options": "nosniff",
    "X-Frame-Options": "DENY",
    "Referrer-Policy": "no-referrer",
    "Cross-Origin-Opener-Policy": "same-origin",
    "Cross-Origin-Resource-Policy": "same-origin",
    "Cache-Control": "no-store",
}


# ---------------------------------------------------------------------------------------------------------------------------
# The server


class Server(http.server.ThreadingHTTPServer):
    """Answers on the loopback address alone, and only to who knows the token."""

    daemon_threads = True
    request_queue_size = 128

    def __init__(self, port: int, bridge: Bridge) -> None:
        super().__init__((HOST, port), Handler)
        self.bridge = bridge
        self.token = secrets.token_urlsafe(24)
        self.hosts = {f"{name}:{self.server_port}" for name in (HOST, "localhost")}
        self.origins = {f"http://{host}" for host in self.hosts}
        self.files = served_files()
        self.connections = Connections()

    @property
    def address(self) -> str:
        return f"http://{HOST}:{self.server_port}/{self.token}/"

    def process_request(self, request: Any, client_address: Any) -> None:
        if not self.connections.admit(request):
            self.shutdown_request(request)
            return
        try:
            super().process_request(request, client_address)
        except RuntimeError:
            # no thread can be started now
            self.connections.leave(request)
            self.shutdown_request(request)

    def process_request_thread(self, request: Any, client_address: Any) -> None:
        try:
            super().process_request_thread(request, client_address)
        finally:
            self.connections.leave(request)

    def handle_error(self, request: Any, client_address: Any) -> None:
        """A browser that closes a connection isn't an error."""
        if not isinstance(sys.exc_info()[1], (ConnectionError, TimeoutError)):
            super().handle_error(request, client_address)


class Handler(http.server.BaseHTTPRequestHandler):
    protocol_version = "HTTP/1.1"
    server_version = "chipbench-page"
    sys_version = ""
    timeout = IDLE_SECONDS
    disable_nagle_algorithm = True
    wbufsize = -1
    server: Server

    def handle_one_request(self) -> None:
        self.server.connections.waits(self.connection)
        super().handle_one_request()

    def do_GET(self) -> None:
        try:
            name = self._checked_name()
            if name is None:
                self._send(307, "text/plain; charset=utf-8", b"", {"Location": f"/{self.server.token}/"})
                return
            self._check_site(name)
            found = content_of(name or "index.html", self.server.files)
            if found is None:
                raise Refused(404, "no such file")
            self._send(200, *found)
        except Refused as refused:
            self._refuse(refused)

    def do_POST(self) -> None:
        try:
            self._check_origin()
            name = self._checked_name()
            self._check_site(None)
            if name not in NAMES:
                raise Refused(404, "no such request")
            body = self._body()
            self.server.connections.is_answered(self.connection)
            reply = self._reply(name, body)
            # the names of files may hold bytes that are no UTF-8: these pass as `\udc80` to `\udcff`, and come back so
            text = json.dumps(reply, separators=(",", ":"))
            self._send(200, "application/json; charset=utf-8", text.encode("ascii"))
        except Refused as refused:
            self._refuse(refused)

    def _reply(self, name: str, body: dict[str, Any]) -> dict[str, Any]:
        try:
            return getattr(self.server.bridge, name)(body)
        except OSError as error:
            raise Refused(500, f"the bridge can't do that: {error.strerror}") from None

    def _checked_name(self) -> str | None:
        """What stands after the token in the address, where the request has the token; none where not even a slash does."""
        if self.headers.get("Host") not in self.server.hosts:
            raise Refused(403, "another host")
        _, token, *rest = self.path.split("/", 2) + [""] * (self.path.count("/") < 1)
        if not hmac.compare_digest(token.encode("utf-8"), self.server.token.encode("utf-8")):
            raise Refused(403, "the address lacks the token: use the one that chipbench-page has printed")
        self.server.connections.knows(self.connection)
        return rest[0] if rest else None

    def _check_site(self, name: str | None) -> None:
        """The page itself may be opened from anywhere by who knows its address; all else comes from the page."""
        opens = name == "" and (self.headers.get("Sec-Fetch-Mode"), self.headers.get("Sec-Fetch-Dest")) == ("navigate", "document")
        if not opens and self.headers.get("Sec-Fetch-Site", "none") not in ("none", "same-origin"):
            raise Refused(403, "another site")

    def _check_origin(self) -> None:
        if self.headers.get("Origin") not in self.server.origins:
            raise Refused(403, "another origin")

    def _body(self) -> dict[str, Any]:
        length = self.headers.get("Content-Length", "")
        if not re.fullmatch(r"[0-9]{1,10}", length) or "Transfer-Encoding" in self.headers:
            raise Refused(411, "no length")
        if int(length) > MAX_BODY:
            raise Refused(413, "too long")
        try:
            request = json.loads(self.rfile.read(int(length)))
        except (ValueError, RecursionError):
            raise Refused(400, "no JSON") from None
        if not isinstance(request, dict):
            raise Refused(400, "no object")
        return request

    def send_error(self, code: int, message: str | None = None, explain: str | None = None) -> None:
        """An error of http.server's own, such as an unknown method, is answered as the others are, with all headers also where the
        request's version isn't known."""
        self.request_version = self.protocol_version
        self._refuse(Refused(code, message or self.responses[code][0]))

    def _refuse(self, refused: Refused) -> None:
        # what wasn't read of the request would be taken for the next one
        self.close_connection = True
        self._send(refused.status, "text/plain; charset=utf-8", (refused.reason + "\n").encode("utf-8", "replace"))

    def _send(self, status: int, kind: str, body: bytes, more: dict[str, str] | None = None) -> None:
        self.send_response(status)
        self.send_header("Content-Type", kind)
        self.send_header("Content-Length", str(len(body)))
        if self.close_connection:
            self.send_header("Connection", "close")
        for name, value in {**HEADERS, **(more or {})}.items():
            self.send_header(name, value)
        self.end_headers()
        if self.command != "HEAD":
            self.wfile.write(body)
        self.wfile.flush()

    def log_message(self, format: str, *args: Any) -> None:
        """Nothing is logged: an address holds the token."""


# ---------------------------------------------------------------------------------------------------------------------------
# The command line


def make_server(port: int | None, bridge: Bridge) -> Server:
    """A server on the port, or on the first free one where none is chosen: a browser keeps texts by port."""
    if port is not None:
        return Server(port, bridge)
    for candidate in range(FIRST_PORT, FIRST_PORT + PORTS_TRIED):
        with contextlib.suppress(OSError):
            return Server(candidate, bridge)
    return Server(0, bridge)


def parser() -> argparse.ArgumentParser:
    words = argparse.ArgumentParser(
        prog="chipbench-page",
        usage="%(prog)s [SOURCE | --image FILE] [OPTIONS]",
        description="Opens a page in the browser beside a source: its listing and faults, and the machine at any step.",
        epilog="The page and this bridge are not part of the proved workbench.",
        allow_abbrev=False,
    )
    words.add_argument("source", nargs="?", metavar="SOURCE", help="the source; a file that isn't there is made when you save")
    words.add_argument("--image", metavar="FILE", help="open the source that `chipbench dis` prints of an image, in place of SOURCE")
    words.add_argument("--port", metavar="N", help=f"the port (default: the first free one from {FIRST_PORT} on)")
    words.add_argument("--no-open", action="store_true", help="print the address and open no browser")
    for name, (value, text) in SETTINGS.items():
        words.add_argument(f"--{name}", metavar=value, help=f"at the start: {text}")
    return words


def open_browser(address: str, folder: Path) -> None:
    """Opens the address, where there is a desktop to open it on. A command line is seen by each user of the machine: the browser
    is given a file that only this user can read, and which leads on to the address."""
    if sys.platform != "darwin" and not os.environ.get("DISPLAY") and not os.environ.get("WAYLAND_DISPLAY"):
        return
    place = folder / "open.html"
    link = html.escape(address)
    with open(os.open(place, os.O_WRONLY | os.O_CREAT | os.O_EXCL, 0o600), "w", encoding="utf-8") as file:
        file.write(
            '<!doctype html><meta charset="utf-8"><meta name="referrer" content="no-referrer"><title>chipbench</title>'
            f'<meta http-equiv="refresh" content="0; url={link}"><a href="{link}">chipbench</a>\n'
        )
    with contextlib.suppress(webbrowser.Error):
        webbrowser.open(place.as_uri())


def faulty_argument(words: argparse.Namespace, settings: dict[str, str]) -> str | None:
    """What is wrong with the arguments. Of settings only the form is looked at: the page tells what the program refuses."""
    if words.port is not None and not (re.fullmatch(r"[0-9]{1,5}", words.port) and int(words.port) <= LAST_PORT):
        return f"--port is a number from 0 to {LAST_PORT}, and not {words.port}"
    for name, value in settings.items():
        if not OPTION_VALUES[name].fullmatch(value):
            return f"--{name} takes {OPTION_FORMS[name]}, and not {value}"
    if words.source is not None and words.image is not None:
        return "give SOURCE or --image, and not both"
    if words.image is not None and not Path(words.image).exists():
        return f"there is no file {shown(words.image)}"
    name = words.source if words.image is None else words.image
    if name is not None and Path(name).exists() and not Path(name).is_file():
        return f"{shown(name)} is not a file"
    return None


def files_of(words: argparse.Namespace) -> Files:
    """SOURCE and the files beside it; those beside the image, where that is given."""
    if words.image is not None:
        return Files(None, Path(words.image).parent)
    return Files(Path(words.source) if words.source is not None else None)


def fail(reason: str, status: int) -> int:
    print(f"chipbench-page: {reason}", file=sys.stderr)
    return status


def main(arguments: list[str]) -> int:
    words = parser().parse_args(arguments)
    settings = {name: value for name in OPTION_VALUES if (value := getattr(words, name)) is not None}
    if (reason := faulty_argument(words, settings)) is not None:
        return fail(reason, 2)
    if missing := missing_programs():
        return fail(f"{' and '.join(missing)} isn't here: packaging/release makes it", 3)
    bridge = Bridge(files_of(words), settings)
    try:
        if words.image is not None:
            bridge.open_image(Path(words.image))
        try:
            server = make_server(None if words.port is None else int(words.port), bridge)
        except OSError as error:
            return fail(f"the port can't be used: {error.strerror}", 3)
        serve(server, bridge, opens=not words.no_open)
    except Refused as refused:
        return fail(refused.reason, 2)
    finally:
        bridge.close()
    return 0


def serve(server: Server, bridge: Bridge, opens: bool) -> None:
    """Serves the page until Ctrl+C or a signal."""
    print(f"chipbench-page: {server.address}", flush=True)
    print("chipbench-page: Ctrl+C ends it", file=sys.stderr)
    signal.signal(signal.SIGTERM, lambda *_: sys.exit(0))
    if opens:
        open_browser(server.address, bridge.place)
    try:
        server.serve_forever()
    except KeyboardInterrupt:
        print(file=sys.stderr)
    finally:
        server.server_close()


if __name__ == "__main__":
    sys.exit(main(sys.argv[1:]))
