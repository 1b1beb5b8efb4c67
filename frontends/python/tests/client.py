"""A client of the language server, with its own messages."""

from __future__ import annotations

import atexit
import functools
import os
import shutil
import sys
import tempfile
from pathlib import Path
from typing import Any

from message_client import SECONDS, Message, MessageClient

SERVER = Path(__file__).resolve().parent.parent / "chipbench_lsp"
URI = "file:///tmp/game.asm"


@functools.cache
def copied_server() -> str:
    """A copy of the server for these tests, beside which Python may keep it compiled."""
    folder = tempfile.TemporaryDirectory(prefix="chipbench-tests-")
    atexit.register(folder.cleanup)
    for module in SERVER.parent.glob("chipbench*.py"):
        shutil.copy(module, folder.name)
    uncompiled = shutil.ignore_patterns("__pycache__")
    shutil.copytree(SERVER.parent / "chipbench", Path(folder.name) / "chipbench", ignore=uncompiled)
    copied = shutil.copytree(SERVER, Path(folder.name) / SERVER.name, ignore=uncompiled)
    return str(copied)


class Client(MessageClient):
    """One running server. Messages are sent as they are."""

    def __init__(self, program: str | None, *, options: Any = None, capabilities: Any = None, ready: bool = True) -> None:
        names = {name: value for name, value in os.environ.items() if name != "PYTHONDONTWRITEBYTECODE"}
        super().__init__([sys.executable, copied_server(), *(["--program", program] if program else [])], names)
        self.version = 0
        if ready:
            params = {"processId": None, "rootUri": None, "capabilities": capabilities or {}, "initializationOptions": options}
            self.capabilities = self.ask("initialize", params)["capabilities"]
            self.tell("initialized", {})

    def heard(self, message: Message) -> None:
        (self.told if "method" in message else self.answers).put(message)

    def tell(self, method: str, params: Any) -> None:
        self.send({"jsonrpc": "2.0", "method": method, "params": params})

    def begin(self, method: str, params: Any) -> int:
        """Sends a request, and returns its id."""
        self.last += 1
        self.send({"jsonrpc": "2.0", "id": self.last, "method": method, "params": params})
        return self.last

    def answer(self, method: str, params: Any) -> dict[str, Any]:
        """The whole answer to a request."""
        request = self.begin(method, params)
        answer = self.next_answer()
        assert answer["id"] == request, answer
        return answer

    def ask(self, method: str, params: Any) -> Any:
        answer = self.answer(method, params)
        assert "error" not in answer, answer
        return answer["result"]

    def refused(self, method: str, params: Any) -> tuple[int, str]:
        error = self.answer(method, params)["error"]
        return error["code"], error["message"]

    # -- documents

    def open(self, text: str, uri: str = URI) -> list[dict[str, Any]]:
        """Opens a document, and returns its first diagnostics."""
        self.version += 1
        item = {"uri": uri, "languageId": "chip8", "version": self.version, "text": text}
        self.tell("textDocument/didOpen", {"textDocument": item})
        return self.shown(uri)

    def change(self, *changes: Any, uri: str = URI) -> None:
        self.version += 1
        self.tell("textDocument/didChange", {"textDocument": {"uri": uri, "version": self.version}, "contentChanges": list(changes)})

    def edit(self, start: tuple[int, int], end: tuple[int, int], text: str, uri: str = URI) -> list[dict[str, Any]]:
        """Makes one edit, and returns the diagnostics of that version."""
        self.change({"range": span(start, end), "text": text}, uri=uri)
        return self.shown(uri)

    def shown(self, uri: str = URI) -> list[dict[str, Any]]:
        """The next diagnostics of the version that was sent last."""
        while True:
            message = self.told.get(timeout=SECONDS)
            params = message["params"]
            if message["method"].endswith("publishDiagnostics") and params["uri"] == uri and params.get("version") == self.version:
                found: list[dict[str, Any]] = params["diagnostics"]
                return found

    def message(self) -> str:
        """The next message that is shown to the user."""
        while True:
            message = self.told.get(timeout=SECONDS)
            if message["method"] == "window/showMessage":
                return str(message["params"]["message"])

    def at(self, method: str, line: int, character: int, uri: str = URI, **more: Any) -> Any:
        params = {"textDocument": {"uri": uri}, "position": {"line": line, "character": character}, **more}
        return self.ask(f"textDocument/{method}", params)

    def close(self) -> int:
        """Ends the server as a client should, and returns its status."""
        self.ask("shutdown", None)
        self.tell("exit", None)
        return self.wait()


def span(start: tuple[int, int], end: tuple[int, int]) -> dict[str, dict[str, int]]:
    return {"start": {"line": start[0], "character": start[1]}, "end": {"line": end[0], "character": end[1]}}
