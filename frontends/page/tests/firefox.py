"""Drives a headless Firefox over its remote protocol (WebDriver BiDi)."""

from __future__ import annotations

import base64
import contextlib
import json
import os
import re
import shutil
import subprocess
import tempfile
import time
from pathlib import Path
from typing import Any

from driver import ALT, CONTROL, SHIFT, Browser
from web_socket import WebSocket

START_SECONDS = 90.0
PREFERENCES = {
    "remote.active-protocols": 1,
    "browser.shell.checkDefaultBrowser": False,
    "browser.aboutwelcome.enabled": False,
    "browser.download.alwaysOpenPanel": False,
    "datareporting.policy.dataSubmissionEnabled": False,
    "toolkit.telemetry.enabled": False,
    "app.update.enabled": False,
    "extensions.update.enabled": False,
    "network.captive-portal-service.enabled": False,
    "network.connectivity-service.enabled": False,
    "ui.key.menuAccessKeyFocuses": False,
    "accessibility.tabfocus": 7,
}
KEYS = {
    "Tab": "\ue004", "Enter": "\ue006", "Escape": "\ue00c", "Backspace": "\ue003", "ArrowLeft": "\ue012", "ArrowUp": "\ue013",
    "ArrowRight": "\ue014", "ArrowDown": "\ue015", "PageUp": "\ue00e", "PageDown": "\ue00f", "End": "\ue010", "Home": "\ue011",
    "Delete": "\ue017", **{f"F{number}": chr(0xE030 + number) for number in range(1, 13)},
}  # fmt: skip
MODIFIERS = ((ALT, "\ue00a"), (CONTROL, "\ue009"), (SHIFT, "\ue008"))


def value_of(key: str, code: str) -> str:
    """The key of this protocol: this one knows keys by what they type, and a place by the letter that it has."""
    return KEYS.get(key) or (code[3:].lower() if code.startswith("Key") and not key.isalpha() else key)


def plain(value: dict[str, Any]) -> Any:
    """A value of the protocol as one of Python."""
    if value["type"] == "array":
        return [plain(one) for one in value["value"]]
    if value["type"] == "object":
        return {name: plain(one) for name, one in value["value"]}
    return value.get("value")


class Firefox(Browser):
    name = "firefox"

    def __init__(self) -> None:
        super().__init__()
        program = shutil.which("firefox-esr") or shutil.which("firefox")
        if program is None:
            raise FileNotFoundError("there is no firefox")
        self._folder = tempfile.mkdtemp(prefix="chipbench-browser-")
        (Path(self._folder) / "user.js").write_text("".join(f"user_pref({json.dumps(name)}, {json.dumps(value)});\n" for name, value in PREFERENCES.items()))
        self._errors = open(Path(self._folder) / "errors", "wb")
        self._process = subprocess.Popen(
            [program, "--headless", "--no-remote", "--remote-debugging-port", "0", "--profile", self._folder, "about:blank"],
            stdin=subprocess.DEVNULL, stdout=subprocess.DEVNULL, stderr=self._errors, env={**os.environ, "HOME": self._folder},
        )  # fmt: skip
        self._socket = WebSocket(f"{self._address()}/session")
        self._number = 0
        self._theme = "light"
        self.call("session.new", capabilities={})
        self.call("session.subscribe", events=["log.entryAdded", "network.beforeRequestSent"])
        # the first tab never gets the focus, a new one does
        self._context = self.call("browsingContext.create", type="tab")["context"]
        self.call("browsingContext.activate", context=self._context)

    def _address(self) -> str:
        deadline = time.monotonic() + START_SECONDS * self.patience
        while time.monotonic() < deadline:
            found = re.search(rb"WebDriver BiDi listening on (ws://\S+)", (Path(self._folder) / "errors").read_bytes())
            if found is not None:
                return found[1].decode()
            time.sleep(0.05)
        self._process.kill()
        raise TimeoutError("firefox didn't start")

    def call(self, method: str, **parameters: Any) -> dict[str, Any]:
        self._number += 1
        self._socket.send(json.dumps({"id": self._number, "method": method, "params": parameters}))
        while True:
            message = json.loads(self._socket.receive())
            if message.get("id") == self._number:
                if message["type"] == "error":
                    raise RuntimeError(f"{method}: {message['error']}: {message['message']}")
                return message["result"]
            self._note(message)

    def _note(self, message: dict[str, Any]) -> None:
        parameters = message.get("params", {})
        if message.get("method") == "log.entryAdded" and parameters["level"] in ("error", "warn"):
            self.console.append(f"{parameters.get('text')}")
        if message.get("method") == "network.beforeRequestSent":
            self.requests.append(parameters["request"]["url"])

    def open(self, address: str) -> None:
        # a download or a window of another test may have taken the focus
        self.call("browsingContext.activate", context=self._context)
        self.call("browsingContext.navigate", context=self._context, url=address, wait="complete")
        self.theme(self._theme)

    def reload(self) -> None:
        self.call("browsingContext.reload", context=self._context, wait="complete")

    def value(self, expression: str) -> Any:
        reply = self.call(
            "script.evaluate", expression=expression, target={"context": self._context}, awaitPromise=True, userActivation=True,
            serializationOptions={"maxObjectDepth": 8, "maxDomDepth": 0},
        )  # fmt: skip
        if reply["type"] == "exception":
            raise RuntimeError(f"{expression}: {reply['exceptionDetails']['text']}")
        return plain(reply["result"])

    def size(self, width: int, height: int) -> None:
        self.call("browsingContext.setViewport", context=self._context, viewport={"width": width, "height": height})

    def theme(self, name: str) -> None:
        """This protocol sets no theme: the page itself is asked for it."""
        self._theme = name
        with contextlib.suppress(RuntimeError):
            self.wait("location.protocol !== 'http:' || globalThis.chipbenchPage !== undefined", 5.0)
            self.value(f"globalThis.chipbenchPage?.appearance?.choose({{ screen: globalThis.chipbenchPage.appearance.screen, theme: {json.dumps(name)} }})")

    def _keys(self, *actions: dict[str, Any]) -> None:
        self.call("input.performActions", context=self._context, actions=[{"type": "key", "id": "keyboard", "actions": list(actions)}])

    def key_down(self, key: str, code: str = "", modifiers: int = 0, text: str = "") -> None:
        held = [{"type": "keyDown", "value": value} for bit, value in MODIFIERS if modifiers & bit]
        self._keys(*held, {"type": "keyDown", "value": value_of(key, code)})

    def key_up(self, key: str, code: str = "", modifiers: int = 0) -> None:
        held = [{"type": "keyUp", "value": value} for bit, value in MODIFIERS if modifiers & bit]
        self._keys({"type": "keyUp", "value": value_of(key, code)}, *held)

    def type(self, text: str) -> None:
        """In one go, as a text that is pasted; single keys are pressed."""
        self.value(f"document.execCommand('insertText', false, {json.dumps(text)})")

    def mouse(self, kind: str, x: float, y: float, buttons: int = 1) -> None:
        move = {"type": "pointerMove", "x": round(x), "y": round(y)}
        then = {"mousePressed": [{"type": "pointerDown", "button": 0}], "mouseReleased": [{"type": "pointerUp", "button": 0}]}.get(kind, [])
        actions = [{"type": "pointer", "id": "mouse", "parameters": {"pointerType": "mouse"}, "actions": [move, *then]}]
        self.call("input.performActions", context=self._context, actions=actions)

    def picture(self, path: Path) -> None:
        result = self.call("browsingContext.captureScreenshot", context=self._context)
        path.write_bytes(base64.b64decode(result["data"]))

    def downloads(self, folder: Path) -> None:
        self.call("browser.setDownloadBehavior", downloadBehavior={"type": "allowed", "destinationFolder": str(folder)})

    def choose(self, selector: str, path: Path) -> None:
        found = self.call("browsingContext.locateNodes", context=self._context, locator={"type": "css", "value": selector})
        self.call("input.setFiles", context=self._context, element={"sharedId": found["nodes"][0]["sharedId"]}, files=[str(path)])

    def offline(self, offline: bool) -> None:
        conditions = {"type": "offline"} if offline else None
        self.call("emulation.setNetworkConditions", contexts=[self._context], networkConditions=conditions)

    def close(self) -> None:
        with contextlib.suppress(Exception):
            self.call("browser.close")
        self._socket.close()
        try:
            self._process.wait(15.0)
        except subprocess.TimeoutExpired:
            self._process.kill()
            self._process.wait()
        self._errors.close()
        shutil.rmtree(self._folder, ignore_errors=True)
