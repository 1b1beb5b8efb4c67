"""Drives a headless chromium over its debugging port."""

from __future__ import annotations

import base64
import contextlib
import json
import shutil
import subprocess
import tempfile
import time
import urllib.request
from pathlib import Path
from typing import Any

from driver import Browser
from web_socket import WebSocket

START_SECONDS = 90.0
WORDS = (
    "--headless=new", "--remote-debugging-port=0", "--no-sandbox", "--disable-gpu", "--disable-dev-shm-usage", "--disable-background-networking",
    "--disable-component-update", "--no-first-run", "--hide-scrollbars",
)  # fmt: skip
NAMED_ROLES = ("button", "textbox", "combobox", "spinbutton", "slider", "image", "region", "table", "tab", "separator", "listbox")


class Chromium(Browser):
    name = "chromium"

    def __init__(self) -> None:
        super().__init__()
        program = shutil.which("chromium") or shutil.which("google-chrome")
        if program is None:
            raise FileNotFoundError("there is no chromium")
        self._folder = tempfile.mkdtemp(prefix="chipbench-browser-")
        self._process = subprocess.Popen(
            [program, *WORDS, f"--user-data-dir={self._folder}", "about:blank"],
            stdin=subprocess.DEVNULL, stdout=subprocess.DEVNULL, stderr=subprocess.DEVNULL,
        )  # fmt: skip
        port = self._port()
        with urllib.request.urlopen(f"http://127.0.0.1:{port}/json/list") as reply:
            pages = [target for target in json.load(reply) if target["type"] == "page"]
        self._socket = WebSocket(pages[0]["webSocketDebuggerUrl"])
        self._number = 0
        for domain in ("Page", "Runtime", "Log", "Network"):
            self.call(f"{domain}.enable")

    def _port(self) -> int:
        place = Path(self._folder) / "DevToolsActivePort"
        deadline = time.monotonic() + START_SECONDS * self.patience
        while time.monotonic() < deadline:
            with contextlib.suppress(FileNotFoundError, IndexError, ValueError):
                return int(place.read_text().splitlines()[0])
            time.sleep(0.05)
        self._process.kill()
        raise TimeoutError("chromium didn't start")

    def call(self, method: str, **parameters: Any) -> dict[str, Any]:
        self._number += 1
        self._socket.send(json.dumps({"id": self._number, "method": method, "params": parameters}))
        while True:
            message = json.loads(self._socket.receive())
            if message.get("id") == self._number:
                if "error" in message:
                    raise RuntimeError(f"{method}: {message['error']}")
                return message["result"]
            self._note(message)

    def _note(self, message: dict[str, Any]) -> None:
        parameters = message.get("params", {})
        if message.get("method") == "Runtime.exceptionThrown":
            details = parameters["exceptionDetails"]
            self.console.append(details.get("exception", {}).get("description", details["text"]))
        if message.get("method") == "Runtime.consoleAPICalled" and parameters["type"] in ("error", "warning"):
            self.console.append(" ".join(str(one.get("value", one.get("description"))) for one in parameters["args"]))
        if message.get("method") == "Log.entryAdded" and parameters["entry"]["level"] in ("error", "warning"):
            self.console.append(f"{parameters['entry']['text']} {parameters['entry'].get('url', '')}")
        if message.get("method") == "Network.requestWillBeSent":
            self.requests.append(parameters["request"]["url"])

    def open(self, address: str) -> None:
        self.call("Page.navigate", url=address)
        self.wait("document.readyState === 'complete'")

    def reload(self) -> None:
        self.value("globalThis.isOld = true")
        self.call("Page.reload")
        self.wait("globalThis.isOld === undefined && document.readyState === 'complete'")

    def value(self, expression: str) -> Any:
        result = self.call("Runtime.evaluate", expression=expression, awaitPromise=True, returnByValue=True)
        if "exceptionDetails" in result:
            details = result["exceptionDetails"]
            raise RuntimeError(f"{expression}: {details.get('exception', {}).get('description', details['text'])}")
        return result["result"].get("value")

    def size(self, width: int, height: int) -> None:
        self.call("Emulation.setDeviceMetricsOverride", width=width, height=height, deviceScaleFactor=1, mobile=False)

    def theme(self, name: str) -> None:
        self.call("Emulation.setEmulatedMedia", features=[{"name": "prefers-color-scheme", "value": name}])

    def key_down(self, key: str, code: str = "", modifiers: int = 0, text: str = "") -> None:
        codes = {
            "Tab": 9, "Enter": 13, "Escape": 27, "Backspace": 8, "PageUp": 33, "PageDown": 34, "End": 35, "Home": 36,
            "ArrowLeft": 37, "ArrowUp": 38, "ArrowRight": 39, "ArrowDown": 40, "Delete": 46,
        }  # fmt: skip
        number = codes.get(key, ord(key.upper()) if len(key) == 1 else 0)
        kind = "keyDown" if text else "rawKeyDown"
        self.call(
            "Input.dispatchKeyEvent", type=kind, key=key, code=code or key, modifiers=modifiers, text=text, windowsVirtualKeyCode=number
        )

    def key_up(self, key: str, code: str = "", modifiers: int = 0) -> None:
        self.call("Input.dispatchKeyEvent", type="keyUp", key=key, code=code or key, modifiers=modifiers)

    def type(self, text: str) -> None:
        self.call("Input.insertText", text=text)

    def mouse(self, kind: str, x: float, y: float, buttons: int = 1) -> None:
        button = "left" if kind != "mouseMoved" or buttons else "none"
        self.call("Input.dispatchMouseEvent", type=kind, x=x, y=y, button=button, buttons=buttons, clickCount=1)

    def picture(self, path: Path) -> None:
        result = self.call("Page.captureScreenshot", format="png")
        path.write_bytes(base64.b64decode(result["data"]))

    def downloads(self, folder: Path) -> None:
        self.call("Browser.setDownloadBehavior", behavior="allow", downloadPath=str(folder))

    def choose(self, selector: str, path: Path) -> None:
        document = self.call("DOM.getDocument")["root"]["nodeId"]
        node = self.call("DOM.querySelector", nodeId=document, selector=selector)["nodeId"]
        self.call("DOM.setFileInputFiles", files=[str(path)], nodeId=node)

    def offline(self, offline: bool) -> None:
        self.call("Network.emulateNetworkConditions", offline=offline, latency=0, downloadThroughput=-1, uploadThroughput=-1)

    def nameless(self) -> list[Any]:
        self.call("Accessibility.enable")
        nodes = self.call("Accessibility.getFullAXTree")["nodes"]
        named = [node for node in nodes if node.get("role", {}).get("value") in NAMED_ROLES and not node.get("ignored")]
        return super().nameless() + [node for node in named if not node.get("name", {}).get("value")]

    def layouts(self) -> int | None:
        self.call("Performance.enable")
        return next(round(metric["value"]) for metric in self.call("Performance.getMetrics")["metrics"] if metric["name"] == "LayoutCount")

    def throttle(self, times: float) -> bool:
        self.call("Emulation.setCPUThrottlingRate", rate=times)
        return True

    def close(self) -> None:
        with contextlib.suppress(Exception):
            self.call("Browser.close")
        self._socket.close()
        try:
            self._process.wait(10.0)
        except subprocess.TimeoutExpired:
            self._process.kill()
            self._process.wait()
        shutil.rmtree(self._folder, ignore_errors=True)
