"""What a test does with a browser, whichever it is."""

from __future__ import annotations

import contextlib
import json
import time
from pathlib import Path
from typing import Any

ALT, CONTROL, SHIFT = 1, 2, 8
# what can be pressed or typed into and is seen, but has no name of any kind
NAMELESS = """[...document.querySelectorAll('button, input, select, textarea, summary, [role]:not([role=none], [role=alert], [role=status], [role=tooltip])')]
    .filter((one) => one.checkVisibility() && one.closest('[aria-hidden=true]') === null)
    .filter((one) => {
        const named = (one.getAttribute('aria-labelledby') ?? '').split(' ').map((id) => document.getElementById(id)?.textContent ?? '');
        const labels = [...(one.labels ?? [])].map((label) => label.textContent);
        const isField = one.matches('input, select, textarea');
        const names = [...named, ...labels, one.getAttribute('aria-label'), one.title, one.alt, isField ? one.placeholder : one.textContent];
        return names.every((name) => (name ?? '').trim() === '');
    })
    .map((one) => one.outerHTML.slice(0, 90))"""


class Browser:
    """A headless browser with one page. `console` holds what the page complained of, `requests` what it asked of the network."""

    name = ""
    #: How many times longer than on an idle machine something may take.
    patience = 1.0

    def __init__(self) -> None:
        self.console: list[str] = []
        self.requests: list[str] = []

    def value(self, expression: str) -> Any:
        """The value of an expression of JavaScript in the page, awaited."""
        raise NotImplementedError

    def open(self, address: str) -> None:
        raise NotImplementedError

    def reload(self) -> None:
        raise NotImplementedError

    def key_down(self, key: str, code: str = "", modifiers: int = 0, text: str = "") -> None:
        raise NotImplementedError

    def key_up(self, key: str, code: str = "", modifiers: int = 0) -> None:
        raise NotImplementedError

    def mouse(self, kind: str, x: float, y: float, buttons: int = 1) -> None:
        """kind: mousePressed, mouseMoved or mouseReleased."""
        raise NotImplementedError

    def type(self, text: str) -> None:
        raise NotImplementedError

    def wait(self, condition: str, seconds: float = 15.0) -> None:
        deadline = time.monotonic() + seconds * self.patience
        while time.monotonic() < deadline:
            with contextlib.suppress(RuntimeError):
                if self.value(condition):
                    return
            time.sleep(0.02)
        raise TimeoutError(f"never true: {condition}")

    def press(self, key: str, code: str = "", modifiers: int = 0, text: str = "", hold: float = 0.0) -> None:
        """A key of the keyboard, down and up."""
        self.key_down(key, code, modifiers, text)
        if hold:
            time.sleep(hold)
        self.key_up(key, code, modifiers)

    def click(self, selector: str) -> None:
        x, y = self.center(selector)
        self.mouse("mouseMoved", x, y, 0)
        self.mouse("mousePressed", x, y)
        self.mouse("mouseReleased", x, y, 0)

    def center(self, selector: str) -> tuple[float, float]:
        x, y = self.value(
            f"(() => {{ const e = document.querySelector({json.dumps(selector)}); e.scrollIntoView({{block: 'nearest'}});"
            " const b = e.getBoundingClientRect(); return [b.x + b.width / 2, b.y + b.height / 2]; })()"
        )
        return x, y

    def picture(self, path: Path) -> None:
        raise NotImplementedError

    def size(self, width: int, height: int) -> None:
        raise NotImplementedError

    def theme(self, name: str) -> None:
        raise NotImplementedError

    def downloads(self, folder: Path) -> None:
        """Downloads go to that folder, unasked."""
        raise NotImplementedError

    def choose(self, selector: str, path: Path) -> None:
        """Chooses a file in a field for files."""
        raise NotImplementedError

    def offline(self, offline: bool) -> None:
        raise NotImplementedError

    def nameless(self) -> list[Any]:
        """What can be pressed or typed into and has no name for who hears the page."""
        return self.value(NAMELESS)

    def layouts(self) -> int | None:
        """How often the page was laid out so far; none where the browser doesn't tell."""
        return None

    def throttle(self, times: float) -> bool:
        """Lets the page have so much less of the processor's time; false where the browser can't."""
        return False

    def close(self) -> None:
        raise NotImplementedError
