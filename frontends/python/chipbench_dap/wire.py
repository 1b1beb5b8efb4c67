"""Messages of the Debug Adapter Protocol: their numbers, and readers for their arguments."""

from __future__ import annotations

import json
from typing import Any, BinaryIO

from chipbench_messages import Outgoing

Arguments = dict[str, Any]
#: The most that a number of a message may be, so that none is taken for a size of memory.
MOST = 1 << 53
KINDS = {str: "a text", int: "a number", bool: "true or false", list: "a list", dict: "an object"}


class Refusal(Exception):
    """A request that is answered with an error. `word` is the protocol's word for the error, if it has one."""

    def __init__(self, text: str, word: str | None = None, is_shown: bool = True) -> None:
        super().__init__(text)
        self.text = text
        self.word = word
        self.is_shown = is_shown


def is_a(value: Any, kind: type) -> bool:
    if kind is int:
        return isinstance(value, int) and not isinstance(value, bool) and abs(value) <= MOST
    return isinstance(value, kind)


def optional(arguments: Any, name: str, kind: type) -> Any:
    """The argument of a name, or None if it isn't given. Raises `Refusal` if it is of another kind."""
    value = arguments.get(name) if isinstance(arguments, dict) else None
    if value is not None and not is_a(value, kind):
        raise Refusal(f"{name} must be {KINDS[kind]}, but is {shown(value)}")
    return value


def required(arguments: Any, name: str, kind: type) -> Any:
    value = optional(arguments, name, kind)
    if value is None:
        raise Refusal(f"{name} is missing: expected {KINDS[kind]}")
    return value


def objects(arguments: Any, name: str, is_needed: bool = False) -> list[Arguments]:
    """A list of objects; empty if it isn't given."""
    found = (required if is_needed else optional)(arguments, name, list) or []
    for value in found:
        if not isinstance(value, dict):
            raise Refusal(f"each item of {name} must be an object, but one is {shown(value)}")
    return found


def shown(value: Any) -> str:
    text = json.dumps(value, ensure_ascii=True)
    return text if len(text) <= 60 else text[:57] + ".."


class Writer(Outgoing):
    """Writes messages, each with its number. Only one thread uses it."""

    def __init__(self, stream: BinaryIO) -> None:
        super().__init__(stream)
        self._last = 0

    def _write(self, message: Arguments) -> None:
        self._last += 1
        # the text is ASCII, because a lone surrogate can be written only as an escape
        self.send(json.dumps({"seq": self._last, **message}, separators=(",", ":")).encode("ascii"))

    def event(self, name: str, body: Arguments | None = None) -> None:
        self._write({"type": "event", "event": name, **({} if body is None else {"body": body})})

    def answer(self, request: int, command: str, body: Arguments | None = None) -> None:
        made = {"type": "response", "request_seq": request, "success": True, "command": command}
        self._write({**made, **({} if body is None else {"body": body})})

    def fail(self, request: int, command: str, refusal: Refusal) -> None:
        error = {"id": 1, "format": refusal.text.replace("{", "(").replace("}", ")"), "showUser": refusal.is_shown}
        self._write({
            "type": "response", "request_seq": request, "success": False, "command": command,
            "message": refusal.word or refusal.text, "body": {"error": error},
        })
