"""Messages of the language server's protocol."""

from __future__ import annotations

import json
from typing import Any

from chipbench_messages import Outgoing

PARSE_ERROR = -32700
INVALID_REQUEST = -32600
METHOD_NOT_FOUND = -32601
INVALID_PARAMS = -32602
INTERNAL_ERROR = -32603
NOT_INITIALIZED = -32002
REQUEST_CANCELLED = -32800
CONTENT_MODIFIED = -32801
REQUEST_FAILED = -32803


class Encoded(list[str]):
    """A list whose items are JSON already, so that an item is encoded only once for several answers."""


def encoded(value: Any) -> str:
    """A value as JSON in ASCII, because a lone surrogate can be written only as an escape.

    >>> encoded({"found": Encoded(['{"line":1}', '{"line":2}'])})
    '{"found":[{"line":1},{"line":2}]}'
    """
    if isinstance(value, Encoded):
        return f"[{','.join(value)}]"
    if isinstance(value, dict):
        return "{" + ",".join(f"{json.dumps(name)}:{encoded(part)}" for name, part in value.items()) + "}"
    return json.dumps(value, separators=(",", ":"))


class Failed(Exception):
    """A request that is answered with an error."""

    def __init__(self, code: int, text: str) -> None:
        super().__init__(text)
        self.code = code
        self.text = text


class Writer(Outgoing):
    """Writes messages, from several threads."""

    def write(self, message: dict[str, Any]) -> None:
        self.send(encoded({"jsonrpc": "2.0", **message}).encode("ascii"))

    def notify(self, method: str, params: Any) -> None:
        self.write({"method": method, "params": params})

    def answer(self, request: Any, result: Any) -> None:
        self.write({"id": request, "result": result})

    def fail(self, request: Any, code: int, text: str) -> None:
        self.write({"id": request, "error": {"code": code, "message": text}})
