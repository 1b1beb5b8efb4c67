#!/usr/bin/env python3
"""Checks messages against the types of the Debug Adapter Protocol, which protocol.json has.

    frontends/python/tests/protocol.py debugProtocol.d.ts    writes protocol.json anew

The types are those of the package @vscode/debugprotocol, which Debian has as node-vscode-debugprotocol (Microsoft, MIT licence).
protocol.json has the names and types of its interfaces, and nothing of its text.
"""

from __future__ import annotations

import json
import re
import sys
from collections.abc import Iterator
from pathlib import Path
from typing import Any

TYPES = Path(__file__).resolve().parent / "protocol.json"
TOKEN = re.compile(r"'[^']*'|[A-Za-z_]\w*|\[\]|[{}\[\]()|;:?=]")
PLAIN: dict[str, Any] = {"string": str, "number": (int, float), "boolean": bool}


# -- the types as TypeScript has them


class Reader:
    """Reads the interfaces of a file of TypeScript that has nothing else but names of types."""

    def __init__(self, text: str) -> None:
        plain = re.sub(r"//.*", "", re.sub(r"/\*.*?\*/", "", text, flags=re.S))
        self._tokens: list[str] = TOKEN.findall(plain[plain.index("{") :])
        self._place = 1

    def _next(self) -> str:
        self._place += 1
        return self._tokens[self._place - 1]

    def _takes(self, text: str) -> bool:
        is_next = self._tokens[self._place] == text
        self._place += is_next
        return is_next

    def read(self) -> dict[str, Any]:
        """Each interface with its base and members, and each other name with its type."""
        found: dict[str, Any] = {}
        while not self._takes("}"):
            kind, name = self._next(), self._next()
            if kind == "type":
                self._place += self._tokens[self._place] == "="
                found[name] = {"type": self._type()}
                self._next()
            else:
                base = self._next() if self._takes("extends") else None
                self._next()
                found[name] = {"base": base, "members": self._members()}
        return found

    def _members(self) -> dict[str, Any]:
        found: dict[str, Any] = {}
        while not self._takes("}"):
            if self._takes("["):
                while self._next() != "]":
                    pass
                name, is_optional = "*", True
            else:
                name, is_optional = self._next(), self._takes("?")
            self._next()
            found[name + ("?" if is_optional else "")] = self._type()
            self._next()
        return found

    def _type(self) -> Any:
        choices = [self._one()]
        while self._takes("|"):
            choices.append(self._one())
        return choices[0] if len(choices) == 1 else {"either": choices}

    def _one(self) -> Any:
        token = self._next()
        if token == "(":
            made: Any = self._type()
            self._next()
        elif token == "{":
            made = {"members": self._members()}
        else:
            made = token
        while self._takes("[]"):
            made = {"list": made}
        return made


def write(path: Path) -> None:
    found = Reader(path.read_text(encoding="utf-8")).read()
    rows = [f"{json.dumps(name)}: {json.dumps(type_)}" for name, type_ in found.items()]
    TYPES.write_text("{\n" + ",\n".join(rows) + "\n}\n", encoding="utf-8")


# -- messages


class Protocol:
    """The types, and messages checked against them."""

    def __init__(self) -> None:
        self.types: dict[str, Any] = json.loads(TYPES.read_text(encoding="utf-8"))

    def members(self, name: str) -> dict[str, Any]:
        """The members of an interface, those of its bases among them; a name that ends with ? needn't be there."""
        found = self.types[name]
        return {**(self.members(found["base"]) if found.get("base") else {}), **found.get("members", {})}

    def faults(self, value: Any, type_: Any, where: str = "") -> Iterator[str]:
        """What is wrong with a value of a type. Members that the type doesn't have are right."""
        if isinstance(type_, dict):
            if "either" in type_:
                if all(any(True for _ in self.faults(value, one)) for one in type_["either"]):
                    yield f"{where}: {value!r} is none of {type_['either']}"
            elif "list" in type_:
                yield from self._list_faults(value, type_["list"], where)
            else:
                yield from self._object_faults(value, type_["members"], where)
        elif type_.startswith("'"):
            if value != type_[1:-1]:
                yield f"{where}: {value!r} is not {type_}"
        elif type_ in PLAIN:
            if not isinstance(value, PLAIN[type_]) or (type_ == "number" and isinstance(value, bool)):
                yield f"{where}: {value!r} is not a {type_}"
        elif type_ == "null":
            if value is not None:
                yield f"{where}: {value!r} is not null"
        elif type_ != "any":
            found = self.types[type_]
            yield from self.faults(value, found["type"] if "type" in found else {"members": self.members(type_)}, where)

    def _list_faults(self, value: Any, type_: Any, where: str) -> Iterator[str]:
        if not isinstance(value, list):
            yield f"{where}: {value!r} is not a list"
            return
        for place, one in enumerate(value):
            yield from self.faults(one, type_, f"{where}[{place}]")

    def _object_faults(self, value: Any, members: dict[str, Any], where: str) -> Iterator[str]:
        if not isinstance(value, dict):
            yield f"{where}: {value!r} is not an object"
            return
        for name, type_ in members.items():
            plain = name.rstrip("?")
            if plain in value:
                yield from self.faults(value[plain], type_, f"{where}.{plain}")
            elif not name.endswith("?"):
                yield f"{where}: {plain} is missing"

    # -- by the names of requests and events

    def message_faults(self, message: dict[str, Any]) -> list[str]:
        """What is wrong with a message of the adapter."""
        if message.get("type") == "event":
            name = capital(message["event"]) + "Event"
        elif message.get("success") is False:
            name = "ErrorResponse"
        else:
            name = capital(message["command"]) + "Response"
        return list(self.faults(message, name, name))

    def arguments_of(self, command: str) -> dict[str, Any]:
        """The members of the arguments of a request."""
        found = self.members(capital(command) + "Request")
        type_ = found.get("arguments", found.get("arguments?"))
        return self.members(type_) if type_ in self.types else {}

    def commands(self) -> list[str]:
        """All requests that a client may make of an adapter."""
        names = [name.removesuffix("Request") for name in self.types if name.endswith("Request") and name != "Request"]
        return [name[0].lower() + name[1:] for name in names if name != "RunInTerminal"]


def capital(name: str) -> str:
    return name[0].upper() + name[1:]


if __name__ == "__main__":
    write(Path(sys.argv[1]))
