"""A client of the debug adapter, with its own messages."""

from __future__ import annotations

import sys
from pathlib import Path
from typing import Any

from message_client import SECONDS, Message, MessageClient

ADAPTER = Path(__file__).resolve().parent.parent / "chipbench_dap"


class Debugger(MessageClient):
    """One running adapter. What it sends is also kept in its order."""

    def __init__(self, program: str | None, adapter: Path = ADAPTER, environment: dict[str, str] | None = None) -> None:
        self.all: list[Message] = []
        self.sent: list[Message] = []
        super().__init__([sys.executable, "-B", str(adapter), *(["--program", program] if program else [])], environment)

    def heard(self, message: Message) -> None:
        self.all.append(message)
        (self.told if message["type"] == "event" else self.answers).put(message)

    def begin(self, command: Any, arguments: Any = None) -> int:
        """Sends a request, and returns its number."""
        self.last += 1
        message = {"seq": self.last, "type": "request", "command": command}
        message |= {} if arguments is None else {"arguments": arguments}
        self.sent.append(message)
        self.send(message)
        return self.last

    def answer(self, command: Any, arguments: Any = None) -> Message:
        request = self.begin(command, arguments)
        answer = self.next_answer()
        assert answer["request_seq"] == request, answer
        return answer

    def ask(self, command: str, arguments: Any = None) -> Any:
        """The body of the answer to a request that succeeds."""
        answer = self.answer(command, arguments)
        assert answer["success"], answer
        return answer.get("body")

    def refused(self, command: Any, arguments: Any = None) -> str:
        """The sentence of a request that is refused."""
        answer = self.answer(command, arguments)
        assert not answer["success"], answer
        return str(answer["body"]["error"]["format"])

    def event(self, name: str) -> Any:
        """The body of the next event of a name. Others before it are dropped."""
        while True:
            event = self.told.get(timeout=SECONDS)
            if event["event"] == name:
                return event.get("body")

    def output(self) -> str:
        return str(self.event("output")["output"])

    # -- a session

    def launch(self, path: Path | str, client: Any = None, **arguments: Any) -> None:
        """Starts a session, up to where breakpoints are set."""
        self.ask("initialize", {"adapterID": "chipbench", **(client or {})})
        self.ask("launch", {"source": str(path), **arguments})
        self.event("initialized")

    def configured(self) -> Any:
        """Ends the configuration, and returns where the machine stops first."""
        self.ask("configurationDone")
        return self.event("stopped")

    def stops(self, *lines: Any) -> list[Any]:
        """Sets breakpoints on lines, each by its number or as an object."""
        points = [line if isinstance(line, dict) else {"line": line} for line in lines]
        found: list[Any] = self.ask("setBreakpoints", {"source": {"path": self.path()}, "breakpoints": points})["breakpoints"]
        return found

    def watches(self, *subjects: Any) -> list[Any]:
        """Sets data breakpoints, each by what it looks at or as an object."""
        points = [subject if isinstance(subject, dict) else {"dataId": subject} for subject in subjects]
        found: list[Any] = self.ask("setDataBreakpoints", {"breakpoints": points})["breakpoints"]
        return found

    def path(self) -> str:
        return str(self.ask("loadedSources")["sources"][0]["path"])

    def go(self, command: str, **arguments: Any) -> Any:
        """Moves the machine, and returns why it stops."""
        self.ask(command, {"threadId": 1, **arguments})
        return self.event("stopped")

    def line(self) -> int:
        """The line that is next."""
        return int(self.ask("stackTrace", {"threadId": 1})["stackFrames"][0]["line"])

    def value(self, expression: str, context: str = "watch") -> str:
        return str(self.ask("evaluate", {"expression": expression, "context": context})["result"])

    def step(self) -> int:
        return int(self.value("STEP").split()[0])

    def close(self) -> int:
        """Ends the adapter as a client should, and returns its status."""
        self.ask("disconnect")
        return self.wait()
