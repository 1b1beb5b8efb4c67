"""What the clients of the language server and of the debug adapter share: a process that answers messages."""

from __future__ import annotations

import json
import queue
import subprocess
import threading
from collections.abc import Mapping, Sequence
from typing import Any

# No message takes as long on the busiest machine.
SECONDS = 1800.0

Message = dict[str, Any]


class MessageClient:
    """One running process. What it sends is sorted into answers to requests and what it tells by itself."""

    def __init__(self, words: Sequence[str], environment: Mapping[str, str] | None = None) -> None:
        self.process = subprocess.Popen(
            words, env=environment, stdin=subprocess.PIPE, stdout=subprocess.PIPE, stderr=subprocess.PIPE
        )
        self.answers: queue.Queue[Message] = queue.Queue()
        self.told: queue.Queue[Message] = queue.Queue()
        self.last = 0
        threading.Thread(target=self._read, daemon=True).start()

    def heard(self, message: Message) -> None:
        """Puts a message that has come into one of the queues."""
        raise NotImplementedError

    def _read(self) -> None:
        assert self.process.stdout is not None
        while line := self.process.stdout.readline():
            length = int(line.split(b":")[1])
            self.process.stdout.readline()
            self.heard(json.loads(self.process.stdout.read(length)))

    def send_bytes(self, content: bytes) -> None:
        assert self.process.stdin is not None
        self.process.stdin.write(content)
        self.process.stdin.flush()

    def send(self, message: Any) -> None:
        body = json.dumps(message).encode()
        self.send_bytes(b"Content-Length: %d\r\n\r\n" % len(body) + body)

    def next_answer(self) -> Message:
        return self.answers.get(timeout=SECONDS)

    def next_answer_before(self, seconds: float) -> Message:
        return self.answers.get(timeout=max(seconds, 0.0))

    def wait(self) -> int:
        """Ends the input, and returns the status."""
        assert self.process.stdin is not None
        self.process.stdin.close()
        return self.process.wait(SECONDS)

    def kill(self) -> None:
        self.process.kill()
        self.process.wait()
        for stream in (self.process.stdin, self.process.stdout, self.process.stderr):
            if stream is not None:
                stream.close()
