#!/usr/bin/env python3
"""Sends random messages to the language server and the debug adapter: each request has to be answered, and neither may end.

    frontends/python/tests/random_messages.py [COUNT [SEED]]

COUNT messages, 1,000 without it, go to each of both. Some are right, most are nearly right, and some are no messages. The last
line is 'N passed, M failed'.
"""

from __future__ import annotations

import queue
import random
import subprocess
import sys
import tempfile
import time
from collections.abc import Callable
from pathlib import Path
from typing import Any

sys.path.insert(0, str(Path(__file__).resolve().parent))

from client import URI, Client  # noqa: E402
from debugging import Debugger  # noqa: E402
from programs import program  # noqa: E402
from protocol import Protocol  # noqa: E402

#: How many messages go out before all their answers have to be there, and how long that may take.
BATCH = 100
SECONDS = 600.0
#: Both end where they are asked to, so these are not sent.
ENDINGS = {"disconnect", "exit", "shutdown"}
LINES = (
    "LD V0, 5", "LOOP: ADD V0, 1", "JP LOOP", "CALL LOOP", "RET", "EXIT", "; a comment", ";! always V0 <= 9", "X EQU 3",
    "DB 1, 2", "LD I, X", "DRW V0, V1, 5", "IFDEF X", "ENDIF", "FOO", "LD V0, 0x1f", "\U0001f600ü", "", "DA 'a", "LD V1, K",
    "SKP V1",
)
GAME = "LD I, DATA\nLOOP: ADD V0, 1\nCALL SUBR\nSE V0, 9\nJP LOOP\nLD V1, K\nEXIT\nSUBR: LD [I], V0\nRET\nDATA: DB 1, 2\n"
TYPED = ("V0 = 3", "find V0 = 3", "who V0", "goto 20", "press 3 at 9", "[I", "screen", "DATA", "V0 +")
BROKEN = (
    b"Content-Length: 3\r\n\r\n{]}", b"Content-Length: x\r\n\r\n", b"\r\n\r\nnonsense\r\n", b"Content-Length: 2\r\n\r\n[]",
    b"Content-Length: 4\r\n\r\nnull", b"Content-Length: 2\r\n\r\n{}", b"Content-Length: 7\r\n\r\n\xff\xfe{}\x00\x01\x02",
)
WRONG: tuple[Any, ...] = (
    None, True, -1, 0, 3, 1 << 40, 1 << 80, 1.5, "", "x", "\udfff", "a" * 300, [], [1], {}, {"x": []}, [{}]
)
METHODS = tuple(f"textDocument/{name}" for name in (
    "hover completion definition references documentHighlight rename prepareRename documentSymbol foldingRange codeLens "
    "codeAction inlayHint formatting rangeFormatting signatureHelp semanticTokens/full semanticTokens/range prepareCallHierarchy"
).split()) + (
    "workspace/symbol", "callHierarchy/incomingCalls", "callHierarchy/outgoingCalls", "workspace/executeCommand", "initialize",
    "nothing", "$/nothing", "window/nothing",
)
TOLD = (
    "textDocument/didOpen", "textDocument/didChange", "textDocument/didSave", "textDocument/didClose", "initialized",
    "workspace/didChangeConfiguration", "$/cancelRequest", "window/workDoneProgress/cancel", "nothing",
)


class Chance(random.Random):
    """Random values, right ones and wrong ones."""

    def one_in(self, count: int) -> bool:
        return self.randrange(count) == 0

    def wrong(self) -> Any:
        return self.choice(WRONG)

    def text(self) -> str:
        return self.choice(("\n", "\r\n")).join(self.choice(LINES) for _ in range(self.randrange(12)))

    def place(self) -> Any:
        return {"line": self.randrange(14), "character": self.randrange(24)} if not self.one_in(20) else self.wrong()

    def span(self) -> Any:
        return {"start": self.place(), "end": self.place()} if not self.one_in(20) else self.wrong()

    def mixed(self, params: dict[str, Any]) -> Any:
        """Parameters with a wrong one, one that is missing, or none at all, now and then."""
        made = dict(params)
        if self.one_in(8) and made:
            made[self.choice(list(made))] = self.wrong()
        if self.one_in(12) and made:
            del made[self.choice(list(made))]
        return self.wrong() if self.one_in(40) else made


# -- the language server


def server_params(chance: Chance, method: str) -> Any:
    document = {"textDocument": {"uri": URI if not chance.one_in(15) else "file:///none"}}
    item = {"uri": URI, "name": chance.choice(("LOOP", "X", "the program"))}
    command = chance.choice(("chipbench.runTo", "chipbench.prove", "none"))
    if method == "textDocument/didOpen":
        return chance.mixed({"textDocument": {"uri": URI, "version": chance.randrange(99), "text": chance.text()}})
    if method == "textDocument/didChange":
        changes = [chance.mixed({"range": chance.span(), "text": chance.text()}) for _ in range(chance.randrange(3))]
        return chance.mixed({"textDocument": {"uri": URI, "version": chance.randrange(99)}, "contentChanges": changes})
    if method == "workspace/executeCommand":
        return chance.mixed({"command": command, "arguments": [URI, chance.randrange(12)]})
    if method == "workspace/didChangeConfiguration":
        settings = {"rate": chance.choice((0, 10, "x")), "profile": chance.choice(("vip", "x"))}
        return {"settings": {"chipbench": chance.mixed(settings)}}
    more = {"position": chance.place(), "range": chance.span(), "newName": chance.choice(("Y", "V0", "LOOP", "")), "query": "o",
            "item": chance.mixed(item), "context": {}, "id": chance.randrange(50), "token": "x"}
    return chance.mixed({**document, **more})


def talk_to_server(found: str, count: int, chance: Chance) -> str:
    """What is wrong with the server after so many random messages; empty where nothing is."""
    client = Client(found)
    waiting: set[Any] = set()
    try:
        for number in range(count):
            if chance.one_in(30):
                client.send_bytes(chance.choice(BROKEN))
            elif chance.one_in(3):
                method = chance.choice(TOLD)
                client.tell(method, server_params(chance, method))
            else:
                method = chance.choice(METHODS)
                # few searches: each is a process
                if method != "workspace/executeCommand" or chance.one_in(20):
                    waiting.add(client.begin(method, server_params(chance, method)))
            if number % BATCH == BATCH - 1 or number == count - 1:
                take_answers(client.next_answer_before, waiting, "id")
        client.tell("textDocument/didOpen", {"textDocument": {"uri": URI, "version": 1, "text": "CLS\n"}})
        # broken messages have answers too, which no request waits for: those of the last ones come before this one
        take_answers(client.next_answer_before, {client.begin("nothing", None)}, "id")
        return ending("the server", client.close(), client.process)
    except (queue.Empty, AssertionError, OSError) as error:
        return stuck("the server", error, len(waiting), client.process)
    finally:
        client.kill()


def take_answers(take: Callable[[float], dict[str, Any]], waiting: set[Any], name: str) -> None:
    """Takes answers until each request has one."""
    deadline = time.monotonic() + SECONDS
    while waiting:
        waiting.discard(take(deadline - time.monotonic()).get(name))


def stuck(name: str, error: Exception, count: int, process: subprocess.Popen[bytes]) -> str:
    """What is said of a program that doesn't answer any more."""
    status = process.poll()
    assert process.stderr is not None
    errors = process.stderr.read().decode("utf-8", "replace")[-2000:] if status is not None else ""
    return f"{name}: {error!r}, {count} requests aren't answered, status {status}: {errors}"


def ending(name: str, status: int, process: subprocess.Popen[bytes]) -> str:
    """What is wrong with how a program has ended."""
    assert process.stderr is not None
    errors = process.stderr.read().decode("utf-8", "replace")
    return "" if status == 0 and not errors else f"{name} ended with status {status}: {errors[-2000:]}"


# -- the debug adapter


def adapter_arguments(chance: Chance, protocol: Protocol, command: str, path: Path) -> Any:
    right: dict[str, Any] = {
        "source": {"path": str(path)}, "threadId": 1, "frameId": 1, "variablesReference": chance.randrange(1, 7),
        "line": chance.randrange(12),
        "memoryReference": chance.choice(("0x0200", "0x0fff", "x")), "count": chance.randrange(20), "text": "who [D", "column": 7,
        "instructionCount": chance.randrange(20), "name": chance.choice(("V3", "DATA", "[DATA]", "x")), "filters": ["stops"],
        "targetId": chance.randrange(3), "granularity": chance.choice(("line", "instruction", "x")), "context": "repl",
        "expression": chance.choice(TYPED),
        "breakpoints": [chance.mixed({
            "line": chance.randrange(12), "name": "SUBR", "dataId": chance.choice(("V0", "[DATA]", "x")),
            "instructionReference": "0x0204", "condition": chance.choice(("V0 = 2", "", "V0 =")),
            "hitCondition": chance.choice(("", "2", "% 2", "x")),
        }) for _ in range(chance.randrange(3))],
    }
    is_known = command in protocol.commands()
    members = [name.rstrip("?") for name in protocol.arguments_of(command)] if is_known else list(right)
    return chance.mixed({name: right[name] for name in members if name in right})


def talk_to_adapter(found: str, count: int, chance: Chance) -> str:
    """What is wrong with the adapter after so many random messages; empty where nothing is."""
    protocol = Protocol()
    commands = sorted(set(protocol.commands()) - ENDINGS) + ["nothing", ""]
    waiting: set[Any] = set()
    with tempfile.TemporaryDirectory(prefix="chipbench-random-") as folder:
        path = Path(folder, "game.asm")
        path.write_text(GAME, encoding="utf-8")
        debugger = Debugger(found)
        try:
            debugger.launch(path)
            debugger.configured()
            for number in range(count):
                if chance.one_in(30):
                    debugger.send_bytes(chance.choice(BROKEN))
                elif chance.one_in(300):
                    path.write_text(GAME.replace("SE V0, 9", f"SE V0, {chance.randrange(300)}"), encoding="utf-8")
                else:
                    command = chance.choice(commands)
                    waiting.add(debugger.begin(command, adapter_arguments(chance, protocol, command, path)))
                if number % BATCH == BATCH - 1 or number == count - 1:
                    take_answers(debugger.next_answer_before, waiting, "request_seq")
                    faults = [fault for message in debugger.all for fault in protocol.message_faults(message)]
                    debugger.all.clear()
                    if faults:
                        return f"the adapter: {faults[0]}"
            return ending("the adapter", debugger.close(), debugger.process)
        except (queue.Empty, AssertionError, OSError) as error:
            return stuck("the adapter", error, len(waiting), debugger.process)
        finally:
            debugger.kill()


def main(words: list[str]) -> int:
    if len(words) > 2 or not all(word.isascii() and word.isdecimal() for word in words):
        print(__doc__, end="", file=sys.stderr)
        return 2
    count, seed = int(words[0]) if words else 1000, int(words[1]) if words[1:] else 1
    found = program()
    if found is None:
        print("random messages: no program is built, so none are sent\n0 passed, 0 failed")
        return 0
    faults = [talk(found, count, Chance(seed)) for talk in (talk_to_server, talk_to_adapter)]
    print(*(f"random messages, seed {seed}: {fault}" for fault in faults if fault), sep="\n", end="\n" if any(faults) else "")
    print(f"{faults.count('')} passed, {2 - faults.count('')} failed")
    return 1 if any(faults) else 0


if __name__ == "__main__":
    sys.exit(main(sys.argv[1:]))
