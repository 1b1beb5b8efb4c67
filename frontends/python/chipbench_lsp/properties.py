"""Properties that a source states about its game, in lines that begin with `;!`: a lens for each with its last answer, the
words that properties may have, and the command that runs `prove` for one."""

from __future__ import annotations

import json
import re
import subprocess
import tempfile
import threading
from collections.abc import Callable, Iterable
from typing import Any

from .document import Document
from .language import PROPERTY
from .progress import Work
from .tables import REGISTERS
from .wire import REQUEST_FAILED, Encoded, Failed, encoded

COMMAND = "chipbench.prove"
# the words of a property, and the meaning of each
WORDS = {
    "always": "the condition holds before every step, at the property's place",
    "never": "the condition never holds before a step, at the property's place",
    "ever": "some player reaches a step before which the condition holds, at the property's place",
    "can": "from every state that a player can reach, the player can go on to meet the condition, at the property's place",
    "here": "the place: the address of the next statement",
    "at": "the place: the value of a name or a number",
    "and": "every comparison holds",
    "or": "at least one comparison holds",
    "I": "the register I",
    "PC": "the address of the next instruction",
    "DT": "the delay timer",
    "DEPTH": "the number of calls that haven't returned",
    "HIGH": "1 while the screen has its high size",
    "KEYS": "1 if the next instruction reads keys",
    "PIXEL": "1 if this pixel is lit: PIXEL(column, row)",
}
OPTIONS = {"rate": "--rate", "seed": "--seed", "profile": "--profile", "quirks": "--quirks"}
# a line with the progress of a search
PROGRESS = re.compile(r"chipbench: (step [0-9]+, .*)\n")
# the seconds between two looks at whether a search was cancelled
LOOK_SECONDS = 0.1


def is_property(line: str) -> bool:
    return PROPERTY.match(line) is not None


def text_of(line: str) -> str:
    return line.split(";!", 1)[1].strip(" \t\r\f")


class Answers:
    """The last answer to each property of a document, by its text, with the edition that it is about."""

    def __init__(self) -> None:
        self._found: dict[str, tuple[int, str]] = {}

    def learn(self, text: str, edition: int, answer: str) -> None:
        self._found[text] = (edition, answer)

    def title(self, text: str, edition: int) -> str:
        answered, answer = self._found.get(text, (edition, "prove"))
        return answer if answered == edition else f"{answer} (before the last edit)"


def lenses(document: Document, answers: Answers) -> Encoded:
    """A lens above each property."""
    found = Encoded()
    for number, line in document.numbered():
        if ";!" in line and is_property(line):
            title = answers.title(text_of(line), document.edition)
            command = {"title": title, "command": COMMAND, "arguments": [document.uri, number]}
            found.append(encoded({"range": document.columns.range(number, line, 0, len(line)), "command": command}))
    return found


def words() -> list[dict[str, Any]]:
    """The words that a property may have besides the names of the source."""
    keyword, variable = 14, 6
    found = [{"label": word, "kind": keyword, "detail": text, "is_reserved": word.isupper()} for word, text in WORDS.items()]
    return [*found, *({"label": name, "kind": variable, "detail": "register"} for name in REGISTERS)]


def options_of(settings: dict[str, Any]) -> list[str]:
    """The options of `prove` from those of a bench."""
    found = [part for name, option in OPTIONS.items() if name in settings for part in (option, str(settings[name]))]
    if "tape" in settings:
        found += ["--tape", bytes(settings["tape"]).hex()]
    return found


def prove(
    program: str, source: bytes, settings: dict[str, Any], number: int, work: Work, report: Callable[[str], None]
) -> dict[str, Any]:
    """The answer to the property of a line, counted from 0. `report` gets the progress of the search."""
    command = [program, "prove", "--json", "--progress", "--only", str(number + 1), *options_of(settings), "-"]
    with tempfile.TemporaryFile() as given:
        given.write(source)
        given.seek(0)
        with subprocess.Popen(command, stdin=given, stdout=subprocess.PIPE, stderr=subprocess.PIPE) as process:
            output, errors = watched(process, work, report)
    told = [json.loads(line) for line in output.decode().splitlines() if line.startswith("{")]
    for answer in told:
        if answer.get("line") == number + 1:
            return {**answer, "text": shown(answer)}
    raise Failed(REQUEST_FAILED, errors.strip() or "the source has faults")


def watched(process: subprocess.Popen[bytes], work: Work, report: Callable[[str], None]) -> tuple[bytes, str]:
    """The output of a search, and its errors. The search is killed if its work is cancelled."""
    assert process.stdout is not None and process.stderr is not None
    errors: list[str] = []

    def read_errors(lines: Iterable[bytes]) -> None:
        for line in lines:
            found = PROGRESS.fullmatch(line.decode("utf-8", "replace"))
            if found is None:
                errors.append(line.decode("utf-8", "replace"))
            else:
                report(found[1])

    output: list[bytes] = []
    threads = [
        threading.Thread(target=read_errors, args=(process.stderr,)),
        threading.Thread(target=lambda lines: output.append(lines.read()), args=(process.stdout,)),
    ]
    for thread in threads:
        thread.start()
    while any(thread.is_alive() for thread in threads):
        threads[-1].join(LOOK_SECONDS)
        if work.is_set():
            process.kill()
            raise work.failure()
    return b"".join(output), "".join(errors)


def shown(answer: dict[str, Any]) -> str:
    """An answer in words, as `prove` prints it.

    >>> shown({"answer": "broken", "step": 9, "covered": 5})
    'broken at step 9, not broken up to step 5'
    >>> shown({"answer": "unbroken", "covered": 5})
    'unbroken up to step 5'
    """
    if "code" in answer:
        return f"{answer['code']}: {answer['message']}"
    word = str(answer["answer"])
    if "step" in answer:
        further = f", not {word} up to step {answer['covered']}" if "covered" in answer else ""
        return f"{word} at step {answer['step']}{further}"
    return f"{word} up to step {answer['covered']}" if "covered" in answer else word

