"""Cases of commands and answers: sessions of the workbench, and calls of its crates."""
import pathlib
from dataclasses import dataclass, field, replace

from .compare import diff, first_difference, lines_of
from .texts import Text, bytes_of

# The least and the greatest number of steps between two checkpoints: no answer depends on it.
EACH_EVERY = ("1000", "100000")
SETTINGS = ("profile", "quirks", "rate", "tape", "seed", "every")
# Questions whose empty answer is an empty line.
ONE_LINE = ("image", "mem")


@dataclass
class Command:
    """A command, and the lines that answer it."""

    line: int
    text: str
    is_refused: bool
    answer: list = field(default_factory=list)


@dataclass
class Session:
    """A source, settings, and commands with their answers."""

    file: pathlib.Path
    line: int
    name: str
    source: bytes = b""
    is_image: bool = False
    settings: dict = field(default_factory=dict)
    keys: bytes = b""
    commands: list = field(default_factory=list)

    def failures(self, program, folder):
        """A text for each run that answers something else."""
        (folder / "source").write_bytes(self.source)
        each = (self.settings["every"],) if "every" in self.settings else EACH_EVERY
        for every in each:
            words = ["debug", "source"] if self.source or self.is_image else ["debug"]
            words += ["--image"] if self.is_image else []
            for name, value in {**self.settings, "every": every}.items():
                words += [f"--{name}", value]
            failure = self._failure(program, words, folder)
            if failure:
                return [f"{failure}\n(with --every {every})" if len(each) > 1 else failure]
        return []

    def _failure(self, program, words, folder):
        commands = self._key_commands() + self.commands
        script = "".join(command.text + "\n" for command in commands)
        ran = program.run(words, script.encode(), folder)
        expected = [_expected_of(command) for command in commands]
        failure = compared(self, commands, expected, lines_of(ran.stdout))
        if failure is None and (ran.status != 0 or ran.stderr):
            said = ran.stderr.decode(errors="backslashreplace")
            return f"{self.file}:{self.line}: case {self.name}: status {ran.status}\n{said}"
        return failure

    def _key_commands(self):
        """The commands that press and release the keys of the file of key events."""
        events = [line.split(b";")[0].split() for line in self.keys.splitlines()]
        return [
            Command(self.line, "kins " + b" ".join(event).decode(), False, ["ok"]) for event in events if event
        ]


@dataclass
class Calls(Session):
    """Commands of a program that calls the crates. Empty lines of its output don't count."""

    def failures(self, program, folder):
        script = "".join(command.text + "\n" for command in self.commands)
        ran = program.run([], script.encode(), folder)
        expected = [command.answer for command in self.commands]
        answered = [line for line in lines_of(ran.stdout) if line]
        failure = compared(self, self.commands, expected, answered)
        if failure is None and ran.status != 0:
            said = ran.stderr.decode(errors="backslashreplace")
            failure = f"{self.file}:{self.line}: case {self.name}: status {ran.status}\n{said}"
        return [failure] if failure else []


def _expected_of(command):
    is_empty_line = not command.answer and command.text.split(" ")[0] in ONE_LINE
    return [""] if is_empty_line else command.answer


def compared(case, commands, answers, answered):
    """What is wrong with the lines that were answered, or None."""
    expected = [line for answer in answers for line in answer]
    place = first_difference(expected, answered)
    if place is None:
        return None
    at = commands[-1] if commands else Command(case.line, "", False)
    for command, answer in zip(commands, answers):
        if place < len(answer):
            at = command
            break
        place -= len(answer)
    return f"{case.file}:{at.line}: case {case.name}: {at.text}\n{diff(expected, answered)}"


class _Reader:
    """Reads the cases of a file."""

    def __init__(self, text, kind):
        self.text, self.kind = text, kind
        self.cases = []
        # what stands before the first case
        self.common = kind(text.file, 1, text.path.stem)
        self.case = self.common

    def read(self):
        while (line := self.text.take()) is not None:
            self._read_line(line)
        if self.common.commands:
            self.cases = [self.common]
        if not self.cases:
            raise self.text.malformed(1, "there is no case")
        for case in self.cases:
            self._check(case)
        return self.cases

    def _read_line(self, line):
        if line.text == "" or line.word.startswith("#"):
            return
        if line.text[0] in ">!" and line.text[1:2] in ("", " "):
            self.case.commands.append(Command(line.number, line.text[2:], line.text[0] == "!"))
        elif self.case.commands and line.word != "case":
            self.case.commands[-1].answer.append(line.text)
        else:
            self._read_setting(line)

    def _read_setting(self, line):
        case = self.case
        if line.word == "case":
            self._begin(line)
        elif line.text == "source":
            case.source, case.is_image = bytes_of(self.text.take_block(line), ""), False
        elif line.word in ("source", "image"):
            case.source, case.is_image = self._file(line), line.word == "image"
        elif line.word == "keys":
            case.keys = self._file(line)
        elif line.word in SETTINGS and line.rest:
            case.settings[line.word] = line.rest
        else:
            raise self.text.malformed(line.number, f"neither a setting nor a command: {line.text}")

    def _begin(self, line):
        common = self.common
        if common.commands:
            raise self.text.malformed(line.number, "commands stand before the first case")
        if not line.rest:
            raise self.text.malformed(line.number, "a case without a name")
        self.case = replace(
            common, line=line.number, name=line.rest, settings=dict(common.settings), commands=[]
        )
        self.cases.append(self.case)

    def _file(self, line):
        """The bytes of a file that is named from the test's folder."""
        file = self.text.path.parent / line.rest
        if file.is_file():
            return file.read_bytes()
        raise self.text.malformed(line.number, f"no such file: {line.rest}")

    def _check(self, case):
        """A refusal is expected of the commands that begin with `!`, and of no other."""
        for command in case.commands if self.kind is Session else []:
            is_refused = len(command.answer) == 1 and command.answer[0].startswith("no ")
            if is_refused and not command.is_refused:
                why = f"a refusal is expected of `> {command.text}`: begin it with `!`"
                raise self.text.malformed(command.line, why)
            if command.is_refused and not is_refused:
                raise self.text.malformed(command.line, f"no refusal is expected of `! {command.text}`")


def read_sessions(file):
    """The sessions of a file."""
    return _Reader(Text(file), Session).read()


def read_calls(file):
    """The cases of a file of calls."""
    return _Reader(Text(file), Calls).read()
