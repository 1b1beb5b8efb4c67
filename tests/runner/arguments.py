"""Cases of arguments: files, runs of the program, and what they print and leave."""
import os
import pathlib
import re
import shlex
import stat
from dataclasses import dataclass, field

from .compare import diff, first_difference, lines_of
from .texts import Text, bytes_of, expanded

_RANGE = re.compile(r"\{([0-9]+)\.\.([0-9]+)\}")
FORMS = ("hex", "bytes")


class Unlike(Exception):
    """What isn't as expected."""


def _named(name):
    """The names that `{FIRST..LAST}` in a name stands for."""
    found = _RANGE.search(name)
    if not found:
        return [expanded(name)]
    numbers = range(int(found.group(1)), int(found.group(2)) + 1)
    return [_RANGE.sub(str(number), name, count=1) for number in numbers]


@dataclass
class Block:
    """Expected bytes, or what they begin or end with."""

    line: int = 0
    side: str = ""
    form: str = ""
    texts: list = field(default_factory=list)

    def check(self, what, found, here):
        expected = bytes_of([text.replace("{here}", here) for text in self.texts], self.form)
        if self.side == "begins" and not self.form:
            expected = expected[:-1]
        if self.side == "begins" and not found.startswith(expected):
            found = found[: len(expected) + 40]
        elif self.side == "ends" and not found.endswith(expected):
            found = found[-len(expected) - 40 :]
        elif self.side or found == expected:
            return
        lines, answered = lines_of(expected), lines_of(found)
        if not self.side and not self.form and first_difference(lines, answered) is None:
            return
        how = f"doesn't {self.side[:-1]} so" if self.side else "is another"
        raise Unlike(f"{what} {how}\n{diff(lines, answered)}")


@dataclass
class Put:
    """A file, folder or link that is made."""

    line: int
    kind: str
    name: str
    other: str = ""
    bytes: bytes = b""
    mode: int = 0

    def carry_out(self, _program, folder):
        for name in _named(self.name):
            path = folder / name
            if self.kind == "folder":
                path.mkdir()
            elif self.kind == "link":
                path.symlink_to(self.other.replace("{here}", str(folder)))
            elif self.kind == "hard-link":
                os.link(folder / self.other, path)
            else:
                path.write_bytes(self.bytes)
            if self.mode:
                path.chmod(self.mode)


@dataclass
class Run:
    """A run of the program, and how it ends."""

    line: int
    text: str
    stdin: bytes = b""
    status: int = 0
    stdout: Block = field(default_factory=Block)
    stderr: Block = field(default_factory=Block)

    def carry_out(self, program, folder):
        here = str(folder)
        words = [expanded(word).replace("{here}", here) for word in shlex.split(self.text)]
        ran = program.run(words, self.stdin, folder)
        if ran.status != self.status:
            said = ran.stderr.decode(errors="backslashreplace")
            raise Unlike(f"status {ran.status} and not {self.status}\n{said}")
        self.stdout.check("standard output", ran.stdout, here)
        self.stderr.check("standard error", ran.stderr, here)


@dataclass
class Then:
    """The content of a file, after a run."""

    line: int
    name: str
    block: Block

    def carry_out(self, _program, folder):
        path = folder / expanded(self.name)
        if not path.is_file():
            raise Unlike(f"there is no file {self.name}")
        self.block.check(f"the file {self.name}", path.read_bytes(), str(folder))


@dataclass
class About:
    """What is known of a name or of the folder, after a run."""

    line: int
    kind: str
    name: str
    value: str = ""

    def carry_out(self, _program, folder):
        path = folder / expanded(self.name)
        if self.kind == "gone":
            found, self.value = str(os.path.lexists(path)), str(False)
        elif self.kind == "names":
            found = str(len(os.listdir(path)))
        elif self.kind == "mode":
            found = f"{stat.S_IMODE(path.stat().st_mode):o}"
        elif self.kind == "owner":
            found = str(path.stat().st_uid) if os.geteuid() == 0 else self.value
        elif self.kind == "group":
            found = str(path.stat().st_gid) if os.geteuid() == 0 else self.value
        elif self.kind == "count":
            found = str(path.stat().st_nlink)
        else:
            found = os.readlink(path).replace(str(folder), "{here}")
        if found != self.value:
            raise Unlike(f"{self.kind} {self.name}: {found} and not {self.value}")


@dataclass
class Owner:
    """A file that is given to another group, and maybe to another user, where this is run by root."""

    line: int
    name: str
    group: int
    user: int = -1

    def carry_out(self, _program, folder):
        if os.geteuid() == 0:
            os.chown(folder / self.name, self.user, self.group)


@dataclass
class ArgumentCase:
    """Steps in a folder of their own."""

    file: pathlib.Path
    line: int
    name: str
    steps: list = field(default_factory=list)

    @property
    def commands(self):
        """Its runs."""
        return [step for step in self.steps if isinstance(step, Run)]

    def failures(self, program, folder):
        command = ""
        for step in self.steps:
            command = f"arguments {step.text}" if isinstance(step, Run) else command
            try:
                step.carry_out(program, folder)
            except Unlike as it:
                return [f"{self.file}:{step.line}: case {self.name}: {command}\n{it}"]
        return []


class _Reader:
    """Reads the cases of a file."""

    def __init__(self, text):
        self.text = text
        self.cases = []

    def read(self):
        while (line := self.text.take()) is not None:
            if line.text == "" or line.word.startswith("#"):
                continue
            if line.word == "case" and line.rest:
                self.cases.append(ArgumentCase(self.text.file, line.number, line.rest))
                continue
            if not self.cases:
                raise self.text.malformed(line.number, "no case has begun")
            try:
                self.cases[-1].steps += self._steps(line, shlex.split(line.rest))
            except (ValueError, IndexError, KeyError) as it:
                raise self.text.malformed(line.number, f"{line.text}: {it}") from it
        return self.cases

    def _steps(self, line, words):
        """The steps that a line stands for; one on how a run ends belongs to the run before it."""
        number = line.number
        if line.word == "arguments":
            return [Run(number, line.rest)]
        if line.word in ("stdin", "status", "stdout", "stderr"):
            self._read_end(line, words)
            return []
        if line.word == "file":
            return [self._file(line, words)]
        if line.word == "folder":
            return [Put(number, "folder", words[0])]
        if line.word in ("link", "hard-link"):
            return [Put(number, line.word, words[0], words[1])]
        if line.word == "owner":
            return [Owner(number, words[0], int(words[1]), int(words[1]))]
        if line.word == "group":
            return [Owner(number, words[0], int(words[1]))]
        if line.word == "then":
            return [Then(number, words[0], self._block(line, words[1:]))]
        if line.word == "gone":
            return [About(number, "gone", words[0])]
        if line.word == "about":
            return [About(number, words[1], words[0], words[2])]
        raise ValueError("no such line")

    def _read_end(self, line, words):
        run = self.cases[-1].steps[-1]
        if not isinstance(run, Run):
            raise ValueError("it stands directly after a line `arguments`")
        if line.word == "status":
            run.status = int(words[0])
        elif line.word == "stdin":
            block = self._block(line, words)
            run.stdin = bytes_of(block.texts, block.form)
        else:
            setattr(run, line.word, self._block(line, words))

    def _file(self, line, words):
        name, words = words[0], words[1:]
        mode = int(words.pop(words.index("mode") + 1), 8) if "mode" in words else 0
        block = self._block(line, [word for word in words if word != "mode"])
        return Put(line.number, "file", name, bytes=bytes_of(block.texts, block.form), mode=mode)

    def _block(self, line, words):
        block = Block(line.number)
        for word in words:
            if word in FORMS:
                block.form = word
            elif word in ("begins", "ends"):
                block.side = word
            else:
                raise ValueError(f"no such word: {word}")
        block.texts = self.text.take_block(line)
        return block


def read_arguments(file):
    """The cases of a file of arguments."""
    return _Reader(Text(file)).read()
