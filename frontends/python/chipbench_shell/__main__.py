"""The program chipbench-shell."""

from __future__ import annotations

import argparse
import contextlib
import os
import re
import sys
from collections.abc import Callable
from pathlib import Path
from typing import NoReturn

sys.path.insert(0, str(Path(__file__).resolve().parent.parent))

from chipbench import ChipbenchError, WrongValue  # noqa: E402
from chipbench_files import FileError, read_file  # noqa: E402
from chipbench_shell import advice  # noqa: E402
from chipbench_shell.console import Console, OutputGone  # noqa: E402
from chipbench_shell.game import Game, Settings  # noqa: E402
from chipbench_shell.shell import Shell  # noqa: E402
from chipbench_shell.values import Mistake, near  # noqa: E402


IMAGE_NAMES = (".ch8", ".c8", ".rom", ".sc8", ".xo8")
#: Control characters that a source may have in its lines and between them.
TEXT_CONTROLS = b"\t\n\r\f\x1b"
#: The memory from address 512 on.
IMAGE_BYTES = 3584


class Parser(argparse.ArgumentParser):
    """The options. An error is one line that says what is wrong and what would be right."""

    def error(self, message: str) -> NoReturn:
        unknown = message.removeprefix("unrecognized arguments: ")
        if unknown != message:
            first = unknown.split()[0]
            known = [name for action in self._actions for name in action.option_strings]
            is_option = first.startswith("-")
            hint = f": {advice.OTHER_OPTIONS[first]}" if first in advice.OTHER_OPTIONS else near(first, known)
            message = f"no option {first}{hint}" if is_option else f"expected one SOURCE, and {first} is a second one"
        self.exit(2, f"{self.prog}: {message}; {advice.SHELL} --help lists the options\n")


def tape_of(text: str) -> bytes:
    try:
        return bytes.fromhex(text)
    except ValueError:
        expected = "expected two hexadecimal digits for each byte, without 0x or #, as in --tape 2a07"
        raise argparse.ArgumentTypeError(f"{expected}; found {text}") from None


def number_of(example: str) -> Callable[[str], int]:
    """Reads a whole number from 0 on, in decimal. The error has an example."""

    def read(text: str) -> int:
        if not (text.isascii() and text.isdecimal()):
            raise argparse.ArgumentTypeError(f"expected a whole number from 0 on, in decimal, as in {example}; found {text}")
        return int(text)

    return read


def parser() -> argparse.ArgumentParser:
    words = Parser(
        prog="chipbench-shell",
        usage="%(prog)s [SOURCE | --image FILE] [OPTIONS]",
        description="A debugger at the terminal: goes to any step of a game's run, forward and back, and edits its lines and keys.",
        epilog="Without a terminal it reads commands from standard input. The shell is not part of the proved workbench.",
        allow_abbrev=False,
    )
    words.add_argument("source", nargs="?", metavar="SOURCE", help="the source; if the file doesn't exist, save makes it")
    of_image = "open the source that `chipbench dis` prints for an image, in place of SOURCE"
    words.add_argument("--image", metavar="FILE", help=of_image)
    words.add_argument("--keys", metavar="FILE", help="add the key events of FILE")
    words.add_argument("--strict", action="store_true", help="end with status 1 at the first command that is refused")
    words.add_argument("--echo", action="store_true", help="print each command before its answer, if commands aren't typed")
    words.add_argument("--quiet", action="store_true", help="print no line at the start")
    words.add_argument("--program", metavar="PATH", help="the chipbench to run (default: $CHIPBENCH, or the installed one)")
    rate, seed, every = number_of("--rate 10"), number_of("--seed 7"), number_of("--every 1000")
    tick = "the number of steps between two ticks of the timers: a tick is 1/60 of a second, so 10 is 600 steps a second"
    words.add_argument("--rate", metavar="N", type=rate, help=tick)
    words.add_argument("--tape", metavar="HEX", type=tape_of, help="the random bytes")
    words.add_argument("--seed", metavar="N", type=seed, help="a number that makes the random bytes")
    words.add_argument("--profile", metavar="NAME", help="a name for a choice of all quirks, such as schip or vip")
    words.add_argument("--quirks", metavar="LIST", help="the quirks that differ from the profile, such as shift=vy,edges=wrap")
    words.add_argument("--every", metavar="P", type=every, help="the number of steps between two checkpoints")
    return words


def is_text(content: bytes) -> bool:
    """Whether a file can be a source: its only control characters are those that lines may have."""
    return not any(byte < 32 and byte not in TEXT_CONTROLS for byte in content)


def kind_warning(words: argparse.Namespace, image: bytes | None) -> str | None:
    """The warning for a source that was given as an image, or the other way around; None otherwise."""
    if image is not None:
        is_source = is_text(image) and b"\n" in image
        return f"{words.image} is a text, not an image: {advice.SHELL} {words.image} opens a source" if is_source else None
    if words.source is None:
        return None
    content = read_file(Path(words.source))
    if content is not None and not is_text(content):
        return f"{words.source} is not a text; if it is an image, type {advice.SHELL} --image {words.source}"
    if content is None and words.source.lower().endswith(IMAGE_NAMES):
        return f"there is no file {words.source}, and its name is that of an image: {advice.SHELL} --image FILE opens one"
    return None


def opened(words: argparse.Namespace) -> Game:
    """The game that the arguments name."""
    settings = Settings(words.profile, words.rate, words.tape, words.seed, words.every, words.quirks)
    image = needed(words.image) if words.image is not None else None
    if image is not None and len(image) > IMAGE_BYTES:
        raise FileError(f"{words.image} can't be opened: it has over {IMAGE_BYTES} bytes")
    warning = kind_warning(words, image)
    if warning is not None:
        print(f"chipbench-shell: warning: {warning}", file=sys.stderr)
    game = Game(Path(words.source) if words.source is not None else None, image, settings, words.program)
    try:
        if words.keys is not None:
            game.read_keys(needed(words.keys), Path(words.keys))
    except BaseException:
        game.close()
        raise
    return game


def needed(name: str) -> bytes:
    content = read_file(Path(name))
    if content is None:
        raise FileError(f"there is no file {name}")
    return content


def option_text(told: str) -> str:
    """Names a setting by its option in an error of the module, which names the parameter instead.

    >>> option_text("rate=0: 0 is not in 1..=1000"), option_text("profile='xo': possible values: schip")
    ('--rate 0: expected 1 to 1000', '--profile xo: possible values: schip')
    """
    named = re.sub(r"^([a-z]+)='?([^:']*)'?: ", r"--\1 \2: ", told)
    return re.sub(r"\S+ is not in (\d+)\.\.=(\d+)$", r"expected \1 to \2", named)


def closed_stream() -> str | None:
    """The name of a closed stream that a shell needs; None if both are open. Without standard error, messages are dropped."""
    if sys.stderr is None:
        sys.stderr = open(os.devnull, "w", encoding="utf-8")
    return "standard input" if sys.stdin is None else "standard output" if sys.stdout is None else None


def main(arguments: list[str]) -> int:
    closed = closed_stream()
    if closed is not None:
        print(f"chipbench-shell: {closed} is closed", file=sys.stderr)
        return 3
    words = parser().parse_args(arguments)
    if words.source is not None and words.image is not None:
        parser().error("give SOURCE or --image, not both")
    try:
        game = opened(words)
    except (ChipbenchError, FileError, Mistake) as error:
        # only the first part of the program's message is shown, because the rest is the help of the program
        told = str(error).partition(chr(10) * 2)[0]
        print(f"chipbench-shell: {option_text(told) if isinstance(error, WrongValue) else told}", file=sys.stderr)
        return 3 if isinstance(error, FileError) else 2
    try:
        return converse(game, words)
    except OutputGone as gone:
        told = str(gone)
    except OSError as error:
        told = f"the input can't be read: {error.strerror}"
    finally:
        game.close()
    # no more of the output is written
    os.dup2(os.open(os.devnull, os.O_WRONLY), 1)
    # a terminal that has gone away takes no sentence
    with contextlib.suppress(OSError):
        if told:
            print(f"chipbench-shell: {told}", file=sys.stderr, flush=True)
    return 3


def converse(game: Game, words: argparse.Namespace) -> int:
    """Reads the commands up to the end, and returns the status."""
    console = Console(words.echo)
    shell = Shell(game, console, words.strict)
    if not words.quiet:
        console.say(shell.banner())
    if console.is_terminal:
        console.say(*shell.left_before())
    return shell.run()


if __name__ == "__main__":
    sys.exit(main(sys.argv[1:]))
