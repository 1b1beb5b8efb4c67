"""`check` has colours where standard output is a terminal and NO_COLOR is unset or empty, or where they are asked for."""
import os
import pathlib
import pty
import subprocess
import tempfile

PLAIN = b"game.asm:1:3: F4: the operands fit no form of JP\n"
PAINTED = b"game.asm:1:3: \x1b[1;31mF4\x1b[0m: the operands fit no form of JP\n"
# Each run: the words, NO_COLOR or None where it is unset, whether it is at a terminal, and the first line that is wanted.
RUNS = {
    "a terminal": ([], None, True, PAINTED),
    "a terminal, auto": (["--color", "auto"], None, True, PAINTED),
    "a terminal, NO_COLOR=1": ([], "1", True, PLAIN),
    "a terminal, NO_COLOR=0": ([], "0", True, PLAIN),
    "a terminal, NO_COLOR=yes please": ([], "yes please", True, PLAIN),
    "a terminal, an empty NO_COLOR": ([], "", True, PAINTED),
    "a terminal, NO_COLOR=1, always": (["--color", "always"], "1", True, PAINTED),
    "a terminal, never": (["--color", "never"], None, True, PLAIN),
    "a terminal, --json": (["--json"], None, True, b'{"line":1,'),
    "a pipe": ([], None, False, PLAIN),
    "a pipe, an empty NO_COLOR": ([], "", False, PLAIN),
    "a pipe, always": (["--color", "always"], None, False, PAINTED),
}


def printed_at_a_terminal(words, environment, folder):
    """What a run prints at a terminal, whose newlines have carriage returns before them."""
    ours, its = pty.openpty()
    try:
        with subprocess.Popen(words, cwd=folder, env=environment, stdin=subprocess.DEVNULL, stdout=its, stderr=its) as ran:
            os.close(its)
            found = b""
            while True:
                try:
                    part = os.read(ours, 4096)
                except OSError:
                    break
                if not part:
                    break
                found += part
            ran.wait()
    finally:
        os.close(ours)
    return found.replace(b"\r\n", b"\n")


def wrong_colors(program, options, no_color, is_terminal, wanted):
    """What is wrong with the first line that is printed."""
    environment = {name: value for name, value in os.environ.items() if name != "NO_COLOR"}
    if no_color is not None:
        environment["NO_COLOR"] = no_color
    words = [program.file, "check", *options, "game.asm"]
    with tempfile.TemporaryDirectory() as folder:
        pathlib.Path(folder, "game.asm").write_bytes(b"JP\n")
        if is_terminal:
            found = printed_at_a_terminal(words, environment, folder)
        else:
            found = subprocess.run(words, cwd=folder, env=environment, capture_output=True, check=False).stdout
    return "" if found.startswith(wanted) else f"{found!r} begins not with {wanted!r}"


def checks(program):
    for name, run in RUNS.items():
        yield name, lambda run=run: wrong_colors(program, *run)
