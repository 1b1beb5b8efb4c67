"""A file that is the standard input of a command is never written by it, by whatever name.

A terminal or a pipe is no such file: one that is both input and output is written.
"""
import os
import pathlib
import pty
import subprocess
import tempfile

SOURCE = b";! never V1 = 1\nLD V1, 1\nDW #0000\n"
IMAGE = bytes.fromhex("61010000")
# Each command that reads a source and writes a file, up to the file's name, and its status where the file is written.
COMMANDS = {
    "asm": (["asm", "-"], 0),
    "explore": (["explore", "-", "--keys-to"], 1),
    "prove": (["prove", "-", "--keys-to"], 1),
    "picture --pbm": (["picture", "-", "--steps", "1", "--pbm"], 0),
    "picture --png": (["picture", "-", "--steps", "1", "--png"], 0),
}


def run_on(program, words, folder):
    """A run whose standard input is the file `game.asm` of the folder."""
    with open(pathlib.Path(folder, "game.asm"), "rb") as source:
        return subprocess.run([program.file, *words], cwd=folder, stdin=source, capture_output=True, check=False)


def wrong_refusal(program, words, name):
    """What is wrong with a command that is to write the file that it reads."""
    with tempfile.TemporaryDirectory() as folder:
        path = pathlib.Path(folder, "game.asm")
        path.write_bytes(SOURCE)
        pathlib.Path(folder, "link").symlink_to("game.asm")
        pathlib.Path(folder, "other").hardlink_to(path)
        names = sorted(os.listdir(folder))
        ran = run_on(program, [*words, name], folder)
        expected = f"chipbench: cannot write {name}\nreason: the command reads or writes it already\n"
        if (ran.returncode, ran.stderr.decode()) != (3, expected):
            return f"status {ran.returncode}, standard error {ran.stderr}"
        if path.read_bytes() != SOURCE:
            return f"the source is {path.read_bytes()}"
        return "" if sorted(os.listdir(folder)) == names else f"the files are {os.listdir(folder)}"


def wrong_writing(program, words, status):
    """What is wrong with a command that reads one file and writes another."""
    with tempfile.TemporaryDirectory() as folder:
        pathlib.Path(folder, "game.asm").write_bytes(SOURCE)
        pathlib.Path(folder, "made").write_bytes(SOURCE)
        ran = run_on(program, [*words, "made"], folder)
        if ran.returncode != status:
            return f"status {ran.returncode}, standard error {ran.stderr}"
        return "" if pathlib.Path(folder, "made").read_bytes() != SOURCE else "nothing was written"


def wrong_pipe(program):
    """The source comes over a pipe, so that the file of its bytes is written."""
    with tempfile.TemporaryDirectory() as folder:
        path = pathlib.Path(folder, "game.asm")
        path.write_bytes(SOURCE)
        ran = program.run(["asm", "-", "game.asm"], SOURCE, folder)
        return "" if (ran.status, path.read_bytes()) == (0, IMAGE) else f"status {ran.status}, standard error {ran.stderr}"


def wrong_terminal(program):
    """One terminal is both the standard input and the file."""
    ours, its = pty.openpty()
    try:
        os.write(ours, b"DB 121, 101, 115, 0\n\x04")
        ran = subprocess.run([program.file, "asm", "-", "/dev/stdout"], stdin=its, stdout=its, stderr=subprocess.PIPE, check=False)
        shown = os.read(ours, 4096)
    finally:
        os.close(its)
        os.close(ours)
    # the terminal shows what is typed, and then the image
    return "" if ran.returncode == 0 and shown.endswith(b"\nyes\x00") else f"status {ran.returncode}, {shown}, {ran.stderr}"


def checks(program):
    for command, (words, status) in COMMANDS.items():
        for name in ("game.asm", "./game.asm", "link", "other"):
            yield f"{command}, to {name}", lambda words=words, name=name: wrong_refusal(program, words, name)
        yield f"{command}, to another file", lambda words=words, status=status: wrong_writing(program, words, status)
    yield "asm, from a pipe", lambda: wrong_pipe(program)
    yield "asm, on a terminal", lambda: wrong_terminal(program)
