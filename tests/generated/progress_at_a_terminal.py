"""A long search shows its progress where standard error is a terminal, or with `--progress`; a short one doesn't.

With two keys there are twice as many states after each, so that many more than 250,000 are kept or taken up.
"""
import os
import pathlib
import pty
import re
import subprocess
import tempfile

LONG = b"LD V1, 1\nLD I, #300\nLOOP: LD V0, K\nLD [I], V0\nADD I, V1\nJP LOOP\n"
SHORT = b"LOOP: JP LOOP\n"
KEYS = ["--keys-allowed", "4,6"]
# The last line says that the search ended with its states, of which it may keep a million.
LINES = re.compile(
    rb"(chipbench: step [0-9]+, [0-9]+ states, about [0-9]+ MB\n)+"
    rb"chipbench: a search ended because it kept 1000000 states; raise that with --states\n"
)
# Each run: the source, the options, whether standard error is a terminal, and whether there is progress.
RUNS = {
    "a long search at a terminal": (LONG, KEYS, True, True),
    "a long search at a pipe": (LONG, KEYS, False, False),
    "a long search at a pipe, --progress": (LONG, KEYS + ["--progress"], False, True),
    "a short search at a terminal": (SHORT, [], True, False),
    "a short search at a pipe, --progress": (SHORT, ["--progress"], False, False),
}


def told(words, folder, is_terminal):
    """What a run writes to standard error, which is a terminal or a pipe."""
    if not is_terminal:
        return subprocess.run(words, cwd=folder, stdin=subprocess.DEVNULL, capture_output=True, check=False).stderr
    ours, its = pty.openpty()
    try:
        ran = subprocess.run(words, cwd=folder, stdin=subprocess.DEVNULL, stdout=subprocess.DEVNULL, stderr=its, check=False)
        # a mark at the end, since a read of nothing would wait
        os.write(its, b"." if ran.returncode == 0 else b"?")
        found = b""
        while not found.endswith((b".", b"?")):
            found += os.read(ours, 4096)
    finally:
        os.close(its)
        os.close(ours)
    return found.removesuffix(b".").replace(b"\r\n", b"\n")


def wrong_progress(program, source, options, is_terminal, is_told):
    """What is wrong with what a search says of its progress."""
    with tempfile.TemporaryDirectory() as folder:
        pathlib.Path(folder, "game.asm").write_bytes(source)
        found = told([program.file, "explore", "game.asm", *options], folder, is_terminal)
    is_right = LINES.fullmatch(found) if is_told else found == b""
    return "" if is_right else f"standard error has {found!r}"


def checks(program):
    for name, run in RUNS.items():
        yield name, lambda run=run: wrong_progress(program, *run)
