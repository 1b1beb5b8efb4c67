"""Commands on a source that has faults, or doesn't open, tell them on standard error where that is a terminal, and why a tape is bad.
They also tell there which lines and places of a source say less than they seem to, where a machine has stopped, and which bound ended a
search.

Standard output has the same bytes as over a pipe, where nothing is told. The sentences are written by hand.
"""
import os
import pathlib
import pty
import subprocess
import tempfile

FILES = {
    "one.asm": b"LD V0, 5\nJP STRAT\n",
    "more.asm": b"CLS\nLD V0, 5, 6\nJP STRAT\nFOO\n",
    "good.asm": b"LOOP: JP LOOP\n",
    "long.asm": b"CLS\n" + b";" * 201 + b"\n",
    "many.asm": b"\n" * 4001,
    "game.ch8": b"\x12\x00",
    # line 1 begins at 512, line 2 at 514
    "notes.asm": b"LOOP: LD V0, 1 ;! V0 <= 5\nJP LOOP\n;! V0 <= 5 at 3\nEND\nnext game\n",
    "quiet.asm": b"LOOP: LD V0, 1\nJP LOOP ; never ;!\n;! V0 <= 5 at LOOP\nEND\n\n; the end\n",
    "behind.asm": b"LOOP: JP LOOP\nEND\n; the end\n;! V0 <= 5\n",
    "stops.asm": b"LD V0, 5\nRET\n",
    # V1 has 256 values, and each decides which step is next
    "keys.asm": b";! ever V2 = 1\nLOOP: LD V0, K\nADD V1, V0\nSE V1, 3\nJP LOOP\nJP LOOP\n",
    "broken.asm": b";! V0 < 1\nLOOP: LD V0, 1\nJP LOOP\n",
}
ONE = (
    "one.asm:2:4: F9: undefined name\nJP STRAT\n   ^~~~~\n"
    "help: no line gives STRAT a value, as STRAT: or STRAT EQU 5 would\n"
    "the only fault; `chipbench check one.asm` shows faults and warnings\n"
)
MORE = ("more.asm:2:4: F4: the operands fit no form of LD\nLD V0, 5, 6\n   ^~~~~~~~\n", "the first of 3 faults; `chipbench check more.asm` shows all faults\n")
LONG = (
    "long.asm:2:201: O1: line too long (at most 200 bytes)\n"
    "help: split the data over two lines, with ALIGN OFF above them where it must stay together, or shorten the comment\n"
)
MANY = (
    "many.asm:4001:1: O2: too many lines (at most 4000)\n"
    "help: put more values on each line of data, or remove empty lines and comments\n"
)
# Settings, and what standard error has below `chipbench: bad tape`.
BYTES = "help: expected two hexadecimal digits for each byte, without 0x or #, as in --tape 2a07\n"
DIGITS = "help: expected hexadecimal digits without 0x or #, as in --tape 2a07\n"
LENGTH = "help: expected 1 to 4096 bytes, as in --tape 2a07\n"
TAPES = {
    "--tape 0x12": DIGITS,
    "--tape #1": DIGITS,
    "--tape 123": BYTES,
    "--tape=": LENGTH,
    "--tape " + 4097 * "00": LENGTH,
    "--tape 00 --seed 1": "help: --tape and --seed exclude each other: give one of them\n",
}
HIDDEN = "chipbench: notes.asm:1: `;!` behind a statement or a label states nothing; put it on a line of its own\n"
BEHIND_END = "chipbench: notes.asm:4: END ends the source here, so the lines below it are ignored\n"
NOT_CHECKED = "chipbench: behind.asm:2: END ends the source here, so the lines below it are ignored; `;!` lines there state nothing\n"
DECIMAL = "chipbench: {}: write an address in hexadecimal with a #, as in #{}\n"
# the one word of the image is at 512, #200; 0206 is #CE
NO_WORD = "chipbench: game.ch8: no word of the image begins at address 206 (#CE); the addresses of its words are #200 to #200\n"
NO_LINE = "chipbench: notes.asm{}: {} is an address, not a line number, and no line begins there; the nearest, line 1, begins at 512\n"
# the second step is that of RET, without a call
STOPPED = "chipbench: stops.asm: the machine stopped at step 2, line 2: RET; `chipbench explain S5` says why\n"
STATES = "chipbench: a search ended because it kept 3 states; raise that with --states\n"
TEXT = (
    "chipbench: {} looks like a source, and is taken as an image; `asm` makes an image of a source, and other commands take one "
    "without --image\n"
)
# The words of runs, the first part of what standard error has over a pipe, and what it has more at a terminal.
NOTES = [
    (["check", "notes.asm"], "", NO_LINE.format(":3", 3) + HIDDEN + BEHIND_END),
    (["check", "quiet.asm"], "", ""),
    (["prove", "notes.asm"], "", NO_LINE.format(":3", 3) + HIDDEN + BEHIND_END),
    (["prove", "quiet.asm"], "", ""),
    (["check", "behind.asm"], "", NOT_CHECKED),
    (["explore", "notes.asm", "--reach", "2"], "", NO_LINE.format("", 2) + DECIMAL.format("notes.asm", "2") + BEHIND_END),
    (["explore", "notes.asm", "--reach", "#2"], "", NO_LINE.format("", 2) + BEHIND_END),
    (["explore", "--image", "game.ch8", "--reach", "0206"], "", NO_WORD + DECIMAL.format("game.ch8", "0206")),
    (["explore", "--image", "game.ch8", "--reach", "#200"], "", ""),
    (["explore", "notes.asm", "--reach", "LOOP"], "", BEHIND_END),
    (["explore", "notes.asm", "--never", "V0 = 6 at 2"], "", NO_LINE.format("", 2) + BEHIND_END),
    (["asm", "behind.asm", "out.ch8"], "", NOT_CHECKED),
    (["list", "behind.asm"], "", NOT_CHECKED),
    (["syms", "behind.asm"], "", NOT_CHECKED),
    (["run", "behind.asm", "--steps", "3"], "", NOT_CHECKED),
    (["trace", "behind.asm", "--steps", "3"], "", NOT_CHECKED),
    (["picture", "behind.asm", "--steps", "3"], "", NOT_CHECKED),
    (["run", "stops.asm", "--steps", "1"], "", ""),
    (["run", "stops.asm", "--steps", "2"], "", STOPPED),
    (["run", "stops.asm", "--steps", "1000000"], "", STOPPED),
    (["picture", "stops.asm", "--steps", "9"], "", STOPPED),
    (["picture", "stops.asm", "--steps", "9", "--png", "a.png"], "", STOPPED),
    (["explore", "keys.asm", "--states", "3", "--no-facts"], "", STATES),
    (["prove", "keys.asm", "--states", "3", "--no-facts"], "", STATES),
    (["dis", "quiet.asm"], "", TEXT.format("quiet.asm")),
    (["run", "--image", "quiet.asm", "--steps", "1"], "", TEXT.format("quiet.asm")),
    (["prove", "broken.asm", "--keys-to", "none/"], "chipbench: cannot write none/\nreason: ", "help: make the folder of this file first, as by mkdir\n"),
]
# The words of each command after the name of the source.
COMMANDS = {
    "asm": ["out.ch8"],
    "list": [],
    "list --hex": [],
    "syms": [],
    "run": ["--steps", "1"],
    "picture": ["--steps", "1"],
    "trace": ["--steps", "1"],
    "explore": ["--steps", "1"],
}


def ran(program, words, folder, is_terminal, is_typed=False):
    """The status, standard output, and what standard error has, which is a terminal or a pipe. The input may be the terminal too."""
    if not is_terminal:
        done = subprocess.run([program.file, *words], cwd=folder, stdin=subprocess.DEVNULL, capture_output=True, check=False)
        return done.returncode, done.stdout, done.stderr.decode()
    ours, its = pty.openpty()
    try:
        typed = its if is_typed else subprocess.DEVNULL
        done = subprocess.run([program.file, *words], cwd=folder, stdin=typed, stdout=subprocess.PIPE, stderr=its, check=False)
        # a mark at the end, since a read of nothing would wait
        os.write(its, b"\x00")
        found = b""
        while not found.endswith(b"\x00"):
            found += os.read(ours, 4096)
    finally:
        os.close(its)
        os.close(ours)
    return done.returncode, done.stdout, found.removesuffix(b"\x00").replace(b"\r\n", b"\n").decode()


def wrong_telling(program, command, name, is_right):
    """What is wrong with what a command tells of a source."""
    first, *options = command.split()
    words = [first, name, *options, *COMMANDS[command]]
    with tempfile.TemporaryDirectory() as folder:
        for each, content in FILES.items():
            pathlib.Path(folder, each).write_bytes(content)
        status, output, told = ran(program, words, folder, True)
        status_over_pipe, output_over_pipe, told_over_pipe = ran(program, words, folder, False)
    if (status, output, told_over_pipe) != (status_over_pipe, output_over_pipe, ""):
        return f"{words}: {status} {output!r} at a terminal, {status_over_pipe} {output_over_pipe!r} {told_over_pipe!r} over a pipe"
    return "" if is_right(told) else f"{words}: standard error has {told!r}"


def wrong_image(program):
    """An image has no faults."""
    with tempfile.TemporaryDirectory() as folder:
        pathlib.Path(folder, "game.ch8").write_bytes(FILES["game.ch8"])
        told = ran(program, ["run", "--image", "game.ch8", "--steps", "1"], folder, True)[2]
    return "" if told == "" else f"standard error has {told!r}"


def wrong_debug(program, options, is_typed, wanted):
    """`debug` tells the one who types."""
    with tempfile.TemporaryDirectory() as folder:
        pathlib.Path(folder, "long.asm").write_bytes(FILES["long.asm"])
        found = ran(program, ["debug", *options, "long.asm"], folder, True, is_typed)
    return "" if found == (1, b"no O1\n", wanted) else f"{found!r}"


def wrong_tape(program, settings, wanted):
    """A bad tape: over a pipe there is one line, and at a terminal a second one says why."""
    words = ["run", "none", "--steps", "1", *settings.split(" ")]
    with tempfile.TemporaryDirectory() as folder:
        found = [ran(program, words, folder, is_terminal) for is_terminal in (False, True)]
    line = "chipbench: bad tape\n"
    return "" if found == [(2, b"", line), (2, b"", line + wanted)] else f"{found!r}"


def wrong_notes(program, words, over_pipe, more):
    """What is wrong with what a run tells."""
    with tempfile.TemporaryDirectory() as folder:
        for name, content in FILES.items():
            pathlib.Path(folder, name).write_bytes(content)
        status, output, told = ran(program, words, folder, True)
        again = ran(program, words, folder, False)
    if (status, output) != again[:2] or not again[2].startswith(over_pipe) or (over_pipe == "" and again[2] != ""):
        return f"{status} {output!r} at a terminal, {again} over a pipe"
    return "" if told == again[2] + more else f"standard error has {told!r}"


def is_of_more(told):
    """The first fault alone is reported."""
    first, last = MORE
    return told.startswith(first) and told.endswith(last) and told.count("more.asm:") == 1 and "\x1b" not in told


def checks(program):
    for command in COMMANDS:
        yield f"{command}, one fault", lambda command=command: wrong_telling(program, command, "one.asm", lambda told: told == ONE)
        yield f"{command}, some faults", lambda command=command: wrong_telling(program, command, "more.asm", is_of_more)
        yield f"{command}, no fault", lambda command=command: wrong_telling(program, command, "good.asm", lambda told: told == "")
        yield f"{command}, a long line", lambda command=command: wrong_telling(program, command, "long.asm", lambda told: told == LONG)
        yield f"{command}, many lines", lambda command=command: wrong_telling(program, command, "many.asm", lambda told: told == MANY)
    for settings, wanted in TAPES.items():
        yield f"{settings[:20]}", lambda settings=settings, wanted=wanted: wrong_tape(program, settings, wanted)
    yield "an image", lambda: wrong_image(program)
    yield "debug, typed", lambda: wrong_debug(program, [], True, LONG)
    yield "debug, not typed", lambda: wrong_debug(program, [], False, "")
    yield "debug, typed, --quiet", lambda: wrong_debug(program, ["--quiet"], True, "")
    for words, over_pipe, more in NOTES:
        yield " ".join(words), lambda words=words, over_pipe=over_pipe, more=more: wrong_notes(program, words, over_pipe, more)
