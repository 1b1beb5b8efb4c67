"""`debug` at a terminal: who types the script is told on standard error where it stands, and why a command is refused.

Standard output has the bytes that it has over a pipe. Where standard input or standard error is no terminal, or with `--quiet`,
nothing is said. The sentences are written by hand.
"""
import os
import pathlib
import pty
import select
import subprocess
import tempfile
import termios

from runner.programs import HANG_SECONDS

WORDS = "ins, rep, del, kins, krep, kdel, image, syms, list, faults, regs, mem, screen, dis"
ABOUT = (
    "chipbench, a workbench for CHIP-8 games: `chipbench --help` lists its commands, "
    "`chipbench-shell` is the shell for people, `chipbench-page` opens the page\n"
)
SOURCE = b"SPEED EQU 5\nSTART: LD V0, SPEED\nJP START\n"
FAULTY = b"START: LD V0, 5\nJP STRAT\n"
KEY = "; K is a number, 0 to 15, such as 10 for the key A\n"
# What is typed, and what is said of it.
SAID = {
    "list": "",
    "": "",
    "   ": "",
    "rep 1 SPEED EQU 6": "",
    "help": "C1: no such command: `chipbench debug --help` lists the commands; Ctrl+D ends\n",
    "quit": "C1: no such command: `chipbench debug --help` lists the commands; Ctrl+D ends\n",
    "exit": "C1: no such command: `chipbench debug --help` lists the commands; Ctrl+D ends\n",
    "hlep": f"C1: no such command: the commands are {WORDS}\n",
    "Regs 1": f"C1: no such command: the commands are {WORDS}\n",
    "registers": f"C1: no such command: the commands are {WORDS}\n",
    "regs": "C1: the words don't fit the command: `regs S` shows the registers at step S\n",
    "regs x": "C1: the words don't fit the command: `regs S` shows the registers at step S\n",
    "screen": "C1: the words don't fit the command: `screen S` shows the lit rows of the screen at step S\n",
    "mem 1 2": "C1: the words don't fit the command: `mem S A N` shows N bytes of memory at step S from address A\n",
    "dis 1 2": "C1: the words don't fit the command: `dis S A N` shows N words of memory at step S from address A\n",
    "ins": "C1: the words don't fit the command: `ins N TEXT` inserts a line before line N\n",
    "rep x": "C1: the words don't fit the command: `rep N TEXT` replaces line N\n",
    "del": "C1: the words don't fit the command: `del N` deletes line N\n",
    "kins 1 2": "C1: the words don't fit the command: `kins S K down` or `kins S K up` adds a key event" + KEY,
    "kins 1 A down": "C1: the words don't fit the command: `kins S K down` or `kins S K up` adds a key event" + KEY,
    "krep 1 2": "C1: the words don't fit the command: `krep S K down` or `krep S K up` changes a key event" + KEY,
    "kdel 1": "C1: the words don't fit the command: `kdel S K` deletes a key event" + KEY,
    "image now": "C1: the words don't fit the command: `image` shows the bytes that the source assembles to\n",
    "syms now": "C1: the words don't fit the command: `syms` shows the names\n",
    "list now": "C1: the words don't fit the command: `list` shows the lines with what they assemble to\n",
    "faults now": "C1: the words don't fit the command: `faults` shows the lines that have a fault\n",
    "regs\x01": f"C1: no such command: the commands are {WORDS}\n",
    " " * 401: "C2: line too long: Make the line shorter. A line of a source has at most 200 bytes.\n",
    "del 4": "N1: no such line: the source has 3 lines\n",
    "rep 1 ;" + 200 * "a": "N2: text too long: Split the line in two, or shorten its comment.\n",
    "kins 1000001 5 down": "N5: step above the last: Use a step from 0 to 1,000,000.\n",
    "kins 0 16 down": "N6: no such key: Use a key from 0 to 15.\n",
    "kdel 2 5": "N8: no such event: `kins` adds one.\n",
    "regs 1000001": "Q2: step above the last: Use a step from 0 to 1,000,000.\n",
    "mem 0 4095 2": "Q3: past address 4096: Ask for fewer bytes, or begin at a lower address. A word of `dis` has two bytes.\n",
}


def greeting(about):
    return f"{about}\ncommands: {WORDS}\n`chipbench explain regs` explains one; Ctrl+D ends\n"


class Terminal:
    """A pseudo-terminal that shows nothing of what is typed."""

    def __init__(self):
        self.ours, self.its = pty.openpty()
        modes = termios.tcgetattr(self.its)
        modes[1] &= ~termios.OPOST
        modes[3] &= ~termios.ECHO
        termios.tcsetattr(self.its, termios.TCSANOW, modes)
        self.shown = b""

    def read(self, until):
        """What is shown up to the end of a text, or until it waits in vain."""
        while not self.shown.endswith(until) and select.select([self.ours], [], [], HANG_SECONDS)[0]:
            self.shown += os.read(self.ours, 4096)
        found, self.shown = self.shown, b""
        return found

    def close(self):
        os.close(self.ours)
        os.close(self.its)


def typed(program, words, lines):
    """The answers to lines that are typed, and what standard error shows after each."""
    terminal = Terminal()
    try:
        process = subprocess.Popen(words, stdin=terminal.its, stdout=subprocess.PIPE, stderr=terminal.its)
        said = [terminal.read(b"> ")]
        for line in lines:
            os.write(terminal.ours, line.encode() + b"\n")
            said.append(terminal.read(b"> "))
        os.write(terminal.ours, b"\x04")
        answers, _ = process.communicate(timeout=HANG_SECONDS)
        said.append(terminal.read(b"\n"))
    finally:
        terminal.close()
    return answers, [text.decode() for text in said]


def wrong_session(program, source, about, exchanges):
    """What is wrong with a session that is typed."""
    with tempfile.TemporaryDirectory() as folder:
        path = pathlib.Path(folder, "game.asm")
        path.write_bytes(source)
        words = [program.file, "debug", str(path)]
        answers, said = typed(program, words, list(exchanges))
        script = "".join(line + "\n" for line in exchanges).encode()
        expected = subprocess.run(words, input=script, capture_output=True, check=False).stdout
        wanted = [greeting(f"{path}: {about}") + "> ", *(text + "> " for text in exchanges.values()), "\n"]
    if answers != expected:
        return f"the answers are {answers}"
    return "" if said == wanted else f"standard error has {said}\nand not {wanted}"


def wrong_empty(program):
    """What is wrong with a session on the empty source."""
    answers, said = typed(program, [program.file], ["ins 1 JP NOWHERE", "image"])
    wanted = [
        ABOUT + greeting("an empty source: 0 lines, no faults") + "> ",
        "> ",
        "Q1: no image: line 1 has a fault, F9: undefined name\n> ",
        "\n",
    ]
    return "" if (answers, said) == (b"ok\nno Q1\n", wanted) else f"{answers}\n{said}"


def wrong_silence(program, options, input_typed, errors_shown):
    """What is said where somebody doesn't type, or doesn't read standard error."""
    terminal = Terminal()
    try:
        process = subprocess.Popen(
            [program.file, "debug", *options],
            stdin=terminal.its if input_typed else subprocess.PIPE,
            stdout=subprocess.PIPE,
            stderr=terminal.its if errors_shown else subprocess.PIPE,
        )
        if input_typed:
            os.write(terminal.ours, b"hlep\n\x04")
        answers, errors = process.communicate(None if input_typed else b"hlep\n", timeout=HANG_SECONDS)
        os.write(terminal.its, b".")
        shown = terminal.read(b".")
    finally:
        terminal.close()
    return "" if (answers, errors or b"", shown) == (b"no C1\n", b"", b".") else f"{answers} {errors} {shown}"


def checks(program):
    yield "each sentence", lambda: wrong_session(program, SOURCE, "3 lines, no faults", SAID)
    yield "a faulty source", lambda: wrong_session(
        program,
        FAULTY,
        "2 lines, line 2 has a fault, F9: undefined name",
        {"regs 0": "Q1: no image: line 2 has a fault, F9: undefined name\n", "rep 2 JP START": "", "regs 0 ": ""},
    )
    yield "one line", lambda: wrong_session(program, b"CLS\n", "1 line, no faults", {"del 2": "N1: no such line: the source has 1 line\n"})
    yield "events", lambda: wrong_session(
        program,
        SOURCE,
        "3 lines, no faults",
        {"kins 2 5 down": "", "kins 2 5 up": "N7: event there already: `krep` changes it, and `kdel` deletes it.\n"},
    )
    yield "an empty source", lambda: wrong_empty(program)
    yield "a script over a pipe", lambda: wrong_silence(program, [], False, True)
    yield "standard error over a pipe", lambda: wrong_silence(program, [], True, False)
    yield "--quiet", lambda: wrong_silence(program, ["--quiet"], True, True)
