"""Messages show control bytes of arguments and of file names as `check` shows those of a line: a terminal would take them for commands.

What a fault of the arguments quotes may have lines of its own: a line feed stays there.
"""
import pathlib
import re
import tempfile

NAME = "a\x1b[31m\x07\tb\r\nc\x7f\u00e9"
SHOWN = "a\\x1b[31m\\x07\tb\\x0d\\x0ac\\x7f\u00e9"
CONTROL = re.compile(rb"[\x00-\x08\x0b-\x1f\x7f]")
# The status, and how standard error begins, of a run with these arguments. A file NAME has the bytes `x\n`.
RUNS = [
    (["run", "none" + NAME, "--steps", "1"], 3, f"chipbench: cannot read none{SHOWN}\nreason: "),
    (["run", "game.asm", "--steps", "1", "--keys", NAME], 2, f"chipbench: {SHOWN}:1: expected STEP KEY down"),
    (["dis", "long" + NAME], 3, f"chipbench: cannot read long{SHOWN}\nreason: it has over 3584 bytes\n"),
    (["asm", "game.asm", "none/" + NAME], 3, f"chipbench: cannot write none/{SHOWN}\nreason: "),
    (["trace", "game.asm", "--steps", "1", "--against", NAME], 2, f"chipbench: {SHOWN} is not a trace: "),
    (["test", NAME], 3, f"chipbench: {SHOWN}:1: "),
    (["test", "cases" + NAME], 3, f"chipbench: cases{SHOWN}:2: cannot read the file that this line names, from the folder of cases{SHOWN}\n"),
    (["explain", NAME], 2, f"chipbench: no page on {SHOWN}; "),
    (["explore", "game.asm", "--want", NAME], 2, f"chipbench: --want takes S1 to S7 separated by commas, not {SHOWN}\n"),
    (["explore", "game.asm", "--keys-allowed", NAME], 2, f"chipbench: --keys-allowed takes 0 to 15, or A to F for 10 to 15, separated by commas, not {SHOWN}\n"),
    (["explore", "game.asm", "--reach", NAME], 2, f"chipbench: --reach takes a label of the source, or an address in quotes such as '#2A0', not {SHOWN}\n"),
    (["check", "game.asm", "--allow", NAME], 2, f"chipbench: --allow takes W1 to W9 and P1 to P6 separated by commas, not {SHOWN}\n"),
    (["explore", "game.asm", "--never", "V0 = \x1b[31m"], 2, "--never:1:6: "),
    # beside the messages of status 2 and 3
    (["explore", "game.asm", "--keys-to", "made" + NAME], 1, f"chipbench: wrote made{SHOWN}\n"),
    (["prove", "stated.asm", "--keys-to", "none" + NAME + "/"], 3, f"chipbench: cannot write none{SHOWN}/\nreason: "),
    (["run", "image" + NAME, "--steps", "1"], 1, f"chipbench: image{SHOWN} looks like an image; "),
    (["prove", "quiet" + NAME], 0, f"chipbench: quiet{SHOWN} states no property: "),
    # what `clap` says
    ([NAME], 2, "error: "),
    (["run", "game.asm", "--" + NAME], 2, "error: "),
    (["run", "game.asm", "--steps", NAME], 2, "error: "),
    (["run", "game.asm", "--steps", "1", NAME], 2, "error: "),
    (["run", "game.asm", "--steps", "1", "--profile", NAME], 2, "error: "),
    (["help", NAME], 2, "error: "),
]
FILES = {
    "game.asm": b"LD V0, 5\nDW #0000\n",
    "stated.asm": b";! never V0 = 5\nLD V0, 5\nDW #0000\n",
    "quiet" + NAME: b"LD V0, 5\n",
    NAME: b"x\n",
    "long" + NAME: b"\x00" * 3585,
    "cases" + NAME: b"case a\nsource none\n",
    "image" + NAME: b"\x00\xe0" * 40,
}


def wrong_message(program, words, status, begin):
    """What is wrong with what a run says."""
    with tempfile.TemporaryDirectory() as folder:
        for name, content in FILES.items():
            pathlib.Path(folder, name).write_bytes(content)
        ran = program.run(words, b"", folder)
    if ran.status != status or not ran.stderr.startswith(begin.encode()):
        return f"status {ran.status}, standard error {ran.stderr}"
    return f"standard error has {ran.stderr}" if CONTROL.search(ran.stderr) else ""


def checks(program):
    for number, (words, status, begin) in enumerate(RUNS):
        yield f"{number}, {words[0]!a}", lambda words=words, status=status, begin=begin: wrong_message(program, words, status, begin)
