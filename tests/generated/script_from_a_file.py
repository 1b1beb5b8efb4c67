"""A script from a file, which waits for no answer: the program holds answers back, and writes the same bytes as over a pipe."""
import pathlib
import subprocess
import tempfile

FULL = 'exec "$0" "$@" >/dev/full'
SOURCE = "".join(f"L{n}: JP L{n}  ; a line of the source\n" for n in range(1700))
SCRIPTS = {
    "no command": "",
    "one answer": "image",
    "blank lines": "\n   \n",
    "short answers": "regs 1\nfoo\ndel 9999\n" * 5000,
    "answers of a page and a half": "rep 7 LD V1, 5\nimage\n" * 100,
    "an answer longer than what is held back": "regs 1\nlist\nregs 2\nlist\nlist\nregs 3",
    "more input than there may be": "regs 1\n" * 100_001,
}


def ran(words, folder, script, is_file):
    """The status, the answers and the errors of a session, over a pipe or from a file."""
    given = pathlib.Path(folder, "script")
    given.write_text(script)
    if not is_file:
        session = subprocess.run(words, cwd=folder, input=script.encode(), capture_output=True, check=False)
    else:
        with open(given, "rb") as file:
            session = subprocess.run(words, cwd=folder, stdin=file, capture_output=True, check=False)
    return session.returncode, session.stdout, session.stderr


def wrong_session(program, script):
    """What is wrong with the session of a script from a file."""
    with tempfile.TemporaryDirectory() as folder:
        pathlib.Path(folder, "game.asm").write_text(SOURCE)
        words = [program.file, "debug", "game.asm"]
        of_file, of_pipe = (ran(words, folder, script, is_file) for is_file in (True, False))
    for what, found, expected in zip(("status", "output", "errors"), of_file, of_pipe):
        if found != expected:
            return f"{what}: {str(found)[:80]} and not {str(expected)[:80]}"
    return ""


def wrong_end(program, script):
    """What is wrong with the end of a session whose answers can't be written."""
    with tempfile.TemporaryDirectory() as folder:
        pathlib.Path(folder, "game.asm").write_text(SOURCE)
        found = ran(["sh", "-c", FULL, program.file, "debug", "game.asm"], folder, script, True)
    expected = (3, b"", b"chipbench: output fault\n")
    return "" if found == expected else f"{found} and not {expected}"


def checks(program):
    for name, script in SCRIPTS.items():
        yield name, lambda script=script: wrong_session(program, script)
    for name in ("one answer", "short answers", "an answer longer than what is held back"):
        yield f"{name}, full", lambda script=SCRIPTS[name]: wrong_end(program, script)
