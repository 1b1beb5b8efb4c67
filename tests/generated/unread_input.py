"""Standard input that a command doesn't need stays unread: the next program reads it from its first byte."""
import pathlib
import subprocess
import tempfile

# The command's own output goes nowhere, and what it left of the input is printed.
THEN_THE_REST = '"$0" "$@" >/dev/null; status=$?; cat; exit $status'
INPUT = b"LD V1, 7\nimage\n" * 400
COMMANDS = {
    "asm": ["asm", "a.asm", "image"],
    "list": ["list", "a.asm"],
    "list --image": ["list", "--image", "a.ch8"],
    "syms": ["syms", "a.asm"],
    "check": ["check", "a.asm"],
    "run": ["run", "a.asm", "--steps", "3"],
    "picture": ["picture", "a.asm", "--steps", "3", "--keys", "keys"],
    "dis": ["dis", "a.ch8"],
    "explore": ["explore", "a.asm", "--want", "S1"],
    "explain": ["explain"],
    "explain S3": ["explain", "S3"],
    "licences": ["licences"],
    "--help": ["--help"],
    "help run": ["help", "run"],
    "debug --help": ["debug", "--help"],
    "--version": ["--version"],
}


def wrong_rest(program, words):
    """What is wrong with what a command leaves."""
    with tempfile.TemporaryDirectory() as folder:
        pathlib.Path(folder, "a.asm").write_text("LD V0, 5\n")
        pathlib.Path(folder, "a.ch8").write_bytes(b"\x60\x05")
        pathlib.Path(folder, "keys").write_text("1 5 down\n")
        pathlib.Path(folder, "input").write_bytes(INPUT)
        with open(pathlib.Path(folder, "input"), "rb") as given:
            ran = subprocess.run(
                ["sh", "-c", THEN_THE_REST, program.file, *words], cwd=folder, stdin=given, capture_output=True, check=False
            )
    if ran.returncode != 0:
        return f"status {ran.returncode}: {ran.stderr.decode()}"
    return "" if ran.stdout == INPUT else f"{len(INPUT) - len(ran.stdout)} of {len(INPUT)} bytes were read"


def checks(program):
    for name, words in COMMANDS.items():
        yield name, lambda words=words: wrong_rest(program, words)
