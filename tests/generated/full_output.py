"""Each command where standard output is full, as /dev/full is: status 3. Where it takes the answer, the status is 0."""
import pathlib
import subprocess
import tempfile

FULL = 'exec "$0" "$@" >/dev/full'
GOOD, FAULTY = "LD F, V0\nDRW V0, V0, 5\nEXIT\n", "LD V0, NONE\n"
SCRIPT = b"faults\n"
# Each command that prints something, its words, and its status where the output takes it.
COMMANDS = {
    "without arguments": ([], 0),
    "debug": (["debug", "good.asm"], 0),
    "list": (["list", "good.asm"], 0),
    "list --hex": (["list", "good.asm", "--hex"], 0),
    "list --image": (["list", "image", "--image"], 0),
    "syms": (["syms", "good.asm"], 0),
    "syms --hex": (["syms", "good.asm", "--hex"], 0),
    "run": (["run", "good.asm", "--steps", "3"], 0),
    "picture": (["picture", "good.asm", "--steps", "3"], 0),
    "dis": (["dis", "image"], 0),
    "explore": (["explore", "good.asm"], 0),
    "explain": (["explain"], 0),
    "explain F9": (["explain", "F9"], 0),
    "licences": (["licences"], 0),
    "--help": (["--help"], 0),
    "run --help": (["run", "--help"], 0),
    "--version": (["--version"], 0),
    "asm with a fault": (["asm", "faulty.asm", "none"], 1),
    "list with a fault": (["list", "faulty.asm"], 1),
    "syms with a fault": (["syms", "faulty.asm"], 1),
    "check with a fault": (["check", "faulty.asm"], 1),
    "run with a fault": (["run", "faulty.asm", "--steps", "3"], 1),
    "picture with a fault": (["picture", "faulty.asm", "--steps", "3"], 1),
    "explore with a fault": (["explore", "faulty.asm"], 1),
}
# The commands that print nothing: a full output doesn't matter.
SILENT = {
    "asm": ["asm", "good.asm", "made"],
    "check": ["check", "good.asm"],
    "picture --png": ["picture", "good.asm", "--steps", "3", "--png", "made"],
}


def ran_in_folder(command):
    """A run of a command in a folder with the sources and an image."""
    with tempfile.TemporaryDirectory() as folder:
        pathlib.Path(folder, "good.asm").write_text(GOOD)
        pathlib.Path(folder, "faulty.asm").write_text(FAULTY)
        pathlib.Path(folder, "image").write_bytes(b"\x60\x05")
        return subprocess.run(command, cwd=folder, input=SCRIPT, capture_output=True, check=False)


def wrong_end(command, status, errors):
    """What is wrong with the end of a run."""
    ran = ran_in_folder(command)
    found = (ran.returncode, ran.stderr.decode())
    return "" if found == (status, errors) else f"{found} and not {(status, errors)}"


def checks(program):
    for name, (words, status) in COMMANDS.items():
        full = ["sh", "-c", FULL, program.file, *words]
        yield f"{name}, full", lambda full=full: wrong_end(full, 3, "chipbench: output fault\n")
        taken = [program.file, *words]
        yield f"{name}, taken", lambda taken=taken, status=status: wrong_end(taken, status, "")
    for name, words in SILENT.items():
        full = ["sh", "-c", FULL, program.file, *words]
        yield f"{name}, silent", lambda full=full: wrong_end(full, 0, "")
