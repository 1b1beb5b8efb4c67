"""Files that may not grow: a command that can't write a file says so, and leaves the file as it was and no other.

The system ends a program that writes past the limit on the size of files, where the program doesn't ignore the signal
XFSZ. `./chipbench` ignores it, and so do these runs.
"""
import pathlib
import subprocess
import tempfile

LIMITED = "trap '' XFSZ; ulimit -f 0; exec \"$0\" \"$@\""
SOURCE = b"LD F, V0\nDRW V0, V0, 5\nEXIT\n"
BEFORE = b"what was there before"
# Each command that writes files, and the file that it can't write.
COMMANDS = {
    "asm": (["asm", "spot.asm", "spot"], "spot"),
    "picture --pbm": (["picture", "spot.asm", "--steps", "3", "--pbm", "spot"], "spot"),
    "picture --png": (["picture", "spot.asm", "--steps", "3", "--png", "spot"], "spot"),
    "picture --pbm --png": (["picture", "spot.asm", "--steps", "3", "--pbm", "spot", "--png", "other"], "spot"),
}


def files_of(folder):
    """The files of a folder, by name."""
    return {path.name: path.read_bytes() for path in pathlib.Path(folder).iterdir()}


def wrong_run(program, words, name, is_there):
    """What is wrong with a run that can't write a file, which is there before or isn't."""
    with tempfile.TemporaryDirectory(prefix="chipbench-limited-") as folder:
        pathlib.Path(folder, "spot.asm").write_bytes(SOURCE)
        if is_there:
            pathlib.Path(folder, name).write_bytes(BEFORE)
        before = files_of(folder)
        ran = subprocess.run(["sh", "-c", LIMITED, program.file, *words], cwd=folder, capture_output=True, check=False)
        expected = f"chipbench: cannot write {name}\nreason: "
        if ran.returncode != 3 or ran.stdout or not ran.stderr.decode().startswith(expected):
            return f"status {ran.returncode}, standard output {ran.stdout}, standard error {ran.stderr}"
        after = files_of(folder)
        return "" if after == before else f"the files are {after} and not {before}"


def checks(program):
    for name, (words, file) in COMMANDS.items():
        for what, is_there in (("a new file", False), ("a file that is there", True)):
            yield f"{name}, {what}", lambda words=words, file=file, is_there=is_there: wrong_run(program, words, file, is_there)
