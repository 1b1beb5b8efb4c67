"""Files on another device than SOURCE: each is written whole, also through a link, and no other file is left there.

The other device is /dev/shm. Where it is none, or can't be written to, there is nothing to try.
"""
import os
import pathlib
import tempfile

OTHER = "/dev/shm"
SOURCE = "LD V0, 5\nLOOP: SKP V0\nJP LOOP\nDW #0000\n"
IMAGE = bytes.fromhex("6005e09e12020000")
SCRIPT = b"1 5 down\n2 5 up\n"
# Each command that writes a file, without the file's name: its words, its status, what it writes, and what it says of a file of a name.
COMMANDS = {
    "asm": (["asm", "source"], 0, IMAGE, ""),
    "explore --keys-to": (["explore", "source", "--keys-to"], 1, SCRIPT, "chipbench: wrote {}\n"),
}


def wrong_file(program, command, is_link, before):
    """What is wrong with a file that is written on the other device."""
    words, status, bytes_written, told = command
    with tempfile.TemporaryDirectory() as folder, tempfile.TemporaryDirectory(dir=OTHER) as other:
        pathlib.Path(folder, "source").write_text(SOURCE)
        made = pathlib.Path(other, "made")
        if before is not None:
            made.write_bytes(before)
        name = str(made)
        if is_link:
            name = "link"
            os.symlink(made, pathlib.Path(folder, name))
        ran = program.run([*words, name], b"", folder)
        if ran.status != status or ran.stderr.decode() != told.format(name):
            return f"status {ran.status} and {ran.stderr}"
        if made.read_bytes() != bytes_written:
            return f"{made.read_bytes()} and not {bytes_written}"
        left = sorted(os.listdir(other))
        return "" if left == ["made"] else f"the files {left} are left"


def is_other():
    """Whether there is another device, which can be written to."""
    return os.access(OTHER, os.W_OK) and os.stat(OTHER).st_dev != os.stat(tempfile.gettempdir()).st_dev


def checks(program):
    if not is_other():
        return
    for name, command in COMMANDS.items():
        for what, before in (("a new file", None), ("a file that is there", b"before" * 9)):
            for how, is_link in (("by its name", False), ("by a link", True)):
                yield f"{name}, {what}, {how}", lambda command=command, is_link=is_link, before=before: (
                    wrong_file(program, command, is_link, before)
                )
