"""Files to write that aren't what their names or numbers suggest: one on another device that has the inode number of SOURCE, one that has
lost its name, and links that can't be read.

Two new file systems number their files alike. Mounting them takes a namespace of its own; where the system grants none, there is nothing
to try.
"""
import functools
import os
import pathlib
import subprocess
import tempfile

from runner.preload import library

SOURCE = "LD V0, 5\nLOOP: SKP V0\nJP LOOP\nDW #0000\n"
IMAGE = bytes.fromhex("6005e09e12020000")
SCRIPT = b"1 5 down\n2 5 up\n"
# Each command that writes a file, its status, what it writes, and what it says.
COMMANDS = {
    "asm": (["asm", "one/file", "other/file"], 0, IMAGE, ""),
    "explore --keys-to": (["explore", "one/file", "--keys-to", "other/file"], 1, SCRIPT, "chipbench: wrote other/file\n"),
}
# A shell in such a namespace: SOURCE is the first file on one device, and the file to write the first one on the other. What is left
# there is copied out, since both devices go when the shell ends.
MOUNTED = """
mount -t tmpfs one one && mount -t tmpfs other other && cp source one/file && echo before > other/file || exit 77
[ "$(stat -c %i one/file)" = "$(stat -c %i other/file)" ] && [ "$(stat -c %d one/file)" != "$(stat -c %d other/file)" ] || exit 77
[ $# = 0 ] && exit
"$@"
status=$?
cp other/file written
cmp source one/file || exit 78
exit $status
"""
# The library: no link can be read.
LIBRARY = """
#include <errno.h>
#include <unistd.h>

ssize_t readlink(const char *name, char *to, size_t size) {
    errno = EIO;
    return -1;
}
"""


def mounted(words, folder):
    """A run of some words, or of none, in a folder with the two devices."""
    for name in ("one", "other"):
        pathlib.Path(folder, name).mkdir()
    pathlib.Path(folder, "source").write_text(SOURCE)
    command = ["unshare", "--map-root-user", "--mount", "sh", "-c", MOUNTED, "sh", *words]
    return subprocess.run(command, cwd=folder, capture_output=True, check=False)


@functools.cache
def can_mount():
    """Whether two such devices can be mounted."""
    with tempfile.TemporaryDirectory() as folder:
        try:
            return mounted([], folder).returncode == 0
        except OSError:
            return False


def wrong_file_elsewhere(program, command):
    """What is wrong with a file that is written on a device where it has the number of SOURCE."""
    words, status, expected, told = command
    with tempfile.TemporaryDirectory() as folder:
        ran = mounted([program.file, *words], folder)
        if ran.returncode != status or ran.stderr.decode() != told:
            return f"status {ran.returncode} and {ran.stderr}"
        written = pathlib.Path(folder, "written").read_bytes()
        return "" if written == expected else f"{written} and not {expected}"


def wrong_removed_file(program):
    """What is wrong with an image that is written to a file that is open and has no name any more: its link in /proc leads to a name
    that no file has, so it is written in place."""
    with tempfile.TemporaryDirectory() as folder:
        pathlib.Path(folder, "source").write_text(SOURCE)
        with open(pathlib.Path(folder, "image"), "w+b") as file:
            file.write(b"before" * 9)
            file.flush()
            os.unlink(file.name)
            words = [program.file, "asm", "source", f"/proc/self/fd/{file.fileno()}"]
            ran = subprocess.run(words, cwd=folder, capture_output=True, pass_fds=[file.fileno()], check=False)
            file.seek(0)
            found = (ran.returncode, ran.stderr, file.read(), os.listdir(folder))
        expected = (0, b"", IMAGE, ["source"])
        return "" if found == expected else f"{found} and not {expected}"


def wrong_unread_link(program, is_there):
    """What is wrong with an image whose name is a link that can't be read. The link stays a link, and what it leads to as it was."""
    made = library(LIBRARY)
    with tempfile.TemporaryDirectory() as folder:
        pathlib.Path(folder, "source").write_text(SOURCE)
        image, link = pathlib.Path(folder, "image"), pathlib.Path(folder, "link")
        if is_there:
            image.write_bytes(b"before")
        link.symlink_to("image")
        words = [program.file, "asm", "source", "link"]
        ran = subprocess.run(words, cwd=folder, capture_output=True, env={**os.environ, "LD_PRELOAD": str(made[0])}, check=False)
        if ran.returncode != 3 or not ran.stderr.startswith(b"chipbench: cannot write link\nreason: "):
            return f"status {ran.returncode} and {ran.stderr}"
        if not link.is_symlink() or is_there != image.exists() or is_there and image.read_bytes() != b"before":
            return "the link or what it leads to has changed"
        left = sorted(os.listdir(folder))
        return "" if left == sorted(["link", "source", *(["image"] if is_there else [])]) else f"the files {left} are left"


def checks(program):
    if can_mount():
        for name, command in COMMANDS.items():
            yield f"{name}, a file with the number of SOURCE on another device", lambda command=command: wrong_file_elsewhere(program, command)
    if os.path.isdir("/proc/self/fd"):
        yield "a file without a name", lambda: wrong_removed_file(program)
    if library(LIBRARY):
        for what, is_there in (("a new file", False), ("a file that is there", True)):
            yield f"a link that can't be read, {what}", lambda is_there=is_there: wrong_unread_link(program, is_there)
