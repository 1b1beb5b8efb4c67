"""Standard output that fails once, at each write in turn, and would take all later ones: nothing is written after the failure.

The script comes from a file, where answers are held back, and over a pipe. A small library that a C compiler makes here
hands each write on, and has one fail. Without a compiler a pipe that is full makes a write fail: it is emptied while the
program waits to say so on standard error.
"""
import array
import errno
import fcntl
import os
import pathlib
import subprocess
import tempfile
import termios
import time

from runner.preload import library
from runner.programs import HANG_SECONDS, limited

SOURCE = "".join(f"L{n}: JP L{n}  ; a line of the source\n" for n in range(1700))
FEW = "image\nregs 1\nfoo\ndel 9999\nregs 2\n"
# Over 65,536 bytes of answers, the most that are held back.
MANY = "rep 7 LD V1, 5\nimage\n" * 20
# What each run is: the words after the program's name, and its script.
RUNS = {
    "short answers": (["debug", "game.asm"], FEW),
    "long answers": (["debug", "game.asm"], MANY),
    "a trace": (["trace", "game.asm", "--steps", "3000"], ""),
    "a listing": (["list", "game.asm"], ""),
}
# A full disk, and a signal.
ERRORS = ("ENOSPC", "EINTR")
OUTPUT_FAULT = b"chipbench: output fault\n"
PIPE_BYTES = 4096
# how often in a row a program is seen to wait that waits for good: a write that doesn't fit leaves the pipe short of full
CALM_LOOKS = 50
# The library: the write to standard output of the number FAILS fails with the error ERROR, and a later one makes the file
# AFTER.
LIBRARY = """
#define _GNU_SOURCE
#include <dlfcn.h>
#include <errno.h>
#include <fcntl.h>
#include <stdlib.h>
#include <unistd.h>

static long calls;

ssize_t write(int file, const void *bytes, size_t count) {
    ssize_t (*next)(int, const void *, size_t) = (ssize_t (*)(int, const void *, size_t))dlsym(RTLD_NEXT, "write");
    long fails = atol(getenv("FAILS"));
    if (file == 1 && ++calls == fails) {
        errno = atoi(getenv("ERROR"));
        return -1;
    }
    if (file == 1 && calls > fails)
        close(open(getenv("AFTER"), O_CREAT | O_WRONLY, 0600));
    return next(file, bytes, count);
}
"""


def ran(program, words, folder, script, is_file, environment):
    """The status, the output and the errors of a run whose script is a file or comes over a pipe."""
    command = [program.file, *words]
    if not is_file:
        done = limited(command, script.encode(), cwd=folder, env=environment)
    else:
        given = pathlib.Path(folder, "script")
        given.write_text(script)
        with open(given, "rb") as file:
            done = limited(command, file, cwd=folder, env=environment)
    return done.status, done.stdout, done.stderr


def wrong_failure(found, whole):
    """What is wrong with a run of which one write failed."""
    status, output, errors = found
    if (status, errors) != (3, OUTPUT_FAULT):
        return f"status {status} and {errors}"
    return "" if whole.startswith(output) and output != whole else "the output is no front of the answers"


def wrong_writes(program, words, script, is_file, error):
    """What is wrong where one write fails, at each one in turn."""
    with tempfile.TemporaryDirectory() as folder:
        pathlib.Path(folder, "game.asm").write_text(SOURCE)
        _, whole, _ = ran(program, words, folder, script, is_file, None)
        after = pathlib.Path(folder, "after")
        for number in range(1, 1000):
            environment = {
                **os.environ,
                "LD_PRELOAD": str(library(LIBRARY)[0]),
                "FAILS": str(number),
                "ERROR": str(getattr(errno, error)),
                "AFTER": str(after),
            }
            found = ran(program, words, folder, script, is_file, environment)
            if after.exists():
                return f"something was written after write {number} failed"
            if found == (0, whole, b""):
                return "" if number > 1 else "no write was seen"
            wrong = wrong_failure(found, whole)
            if wrong:
                return f"write {number}: {wrong}"
    return "the writes have no end"


def is_asleep(process):
    """Whether the process waits for the system."""
    state = pathlib.Path(f"/proc/{process}/stat").read_text(encoding="utf-8").rpartition(")")[2].split()[0]
    return state == "S"


def waiting(pipe):
    """How many bytes can be read from a pipe."""
    count = array.array("i", [0])
    fcntl.ioctl(pipe, termios.FIONREAD, count)
    return count[0]


def full_pipe(is_full):
    """The two ends of a pipe of PIPE_BYTES, filled with them or empty."""
    reading, writing = os.pipe()
    fcntl.fcntl(writing, fcntl.F_SETPIPE_SZ, PIPE_BYTES)
    if is_full:
        os.write(writing, b"." * PIPE_BYTES)
    return reading, writing


def all_of(pipe):
    """What comes from a pipe up to its end."""
    with open(pipe, "rb") as file:
        return file.read()


def wrong_end(program, script, is_file):
    """What is wrong where the output is a pipe that is full, and empty again once the program wants to say so."""
    out, to_out = full_pipe(False)
    errors, to_errors = full_pipe(True)
    os.set_blocking(to_out, False)
    with tempfile.TemporaryDirectory() as folder:
        pathlib.Path(folder, "game.asm").write_text(SOURCE)
        pathlib.Path(folder, "script").write_text(script)
        with open(pathlib.Path(folder, "script"), "rb") as file:
            given = file if is_file else subprocess.PIPE
            with subprocess.Popen(
                [program.file, "debug", "game.asm"], cwd=folder, stdin=given, stdout=to_out, stderr=to_errors
            ) as running:
                os.close(to_out)
                os.close(to_errors)
                if not is_file:
                    running.stdin.write(script.encode())
                    running.stdin.close()
                until = time.monotonic() + HANG_SECONDS
                calm = 0
                while calm < CALM_LOOKS and time.monotonic() < until:
                    calm = calm + 1 if waiting(out) > 0 and is_asleep(running.pid) else 0
                    time.sleep(0.004)
                front = os.read(out, PIPE_BYTES)
                told = all_of(errors)
                after = all_of(out)
    if (running.returncode, told) != (3, b"." * PIPE_BYTES + OUTPUT_FAULT):
        return f"status {running.returncode} and {told[PIPE_BYTES:]}"
    return f"{len(after)} bytes were written after the failure, behind {len(front)}" if after else ""


def checks(program):
    for is_file, what in ((True, "from a file"), (False, "over a pipe")):
        yield f"a full pipe, {what}", lambda is_file=is_file: wrong_end(program, MANY, is_file)
        if not library(LIBRARY):
            continue
        for name, (words, script) in RUNS.items():
            for error in ERRORS:
                yield f"{name}, {what}, {error}", lambda words=words, script=script, is_file=is_file, error=error: (
                    wrong_writes(program, words, script, is_file, error)
                )
