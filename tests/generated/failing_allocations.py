"""`check --cover` where one allocation fails, each in turn: what it prints with enough memory, or that memory ran out.

A small library that a C compiler makes here has an allocation fail; without a compiler there is nothing to try.
"""
import os
import pathlib
import tempfile

from runner.preload import library
from runner.programs import limited

SOURCES = {
    "a loop": "LD V0, 1\nLOOP: SE V0, 0\nJP LOOP\nCLS\nSTOP: JP STOP\n",
    "keys": "LOOP: SKP V0\nJP LOOP\nMORE: LD V1, K\nSE V1, 4\nJP MORE\nLD V1, K\nSE V1, 6\nJP MORE\nCLS\nSTOP: JP STOP\n",
}
NO_MEMORY = b"chipbench: out of memory\n"
# The library: the allocation of the number FAILS fails.
LIBRARY = """
#define _GNU_SOURCE
#include <dlfcn.h>
#include <stdlib.h>

static long calls;

static int is_failing(void) {
    const char *fails = getenv("FAILS");
    return fails && ++calls == atol(fails);
}

void *malloc(size_t size) {
    static void *(*next)(size_t);
    if (!next)
        next = (void *(*)(size_t))dlsym(RTLD_NEXT, "malloc");
    return is_failing() ? NULL : next(size);
}

void *realloc(void *old, size_t size) {
    static void *(*next)(void *, size_t);
    if (!next)
        next = (void *(*)(void *, size_t))dlsym(RTLD_NEXT, "realloc");
    return is_failing() ? NULL : next(old, size);
}
"""


def ran(program, folder, environment):
    """The status, the output and the errors of a check."""
    command = [program.file, "check", "--cover", "source"]
    done = limited(command, cwd=folder, env=environment)
    return done.status, done.stdout, done.stderr


def wrong_check(program, source):
    """What is wrong with the checks of a source in which one allocation fails."""
    with tempfile.TemporaryDirectory() as folder:
        pathlib.Path(folder, "source").write_text(source)
        whole = ran(program, folder, None)
        failed = 0
        for number in range(1, 100_000):
            environment = {**os.environ, "LD_PRELOAD": str(library(LIBRARY)[0]), "FAILS": str(number)}
            found = ran(program, folder, environment)
            if found == (4, b"", NO_MEMORY):
                failed = number
            elif found != whole:
                return f"allocation {number}: {found} and not {whole}"
            # The last allocations that can fail are those for what is printed.
            elif number > failed + 50:
                return "" if failed > 0 else "no allocation failed"
    return "the allocations have no end"


def checks(program):
    if library(LIBRARY):
        for name, source in SOURCES.items():
            yield name, lambda source=source: wrong_check(program, source)
