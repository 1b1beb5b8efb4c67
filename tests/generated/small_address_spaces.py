"""Under a limit of the address space a command ends as it should or with status 4, and never by a signal.

The limits go up in small steps, from the first under which the system loads the program. A stack that can't grow would end it by a signal.
"""
import pathlib
import subprocess
import tempfile

FIRST, STEP, LIMITS = 2_000, 4, 160
UNLOADED = 127
LIMITED = 'ulimit -v "$1" && shift && exec "$0" "$@"'
SOURCE = b";! can V1 = 0\n;! never V1 = 3\nLOOP: LD V0, K\nADD V1, 1\nSE V0, 3\nSTOP: JP STOP\nJP LOOP\n"
# The words of each command, and its status where there is memory enough.
COMMANDS = {
    "prove": (["prove", "game.asm"], 1),
    "explore": (["explore", "game.asm", "--want", "S2", "--no-facts"], 0),
    "explore --deep": (["explore", "game.asm", "--reach", "STOP", "--states", "3", "--deep", "--no-facts"], 1),
    "check --cover": (["check", "--cover", "game.asm"], 0),
    "run": (["run", "game.asm", "--steps", "9"], 0),
    "licences": (["licences"], 0),
}


def status_under(program, words, kibibytes, folder):
    """The status of a run under a limit, negative where a signal ended it, and its standard error."""
    ran = subprocess.run(
        ["sh", "-c", LIMITED, program.file, str(kibibytes), *words],
        cwd=folder,
        stdin=subprocess.DEVNULL,
        capture_output=True,
        check=False,
    )
    return ran.returncode, ran.stderr.decode()


def first_limit(program, folder):
    """The first limit under which the system loads the program."""
    limit = FIRST
    while status_under(program, ["--version"], limit, folder)[0] in (UNLOADED, UNLOADED - 1):
        limit += STEP
    return limit


def wrong_end(program, words, status):
    """How a command ends that shouldn't end so."""
    with tempfile.TemporaryDirectory() as folder:
        pathlib.Path(folder, "game.asm").write_bytes(SOURCE)
        first = first_limit(program, folder)
        for limit in range(first, first + LIMITS * STEP, STEP):
            found, told = status_under(program, words, limit, folder)
            if found != status and (found, told) != (4, "chipbench: out of memory\n"):
                return f"status {found} under {limit} KiB: {told}"
        found, told = status_under(program, words, 100_000, folder)
        return "" if found == status else f"status {found} with memory enough: {told}"


def checks(program):
    for name, (words, status) in COMMANDS.items():
        yield name, lambda words=words, status=status: wrong_end(program, words, status)
