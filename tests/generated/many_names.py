"""A session in which 99,000 names come and go: it takes no more memory than one whose names stay."""
import subprocess

EDITS = 99_000
# The program and its libraries take a half of this, and 99,000 names the threefold.
KIBIBYTES = 8_000
RUN = 'ulimit -v "$1" && exec "$0" debug'


def wrong_session(program):
    """What is wrong with the answers of a session that gives the label of a line one name after another."""
    script = ["ins 1 FIRST: LD V0, 1", "ins 2 JP 512", *(f"rep 1 NAME{edit}: LD V0, 1" for edit in range(EDITS)), "syms"]
    ran = subprocess.run(
        ["sh", "-c", RUN, program.file, str(KIBIBYTES)], input="\n".join([*script, ""]).encode(), capture_output=True, check=False
    )
    expected = ["ok"] * (EDITS + 2) + [f"NAME{EDITS - 1} 512 1", "."]
    lines = ran.stdout.decode().splitlines()
    return "" if lines == expected else f"{lines[-2:]} and not {expected[-2:]}: {ran.stderr.decode()}"


def checks(program):
    yield f"{EDITS} names of one label", lambda: wrong_session(program)
