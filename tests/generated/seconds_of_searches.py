"""Searches with `--seconds 1`: each goes on for a second, and then ends and says so.

No machine is fast enough to finish one of them in a second. A search that doesn't heed the time ends later by another bound, and says that.
The clock gives only a lower bound, so a busy machine changes no answer.
"""
import json
import pathlib
import re
import tempfile
import time

# Each key that is pressed is kept in memory, and some 16 to the power of 255 states follow. Line 9 is never executed by then.
KEPT = ";! never at LAST\nLD V1, 1\nLD I, #300\nLOOP: LD V0, K\nLD [I], V0\nADD I, V1\nSE V1, 0\nJP LOOP\nLAST: CLS\n"
# A round takes 3 * 20 steps and more, and there is one state for each of 256 * 256 * 256 rounds. A million of them take 60,000,000 steps.
SLOW = (
    "LOOP: SKP V4\nLD V5, 0\nLD V6, 20\nWAIT: ADD V6, 255\nSE V6, 0\nJP WAIT\nADD V1, 1\nSE V1, 0\nJP LOOP\nADD V2, 1\nSE V2, 0\nJP LOOP\n"
    "ADD V3, 1\nSE V3, 0\nJP LOOP\nCLS\nHERE: JP HERE\n"
)
MOST_STATES, LEAST_STEPS = 1_000_000, 60
BOUNDS = ["--states=100000000", "--memory=400", "--no-facts", "--seconds=1"]


def timed(program, words, source):
    """A run, and how many seconds it took by the clock."""
    with tempfile.TemporaryDirectory() as folder:
        pathlib.Path(folder, "source").write_text(source)
        start = time.monotonic()
        ran = program.run(words, b"", folder)
        return ran, time.monotonic() - start


def wrong_end(program, words, source, wrong):
    """What is wrong with the end of a search, where `wrong` tells what is wrong with its output and its messages."""
    ran, seconds = timed(program, words, source)
    told = wrong(ran.status, ran.stdout.decode(), ran.stderr.decode())
    if told:
        return f"{told}: status {ran.status}, {ran.stdout} and {ran.stderr}"
    return "" if seconds >= 1 else f"it took {seconds} seconds"


def wrong_answer(pattern):
    """What tells what is wrong with an output that has to match a pattern, of a search that says that it is out of time."""
    return lambda status, output, errors: (
        "" if status == 0 and re.fullmatch(pattern, output) and errors == "chipbench: out of time\n" else "it doesn't say how it ended"
    )


def wrong_object(status, output, _errors):
    lines = [json.loads(line) for line in output.splitlines()]
    return "" if status == 0 and len(lines) == 2 and lines[1].get("ended_by") == "seconds" else "the object doesn't say how it ended"


def wrong_warning(status, output, _errors):
    step = re.match(r"source:\d+:\d+: W8: no key script executes this up to step (\d+)\n", output)
    return "" if status == 0 and step and 0 < int(step.group(1)) < MOST_STATES * LEAST_STEPS else "the warning names no step below the last"


def checks(program):
    for name, words, source, wrong in (
        ("explore", ["explore", "source", "--reach=LAST", *BOUNDS], KEPT, wrong_answer(r"within \d+\nstates \d+\n")),
        ("prove", ["prove", "source", *BOUNDS], KEPT, wrong_answer(r"source:1: unbroken up to step \d+: never at LAST\nstates \d+\n")),
        ("prove --json", ["prove", "source", "--json", *BOUNDS], KEPT, wrong_object),
        ("check --cover", ["check", "source", "--cover", "--seconds=1"], SLOW, wrong_warning),
    ):
        yield f"{name} ends after a second", lambda words=words, source=source, wrong=wrong: wrong_end(program, words, source, wrong)
