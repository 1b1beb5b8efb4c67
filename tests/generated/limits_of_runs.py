"""The runner itself: a run is ended by the processor time that it takes and not by the clock, and of a report failures alone are shown."""
import pathlib
import subprocess
import sys
import tempfile

from runner import failed
from runner.programs import TookTooLong, limited

# What node prints of a file with two tests, of which one fails, and of a group that fails only because a test in it does.
REPORT = """TAP version 13
# noise
# Subtest: good
ok 1 - good
  ---
  duration_ms: 1.5
  ...
# Subtest: bad
not ok 2 - bad
  ---
  failureType: 'testCodeFailure'
  error: '1 == 2'
  ...
# Subtest: group
    # Subtest: inner
    not ok 1 - inner
      ---
      failureType: 'testCodeFailure'
      ...
    1..1
not ok 3 - group
  ---
  failureType: 'subtestsFailed'
  ...
1..3
# fail 3
"""
SHOWN = """not ok 2 - bad
  ---
  failureType: 'testCodeFailure'
  error: '1 == 2'
  ...
    not ok 1 - inner
      ---
      failureType: 'testCodeFailure'
      ...
"""
RULE = 70 * "="
# Reports, and what is shown of each.
REPORTS = {
    "failures of node's tests": (REPORT, SHOWN),
    "failures of Python's tests": (f"noise\n..F\n{RULE}\nFAIL: test_it\n{RULE}\nmore\n", f"{RULE}\nFAIL: test_it\n{RULE}\nmore\n"),
    "any other file": ("noise\nmore\n", "noise\nmore\n"),
}


def wrong_end_of_busy_run():
    """What is wrong where a run takes more processor time than it may."""
    try:
        ran = limited([sys.executable, "-c", "while True: pass"], seconds=1)
    except TookTooLong:
        return ""
    return f"it ended by itself: {ran}"


def wrong_end_of_waiting_run():
    """What is wrong where a run takes more time by the clock than it may take of a processor."""
    ran = limited([sys.executable, "-c", "import time; time.sleep(2.5); print(input())"], b"end\n", seconds=1)
    return "" if (ran.status, ran.stdout) == (0, b"end\n") else f"it gives {ran}"


def wrong_report(report, shown):
    """What is wrong with what is shown of a report."""
    with tempfile.TemporaryDirectory() as folder:
        file = pathlib.Path(folder, "report")
        file.write_text(report, encoding="utf-8")
        found = subprocess.run([sys.executable, "-B", failed.__file__, file], capture_output=True, text=True, check=False).stdout
    return "" if found == shown else f"it shows {found!r}"


def checks(_program):
    yield "a busy run is ended", wrong_end_of_busy_run
    yield "a run that waits isn't", wrong_end_of_waiting_run
    for name, (report, shown) in REPORTS.items():
        yield name, lambda report=report, shown=shown: wrong_report(report, shown)
