#!/usr/bin/env python3
"""Prints the failures of a report of tests, and nothing of the tests that passed.

    tests/runner/failed.py FILE     FILE has what `node --test --test-reporter=tap` printed, or Python's unittest

A group of tests that failed only because a test in it did isn't printed. Any other file is printed whole.
"""
import re
import sys

FAILED = re.compile(r"^( *)not ok \d+ - ")
RULE = re.compile(r"^={70}$")


def failures(lines):
    """The lines of each test that failed, up to the end of what is told of it."""
    found = []
    for place, line in enumerate(lines):
        failed = FAILED.match(line)
        if not failed:
            continue
        end = next((at for at in range(place, len(lines)) if lines[at] == f"{failed.group(1)}  ..."), place)
        block = lines[place : end + 1]
        if not any("failureType: 'subtestsFailed'" in each for each in block):
            found += (said(lines[:place]) if any(" exitCode: " in each for each in block) else []) + block
    return found


def said(lines):
    """What a file that couldn't be run said: the comments at the end of the lines before its failure."""
    silent = (at for at in range(len(lines), 0, -1) if not lines[at - 1].startswith("#"))
    return lines[next(silent, 0) :]


def below_rule(lines):
    """What unittest tells of failures: all from its first line of `=` on."""
    start = next((place for place, line in enumerate(lines) if RULE.match(line)), len(lines))
    return lines[start:]


def main(file):
    with open(file, encoding="utf-8", errors="backslashreplace") as report:
        lines = report.read().splitlines()
    print("\n".join(failures(lines) or below_rule(lines) or lines))


if __name__ == "__main__":
    main(sys.argv[1])
