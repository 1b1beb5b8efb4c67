"""The program for the tests, and where things stand."""

from __future__ import annotations

import functools
import os
import sys
import unittest
from pathlib import Path

TESTS = Path(__file__).resolve().parent
PYTHON = TESTS.parent
TOP = PYTHON.parents[1]
EXAMPLES = TOP / "examples"
sys.path.insert(0, str(PYTHON))

import chipbench  # noqa: E402


@functools.cache
def program() -> str | None:
    """The program of $CHIPBENCH, or the built one of this folder."""
    named = os.environ.get("CHIPBENCH")
    built = TOP / "crates/chipbench/out/chipbench"
    return named or (str(built) if built.is_file() else None)


@functools.cache
def has_words() -> bool:
    """Whether the program has `check`, `dis` and `explain` too."""
    found = program()
    return found is not None and bool(chipbench.sentences(found))


class NeedsProgram(unittest.TestCase):
    """Tests that are skipped where no program is built."""

    program: str

    def setUp(self) -> None:
        found = program()
        if found is None:
            self.skipTest("no program is built")
        self.program = found


class NeedsWords(NeedsProgram):
    """Tests that are skipped where the program has `debug` alone."""

    def setUp(self) -> None:
        super().setUp()
        if not has_words():
            self.skipTest("the program has no check, dis and explain")
