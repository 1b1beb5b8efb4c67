"""The errors of this module. Each is a `ChipbenchError`."""

from __future__ import annotations


class ChipbenchError(Exception):
    """The base of all errors of this module."""


class WrongType(ChipbenchError, TypeError):
    """An argument has a wrong type. The text names the argument."""


class WrongValue(ChipbenchError, ValueError):
    """An argument has a wrong value. The text names the argument."""


class Refused(ChipbenchError):
    """The program refused a command, or the source doesn't open.

    >>> with Bench("CLS") as bench:
    ...     bench.delete(2)
    Traceback (most recent call last):
    ...
    chipbench.Refused: N1: no such line
    """

    def __init__(self, code: str, sentence: str = "") -> None:
        super().__init__(f"{code}: {sentence}" if sentence else code)
        self.code = code
        self.sentence = sentence


class Ended(ChipbenchError):
    """The program ended, or was ended, before it gave all answers. A negative status is a signal."""

    def __init__(self, status: int, text: str, answers: list[bytes]) -> None:
        super().__init__(text or f"the program ended with status {status}")
        self.status = status
        self.text = text
        self.answers = answers


class TooMuch(ChipbenchError):
    """The answers to one exchange are over their bound. The program can't be used any more."""


class Stale(ChipbenchError):
    """A part of a state was read for the first time after the source or the key events had changed."""
