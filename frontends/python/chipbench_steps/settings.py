"""What the files are of: the program, its machine, and the random bytes."""

from __future__ import annotations

import random
from dataclasses import dataclass
from typing import Any

from chipbench import Bench

# the version of the files, which each of them names; it changes where a reader of the files has to
FORMAT = 1


def tape_of(seed: int) -> bytes:
    """A tape on which each byte stands once."""
    values = list(range(256))
    random.Random(f"{seed} tape").shuffle(values)
    return bytes(values)


@dataclass(frozen=True)
class Settings:
    """The program and its profile, the quirks in which the machine differs from it, and the seed of all that is random."""

    program: str
    profile: str
    quirks: str = ""
    seed: int = 0

    @property
    def machine(self) -> str:
        """The name of the machine that each case and program has, such as `vip` or `vip,shift=vx`."""
        return ",".join(filter(None, (self.profile, self.quirks)))

    @property
    def marks(self) -> dict[str, Any]:
        """What each case and program says of itself."""
        return {"format": FORMAT, "profile": self.machine}

    def options(self) -> dict[str, Any]:
        """The options of a `Bench` with the machine."""
        return {"program": self.program, "profile": self.profile, "quirks": self.quirks or None}

    def arguments(self) -> list[str]:
        """The options of a command with the machine."""
        return ["--profile", self.profile, *(["--quirks", self.quirks] if self.quirks else [])]

    def has_super(self) -> bool:
        """Whether the machine has the instructions of SUPER-CHIP: HIGH stops one that lacks them."""
        with Bench("HIGH", **self.options()) as bench:
            return bench.at(1).stopped is None
