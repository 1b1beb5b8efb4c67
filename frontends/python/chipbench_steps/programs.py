"""Whole programs at random, with key events, and what the program's trace says at some of their steps."""

from __future__ import annotations

import json
import random
from pathlib import Path
from typing import Any

from chipbench import Ended, run_once

from .blocks import RUNS_ON, STOPS, WAITS, Writer
from .settings import Settings
from .writing import progress, replace

STEPS = 2000
# a state is kept each so many steps, and the last one
EACH = 100
FOLDER, NAME = "programs", "programs"
# the kinds of programs, which come in turns
KINDS = (RUNS_ON, WAITS, *STOPS, RUNS_ON)


def key_events(rng: random.Random, apart: int) -> list[tuple[int, int, bool]]:
    """Keys that go down, each about `apart` steps after the one before, and up again. Some are down at once."""
    events: dict[tuple[int, int], bool] = {}
    step = 0
    while step < STEPS:
        for key in rng.sample(range(16), rng.choice((1, 1, 2))):
            events.setdefault((step, key), True)
            events.setdefault((step + rng.randrange(1, 40), key), False)
        step += rng.randrange(apart // 2, 2 * apart)
    return [(step, key, is_down) for (step, key), is_down in sorted(events.items())]


def program(number: int, settings: Settings, has_super: bool) -> dict[str, Any]:
    """Program `number`, counted from 1, without its states."""
    rng, kind = random.Random(f"{settings.seed} program {number}"), KINDS[(number - 1) % len(KINDS)]
    return {
        **settings.marks,
        "name": f"program {number}",
        "about": f"ends with {kind}" if kind in STOPS else kind,
        "image": Writer(rng, has_super, kind).image.hex(),
        "keys": key_events(rng, 60 if kind == WAITS else 15),
        # with a tick in each step it shows whether a stopped machine ticks
        "rate": 1 if kind in STOPS else rng.randrange(2, 30),
        # short, so that it comes to its end and begins again
        "tape": rng.randbytes(rng.randrange(2, 8)).hex(),
    }


def make_programs(folder: Path, settings: Settings, count: int) -> list[dict[str, Any]]:
    """Writes images and key events of programs, and gives the programs with their states."""
    has_super, records = settings.has_super(), []
    if count:
        (folder / FOLDER).mkdir(exist_ok=True)
    for number in range(1, count + 1):
        progress(f"program {number}")
        record = program(number, settings, has_super)
        place = folder / FOLDER / f"{number}.ch8"
        replace(place, bytes.fromhex(record["image"]))
        events = (f"{step} {key} {'down' if is_down else 'up'}\n" for step, key, is_down in record["keys"])
        replace(place.with_suffix(".keys"), "".join(events))
        options = ["--image", "--steps", str(STEPS), "--rate", str(record["rate"]), "--tape", record["tape"], *settings.arguments()]
        command = ["trace", f"{FOLDER}/{number}.ch8", *options, "--keys", f"{FOLDER}/{number}.keys"]
        traced = states(folder, settings, command)
        records.append({**record, "command": " ".join(["chipbench", *command]), "states": traced})
    return records


def states(folder: Path, settings: Settings, command: list[str]) -> list[dict[str, Any]]:
    """Lines of the trace of a program: each so many steps, and the last one. Where the machine stops, that one comes again for
    the last step: a stopped machine stays as it is. The command names files below the folder."""
    words = [str(folder / word) if word.startswith(f"{FOLDER}/") else word for word in command]
    status, output, errors = run_once([settings.program, *words, "--hash", "--json"])
    if status != 0:
        raise Ended(status, errors.strip(), [])
    traced = [json.loads(line) for line in output.decode().splitlines()]
    last = traced[-1]
    kept = [state for state in traced[:-1] if state["step"] % EACH == 0] + [last]
    return kept + [{**last, "step": STEPS}] * (last["step"] < STEPS)
