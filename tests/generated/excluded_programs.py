"""2,000 programs, of which `explore` says which stops no keys, random bytes and speed bring about: runs of the machine of
tests/trace/emulator.py don't come to these, each with keys, a tape and ticks of its own.

The programs are those of explored_programs.py and explored_speeds.py, under each profile in turn. The first 90 are searched over
whole states too, with a tick or without one after each step.

Of all that, 200 programs are tried with the quick cases, and the others with the slow ones.
"""
import importlib.util
import pathlib
import random
import re
import tempfile

FOLDER = pathlib.Path(__file__).parent
PROGRAMS = 2000
QUICK_PROGRAMS = 200
GROUP = 50
RUNS = 12
STEPS = 300
EXHAUSTED_PROGRAMS = 90
MOST_STATES = 150
EXHAUSTED_STEPS = 60
ALL_CAUSES = "S1,S2,S3,S4,S5,S6,S7"
FOR_ALL = ["never", "for any keys, random bytes and speed"]
LEFT = re.compile(r"left S(\d) ([0-9a-f]{4})(: \S.*)?")


def loaded(name):
    spec = importlib.util.spec_from_file_location(name, FOLDER / f"{name}.py")
    module = importlib.util.module_from_spec(spec)
    spec.loader.exec_module(module)
    return module


SEARCHED, SPEEDS = loaded("explored_programs"), loaded("explored_speeds")
EMULATED = SEARCHED.EMULATED
PROFILES = list(EMULATED.profiles())


def image(number):
    return SEARCHED.image(number) if number % 2 else SPEEDS.image(number)


def left(answer):
    """The stops that an answer leaves, each a number and an address; none where nothing was decided."""
    if answer[:2] == FOR_ALL:
        return set()
    found = {(int(one[1]), int(one[2], 16)) for one in map(LEFT.fullmatch, answer) if one}
    return found or None


def stop_of(machine):
    """The cause and the address of a stop. EXIT and the flag registers are SUPER-CHIP's: elsewhere their words are none."""
    cause = SEARCHED.cause(machine)
    return (2 if cause in (1, 7) and not machine.has_super else cause), machine.pc


def runs(code, quirks, rng):
    """The stops of some runs."""
    for _ in range(RUNS):
        machine = EMULATED.Machine(code, quirks, rng.randbytes(rng.randrange(1, 40)), None)
        keys, ticks = rng.choice((0.0, 0.1, 0.6)), rng.choice((0.0, 0.1, 0.5, 1.0))
        for _ in range(STEPS):
            machine.step(rng.randrange(65536) if rng.random() < keys else 1 << rng.randrange(16), rng.random() < ticks)
            if machine.stopped:
                yield stop_of(machine)
                break


def whole(code, quirks):
    """The stops of all runs of some length with the tape 00, as far as their states are few."""
    states = [EMULATED.Machine(code, quirks, b"\0", None)]
    for _ in range(EXHAUSTED_STEPS):
        later = {}
        for state in states:
            for after in SPEEDS.steps_from(state):
                if after.stopped:
                    yield stop_of(after)
                else:
                    later[SEARCHED.shown(after)] = after
        states = list(later.values())
        if len(states) > MOST_STATES:
            return


def wrong_answer(program, number, folder, told):
    """What is wrong with the answer for a program. Counts what was told."""
    code, profile = image(number), PROFILES[number // 2 % len(PROFILES)]
    pathlib.Path(folder, "image").write_bytes(code)
    words = ["explore", "--image", "image", "--profile", profile, "--want", ALL_CAUSES, "--states", "1"]
    answer = program.run(words, b"", folder).stdout.decode().splitlines()
    allowed = left(answer)
    if allowed is None:
        told["undecided"] += 1
        return ""
    told["decided"] += 1
    quirks, rng = EMULATED.quirks_of(profile), random.Random(f"excluded {number}")
    met = set(runs(code, quirks, rng)) | (set(whole(code, quirks)) if number < EXHAUSTED_PROGRAMS else set())
    told["stops"] += len(met)
    return "" if met <= allowed else f"{sorted(met - allowed)} under {profile}, and {answer}"


def wrong_group(program, numbers):
    """What is wrong with the first of some programs whose answer is."""
    told = {"decided": 0, "undecided": 0, "stops": 0}
    with tempfile.TemporaryDirectory() as folder:
        for number in numbers:
            wrong = wrong_answer(program, number, folder, told)
            if wrong:
                return f"program {number} ({image(number).hex()}): {wrong}"
    return "" if told["decided"] > told["undecided"] and told["stops"] else f"too little was told: {told}"


def groups(program, numbers):
    for start in range(numbers.start, numbers.stop, GROUP):
        some = range(start, min(start + GROUP, numbers.stop))
        yield f"{some[0]} to {some[-1]}", lambda some=some: wrong_group(program, some)


def checks(program):
    yield from groups(program, range(QUICK_PROGRAMS))


def slow_checks(program):
    yield from groups(program, range(QUICK_PROGRAMS, PROGRAMS))
