"""1,000 random programs with timers, searched by `explore` and by trying each set of allowed keys, with a tick of the timers or
without one, at each step.

`never at any speed` is answered of no program that some keys stop, whenever the timers tick. Else `--any-speed` has the answer of
the rate, and so has each search without it: these are compared as in explored_programs.py, whose search over whole states this is.

Of all that, 200 programs are tried with the quick cases, and the others with the slow ones.
"""
import importlib.util
import pathlib
import random
import tempfile

SEARCH = pathlib.Path(__file__).with_name("explored_programs.py")
PROGRAMS = 1000
QUICK_PROGRAMS = 200
GROUP = 25
# a program with more states at one step is left out
MOST_STATES = 400


def explored_programs():
    spec = importlib.util.spec_from_file_location("explored_programs", SEARCH)
    module = importlib.util.module_from_spec(spec)
    spec.loader.exec_module(module)
    return module


SEARCHED = explored_programs()
EMULATED = SEARCHED.EMULATED
QUIRKS = SEARCHED.QUIRKS


def word(rng, size):
    """A word of a program of so many bytes: half of them set or read the delay timer, or ask what was read."""
    x, y, kk, inside = rng.randrange(3) << 8, rng.randrange(3) << 4, rng.choice((0, 1, 2, 3, 5, 16)), 0x200 + 2 * rng.randrange(size // 2)
    return rng.choice((
        0xF007 | x, 0xF007 | x, 0xF007 | x, 0xF015 | x, 0xF015 | x, 0x3000 | x, 0x4000 | x, 0x3000 | x | kk, 0x4000 | x | kk, 0x6000 | x | kk,
        0xE09E | x, 0xE0A1 | x, 0xF00A | x, 0x7000 | x | kk, 0x8004 | x | y, 0x8005 | x | y, 0x5000 | x | y, 0xF018 | x, 0xA000 | inside,
        0xF055 | x, 0xF01E | x, 0x1000 | inside, 0x1000 | inside, 0x2000 | inside, 0x00EE, 0x00FD, 0xC000 | x | kk, rng.randrange(65536),
    ))


def image(number):
    rng = random.Random(f"speeds {number}")
    size = 2 * rng.randrange(6, 20)
    bound = rng.choice((1, 2, 3, 9))
    # some stop where a tick comes at once, which none does at the rate
    first = [0xF107, 0x3100 | bound, 0] if rng.random() < 0.25 else []
    words = [0x6000 | bound, 0xF015, *first, *(word(rng, size) for _ in range(size // 2 - 3)), 0x1200]
    return b"".join(each.to_bytes(2, "big") for each in words)


def steps_from(state):
    """The states after a step, with each set of keys that it may tell apart, with a tick and without one."""
    for keys in SEARCHED.masks(state):
        for tick in (False, True):
            after = SEARCHED.copied(state)
            after.step(keys, tick)
            yield after


def searched(code):
    """The first step at which some keys and ticks stop the program, by the cause's number. None for too many states."""
    states, first = [EMULATED.Machine(code, QUIRKS, bytes.fromhex(SEARCHED.TAPE), None)], {}
    for step in range(1, SEARCHED.STEPS + 1):
        later = {}
        for state in states:
            for after in steps_from(state):
                if after.stopped:
                    first.setdefault(SEARCHED.cause(after), step)
                else:
                    later[SEARCHED.shown(after)] = after
        states = list(later.values())
        if len(states) > MOST_STATES:
            return None
    return first


def wrong_answers(program, code, folder, told):
    """What is wrong with the answers for a program. Notes what was told."""
    at_rate, at_any = SEARCHED.searched(code), searched(code)
    if at_rate is None or at_any is None:
        return ""
    told["tried"] += 1
    first = at_rate[0]
    answer, _, keys = SEARCHED.asked(program, code, folder)
    wrong = SEARCHED.wrong_answer(answer, keys, code, first)
    if wrong:
        return wrong
    answer, _, keys = SEARCHED.asked(program, code, folder, "--any-speed")
    stops = {number: step for number, step in at_any.items() if number != 1}
    if answer[0] != "never at any speed":
        told["at another speed alone"] += bool(stops) and not first.keys() - {1}
        return SEARCHED.wrong_answer(answer, keys, code, first)
    told["at any speed"] += 1
    if stops:
        return f"{answer}, and at some speed keys stop it: {stops}"
    return SEARCHED.wrong_answer(["never", *answer[1:]], keys, code, first)


def wrong_group(program, numbers):
    """What is wrong with the answers for some programs."""
    told = {"tried": 0, "at any speed": 0, "at another speed alone": 0}
    with tempfile.TemporaryDirectory() as folder:
        for number in numbers:
            code = image(number)
            wrong = wrong_answers(program, code, folder, told)
            if wrong:
                return f"program {number} ({code.hex()}): {wrong}"
    # the first group has programs of each sort
    return f"too few programs of a sort: {told}" if numbers[0] == 0 and min(told.values()) == 0 else ""


def groups(program, numbers):
    for start in range(numbers.start, numbers.stop, GROUP):
        yield f"{start} to {start + GROUP - 1}", lambda start=start: wrong_group(program, range(start, start + GROUP))


def checks(program):
    yield from groups(program, range(QUICK_PROGRAMS))


def slow_checks(program):
    yield from groups(program, range(QUICK_PROGRAMS, PROGRAMS))
