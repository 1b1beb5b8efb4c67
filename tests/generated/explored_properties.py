"""Programs of the fourteen kinds of explored_kinds.py, each with a random property that `explore` is asked for of the image, by `--never`
or `--always`, and by trying each set of allowed keys at each step that reads keys.

The properties, and the search over whole states that answers them, are those of proved_programs.py. Each script that is found is replayed:
it breaks the property at that step and at no earlier one. Each third program is asked with `--any-speed`: what is proved so is broken
by no choice of keys and ticks.

Ten programs of each kind are tried with the quick cases, and 50 with the slow ones.
"""
import importlib.util
import pathlib
import random
import tempfile

FOLDER = pathlib.Path(__file__).parent
QUICK_PROGRAMS = 10
PROGRAMS = 60


def loaded(name):
    spec = importlib.util.spec_from_file_location(name, FOLDER / f"{name}.py")
    module = importlib.util.module_from_spec(spec)
    spec.loader.exec_module(module)
    return module


PROVED = loaded("proved_programs")
PROGRAMS_OF = loaded("explored_kinds")
SEARCHED = PROVED.SEARCHED


def stated(rng, size):
    """A property: the option that asks for it, its text, and what breaks it of a machine that makes a step."""
    option = rng.choice(("--never", "--always"))
    text, holds = PROVED.condition(rng, size)
    place = 0x200 + 2 * rng.randrange(size // 2) if rng.random() < 0.5 else None
    if place is not None:
        text += f" at #{place:X}"
    return option, text, lambda m: (place is None or m.pc == place) and holds(m) == (option == "--never")


def wrong_answer(answer, keys, code, test, first):
    """What is wrong with an answer and the lines of its script, where the property is first broken at a step, or at none."""
    head = answer[0].split() if answer else []
    if first is None:
        if head == ["never", "at", "any", "speed"]:
            return f"{answer}, and some ticks break it" if PROVED.is_met_ticking(code, test) else ""
        return "" if head in (["never"], ["within", str(SEARCHED.STEPS)]) else f"{answer} where no keys break it"
    if head != ["broken", str(first)]:
        return f"{answer}, and it is first broken at {first}"
    met = PROVED.replayed(code, keys, test)
    return "" if met == first else f"{answer}, but its script breaks it at {met}"


def wrong_group(program, kind, numbers):
    """What is wrong with the answers for some programs of a kind."""
    tried = 0
    with tempfile.TemporaryDirectory() as folder:
        for number in numbers:
            rng = random.Random(f"properties {kind} {number}")
            code = PROGRAMS_OF.image(kind, number)
            option, text, test = stated(rng, len(code))
            first = PROVED.first_met(code, [test])
            if first is None:
                continue
            tried += 1
            speed = ["--any-speed"] if number % 3 == 0 else []
            answer, _, keys = SEARCHED.asked(program, code, folder, option, text, *speed)
            wrong = wrong_answer(answer, keys, code, test, first[0])
            if wrong:
                return f"program {number} ({code.hex()}): {option} {text}: {wrong}"
    return "" if tried > len(numbers) // 4 else f"only {tried} programs have few states"


def groups(program, numbers):
    for kind in PROGRAMS_OF.KINDS:
        yield f"{kind}, {len(numbers)} programs", lambda kind=kind: wrong_group(program, kind, numbers)


def checks(program):
    yield from groups(program, range(QUICK_PROGRAMS))


def slow_checks(program):
    yield from groups(program, range(QUICK_PROGRAMS, PROGRAMS))
