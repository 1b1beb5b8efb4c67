"""1,500 random programs with two properties `can` each, answered by `prove` and by going over all states that keys lead to.

The programs and the conditions are those of proved_programs.py, and the machine is that of tests/trace/emulator.py. Where few states can
be reached, each has an answer: *always* where from each of them some keys lead to the goal, and else a dead end, whose script leads to one
of which none does. In a program with more states, 1,000 random ways to play on from a dead end don't meet the goal.

Of all that, 150 programs are tried with the quick cases, and the others with the slow ones.
"""
import importlib.util
import json
import pathlib
import random
import tempfile

PROVED = pathlib.Path(__file__).with_name("proved_programs.py")
PROGRAMS = 1500
QUICK_PROGRAMS = 150
GROUP = 50
PROPERTIES = 2
# a program with more states isn't gone over as a whole
MOST_STATES = 3000
# how many states `prove` may keep, and how a dead end is tried that can't be looked up
KEPT_STATES = 20_000
WAYS = 1000
STEPS = 100


def proved_programs():
    spec = importlib.util.spec_from_file_location("proved_programs", PROVED)
    module = importlib.util.module_from_spec(spec)
    spec.loader.exec_module(module)
    return module


STATED = proved_programs()
SEARCHED = STATED.SEARCHED
EMULATED = STATED.EMULATED
TAPE = bytes.fromhex(SEARCHED.TAPE)


def started(code):
    return EMULATED.Machine(code, SEARCHED.QUIRKS, TAPE, None)


def place_of(machine, step):
    """What the later steps of a machine depend on."""
    pc, i, dt, draws, *rest = SEARCHED.shown(machine)
    return machine.stopped, step % SEARCHED.RATE, pc, i, dt, draws % len(TAPE), *rest


def after(machine, keys, step):
    other = SEARCHED.copied(machine)
    other.step(keys, (step + 1) % SEARCHED.RATE == 0)
    return other


def reached(code, tests):
    """Each state that keys lead to: the step at which it is first reached, which tests it meets, and the states before it. None for too
    many states."""
    start = started(code)
    first, met, before = {}, {}, {}
    ahead, step = {place_of(start, 0): start}, 0
    while ahead:
        later = {}
        for place, machine in ahead.items():
            first[place], met[place] = step, [test(machine) for test in tests]
            before.setdefault(place, [])
        if len(first) > MOST_STATES:
            return None
        for place, machine in ahead.items():
            for keys in SEARCHED.masks(machine) if not machine.stopped else ():
                other = after(machine, keys, step)
                there = place_of(other, step + 1)
                before.setdefault(there, []).append(place)
                if there not in first:
                    later.setdefault(there, other)
        ahead, step = later, step + 1
    return first, met, before


def lost(found, number):
    """The states from which no keys lead to one that meets a test."""
    first, met, before = found
    can = {place for place in first if met[place][number]}
    ahead = list(can)
    while ahead:
        for place in before[ahead.pop()]:
            if place not in can:
                can.add(place)
                ahead.append(place)
    return first.keys() - can


def goal(rng, size):
    text, test = STATED.condition(rng, size)
    place = 0x200 + 2 * rng.randrange(size // 2) if rng.random() < 0.4 else None
    text = f"can {text}" if place is None else f"can {text} at #{place:X}"
    return text, lambda m: (place is None or m.pc == place) and test(m)


def led_to(code, answer):
    """The machine to which the script of an answer leads."""
    events = sorted((event["step"], event["key"], event["down"]) for event in answer["keys"])
    machine = started(code)
    for step in range(answer["step"]):
        machine = after(machine, EMULATED.held(events, step), step)
    return machine


def some_way_meets(rng, machine, step, test):
    """Whether one of some random ways to play on meets a test."""
    for _ in range(WAYS):
        other = machine
        for later in range(STEPS):
            if test(other):
                return True
            if other.stopped:
                break
            other = after(other, rng.choice(SEARCHED.masks(other)), step + later)
    return False


def wrong_answer(code, answer, test, found, number):
    """What is wrong with an answer, where all states that can be reached are these, if they are known."""
    dead = None if found is None else lost(found, number)
    if answer["answer"] == "always":
        return "" if not dead else f"{answer}, and {len(dead)} states of {len(found[0])} are dead ends"
    if answer["answer"] == "undecided":
        return "" if found is None else f"{answer}, and there are {len(found[0])} states"
    if answer["answer"] != "dead end":
        return f"{answer}"
    machine, step = led_to(code, answer), answer["step"]
    if found is None:
        rng = random.Random(f"ways on {code.hex()}")
        return f"{answer}, and some way leads on" if some_way_meets(rng, machine, step, test) else ""
    return "" if place_of(machine, step) in dead else f"{answer}, and some way leads on"


def wrong_program(program, number, folder, told):
    """What is wrong with the answers for a program."""
    rng = random.Random(f"prospects {number}")
    code = STATED.image(number)
    goals = [goal(rng, len(code)) for _ in range(PROPERTIES)]
    found = reached(code, [test for _, test in goals])
    pathlib.Path(folder, "image").write_bytes(bytes(code))
    lines = "".join(f";! {text}\n" for text, _ in goals)
    pathlib.Path(folder, "source").write_bytes(lines.encode() + program.run(["dis", "image"], b"", folder).stdout)
    settings = ["--rate", str(SEARCHED.RATE), "--tape", SEARCHED.TAPE, "--keys-allowed", ",".join(map(str, SEARCHED.KEYS))]
    ran = program.run(["prove", "source", "--json", "--states", str(KEPT_STATES), *settings], b"", folder)
    answers = {answer["line"]: answer for answer in map(json.loads, ran.stdout.decode().splitlines()) if "line" in answer}
    if sorted(answers) != list(range(1, len(goals) + 1)):
        return f"answers to {sorted(answers)}"
    for line, (text, test) in enumerate(goals, 1):
        answer = answers[line]
        told[answer["answer"]] = told.get(answer["answer"], 0) + 1
        told["known"] = told.get("known", 0) + (found is not None)
        wrong = wrong_answer(code, answer, test, found, line - 1) if answer["property"] == text else f"{answer} and not {text}"
        if wrong:
            return wrong
    bad = any(answer["answer"] == "dead end" for answer in answers.values())
    return "" if ran.status == int(bad) else f"status {ran.status} of {answers}"


def wrong_group(program, numbers):
    told = {}
    with tempfile.TemporaryDirectory() as folder:
        for number in numbers:
            wrong = wrong_program(program, number, folder, told)
            if wrong:
                return f"program {number} ({STATED.image(number).hex()}): {wrong}"
    few = min(told.get(word, 0) for word in ("always", "dead end", "known"))
    return "" if few > len(numbers) // 10 else f"too few answers of a sort: {told}"


def groups(program, start, end):
    for first in range(start, end, GROUP):
        numbers = range(first, min(first + GROUP, end))
        yield f"goals of programs {numbers[0]} to {numbers[-1]}", lambda numbers=numbers: wrong_group(program, numbers)


def checks(program):
    yield from groups(program, 0, QUICK_PROGRAMS)


def slow_checks(program):
    yield from groups(program, QUICK_PROGRAMS, PROGRAMS)
