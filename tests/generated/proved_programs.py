"""1,500 random programs with five random properties each, answered by `prove` and by trying each set of allowed keys at each step that
reads keys.

The programs are those of explored_programs.py and explored_speeds.py, which store into their own code, stop, and set the timers. The
answers come from the search over whole states of the first, on the machine of tests/trace/emulator.py: a property is asked of each state
that makes a step, at its place. A property is text for the program and a test of such a machine here, made side by side, so that nothing
of the program reads it. Each script that is found is replayed: the property is broken at its step and at no earlier one.

Each program is asked with `--no-facts`, and each other one with facts too: the answers are the same, but for those with any keys, random
bytes and speed, which no choice of keys and ticks may break, here with two tapes. Each third program is asked with `--any-speed`: the answers
are those of the rate, but for those at any speed, which no choice of keys and ticks may break. Each fifth is asked with `--deep` and room for
few states.

Of all that, 200 programs are tried with the quick cases, and the others with the slow ones.
"""
import importlib.util
import json
import operator
import pathlib
import random
import tempfile

SEARCH = pathlib.Path(__file__).with_name("explored_programs.py")
SPEEDS = pathlib.Path(__file__).with_name("explored_speeds.py")
PROGRAMS = 1500
QUICK_PROGRAMS = 200
GROUP = 50
PROPERTIES = 5
# how far keys and ticks are tried, and with how many states at one step
TICKED_STEPS = 40
MOST_TICKED = 400
# random bytes beside those of the searches
OTHER_TAPE = "a5ff00137c"
RELATIONS = {
    "=": operator.eq, "<>": operator.ne, "<": operator.lt, "<=": operator.le, ">": operator.gt, ">=": operator.ge,
}


def loaded(path):
    spec = importlib.util.spec_from_file_location(path.stem, path)
    module = importlib.util.module_from_spec(spec)
    spec.loader.exec_module(module)
    return module


SEARCHED = loaded(SEARCH)
TIMED = loaded(SPEEDS)
EMULATED = SEARCHED.EMULATED
STEPS = SEARCHED.STEPS


def image(number):
    return SEARCHED.image(number) if number % 2 else TIMED.image(number)


def asks_keys(machine):
    """1 where the next step reads keys."""
    return int(len(SEARCHED.masks(machine)) > 1)


def lit(machine, column, row):
    scale = 1 if machine.high else 2
    return int((column * scale, row * scale) in machine.screen)


def item(rng, size):
    """A value of a state: its text, and what it is of a machine."""
    x, at = rng.randrange(4), 0x200 + rng.randrange(size)
    column, row = rng.choice(((0, 0), (1, 0), (3, 2), (8, 1), (40, 20), (100, 5)))
    return rng.choice((
        (f"V{x:X}", lambda m: m.v[x]), (f"v{x:x}", lambda m: m.v[x]), ("VF", lambda m: m.v[15]), ("I", lambda m: m.i),
        ("PC", lambda m: m.pc), ("DT", lambda m: m.dt), ("DEPTH", lambda m: len(m.stack)), ("HIGH", lambda m: int(m.high)),
        ("KEYS", asks_keys), (f"[#{at:X}]", lambda m: m.memory[at]), (f"[{at} + 0]", lambda m: m.memory[at]),
        (f"PIXEL({column}, {row})", lambda m: lit(m, column, row)),
    ))


def summed(rng, size):
    """One to three terms, added."""
    texts, values = [], []
    for _ in range(rng.choice((1, 1, 1, 2, 3))):
        text, value = item(rng, size)
        factor = rng.choice((1, 1, 1, 2, 300))
        texts.append(text if factor == 1 else f"{factor} * {text}")
        values.append((factor, value))
    return " + ".join(texts), lambda m: sum(factor * value(m) for factor, value in values)


def compared(rng, size):
    left, value = summed(rng, size)
    relation = rng.choice(list(RELATIONS))
    if rng.random() < 0.2:
        right, other = summed(rng, size)
    else:
        number = rng.choice((0, 0, 1, 1, 2, 3, 5, 16, 255, 0x200 + rng.randrange(size), 600))
        right, other = str(number), lambda m: number
    return f"{left} {relation} {right}", lambda m: RELATIONS[relation](value(m), other(m))


def condition(rng, size):
    parts = [compared(rng, size) for _ in range(rng.choice((1, 1, 1, 2, 3)))]
    word, join = rng.choice((("and", all), ("or", any)))
    return f" {word} ".join(text for text, _ in parts), lambda m: join(test(m) for _, test in parts)


def stated(rng, size):
    """A property: its text, its kind, and what breaks it, or reaches it, of a machine that makes a step."""
    kind = rng.choice(("always", "never", "ever"))
    text, test = condition(rng, size)
    place = 0x200 + 2 * rng.randrange(size // 2) if rng.random() < 0.4 else None
    wanted = kind != "always"
    words = [kind] if kind != "always" or rng.random() < 0.5 else []
    words += [text] if place is None else [text, f"at #{place:X}"]
    return " ".join(words), kind, lambda m: (place is None or m.pc == place) and test(m) == wanted


def first_met(code, tests):
    """For each of some tests the first step at which some keys lead a program to it, and None for each that none do. None for too many
    states."""
    states, first = [EMULATED.Machine(code, SEARCHED.QUIRKS, bytes.fromhex(SEARCHED.TAPE), None)], [None] * len(tests)
    for step in range(STEPS + 1):
        for place, test in enumerate(tests):
            if first[place] is None and any(test(state) for state in states):
                first[place] = step
        later = {}
        for state in states:
            for keys in SEARCHED.masks(state):
                after = SEARCHED.copied(state)
                after.step(keys, (step + 1) % SEARCHED.RATE == 0)
                if not after.stopped:
                    later[SEARCHED.shown(after)] = after
        states = list(later.values())
        if len(states) > SEARCHED.MOST_STATES:
            return None
    return first


def is_met_ticking(code, test, tape=SEARCHED.TAPE):
    """Whether some keys and ticks lead a program to a test, as far as there are few states."""
    states = [EMULATED.Machine(code, SEARCHED.QUIRKS, bytes.fromhex(tape), None)]
    for _ in range(TICKED_STEPS):
        if any(test(state) for state in states):
            return True
        later = {}
        for state in states:
            for keys in SEARCHED.masks(state):
                for ticks in (False, True):
                    after = SEARCHED.copied(state)
                    after.step(keys, ticks)
                    if not after.stopped:
                        later[SEARCHED.shown(after)] = after
        states = list(later.values())
        if len(states) > MOST_TICKED:
            return False
    return False


def replayed(code, lines, test):
    """The first step at which a program meets a test under the events of a file, up to STEPS."""
    events = sorted((int(line.split()[0]), int(line.split()[1]), line.split()[2] == "down") for line in lines)
    machine = EMULATED.Machine(code, SEARCHED.QUIRKS, bytes.fromhex(SEARCHED.TAPE), None)
    for step in range(STEPS + 1):
        if machine.stopped:
            return None
        if test(machine):
            return step
        machine.step(EMULATED.held(events, step), (step + 1) % SEARCHED.RATE == 0)
    return None


def proved(program, folder, *options):
    """The answers by their lines, and the status."""
    settings = ["--rate", str(SEARCHED.RATE), "--tape", SEARCHED.TAPE, "--keys-allowed", ",".join(map(str, SEARCHED.KEYS))]
    ran = program.run(["prove", "source", "--json", "--steps", str(STEPS), *settings, *options], b"", folder)
    told = [json.loads(line) for line in ran.stdout.decode().splitlines()]
    return {answer["line"]: answer for answer in told if "line" in answer}, ran.status


def words_of(kind, name):
    """The words for a property that is met, one that isn't up to a step, and one that never is."""
    met, unmet = ("reached", "not reached") if kind == "ever" else ("broken", "unbroken")
    never = "never reached" if kind == "ever" else "proved"
    facts = f"{never} for any keys, random bytes and speed"
    return {"met": met, "unmet": unmet, "never": never, "speed": f"{never} at any speed", "facts": facts}[name]


def wrong_answer(answer, kind, first, is_deep):
    """What is wrong with an answer, where the property is first met at a step, or at none."""
    word, step, covered = answer["answer"], answer.get("step"), answer.get("covered")
    if word == words_of(kind, "met"):
        if first is None or step < first or step > STEPS:
            return f"{answer}, and it is first met at {first}"
        if covered is None:
            return "" if step == first else f"{answer}, and it is first met at {first}"
        return "" if is_deep and covered < first else f"{answer}, and it is first met at {first}"
    if first is not None and not (is_deep and word == words_of(kind, "unmet") and covered < first):
        return f"{answer}, and it is met at {first}"
    if word == words_of(kind, "unmet"):
        return "" if covered == STEPS or is_deep and covered < STEPS else f"{answer}, short of {STEPS}"
    return "" if word in [words_of(kind, name) for name in ("never", "speed", "facts")] else f"{answer}"


def wrong_answers(answers, properties, first, is_deep=False):
    if sorted(answers) != list(range(1, len(properties) + 1)):
        return f"answers to {sorted(answers)}"
    for line, (text, kind, _) in enumerate(properties, 1):
        if answers[line]["property"] != text:
            return f"{answers[line]} and not {text}"
        wrong = wrong_answer(answers[line], kind, first[line - 1], is_deep)
        if wrong:
            return wrong
    return ""


def wrong_script(code, folder, answers, properties):
    """What is wrong with the scripts of answers, as files and as keys of their objects."""
    for line, (_, _, test) in enumerate(properties, 1):
        file, step = pathlib.Path(folder, "keys", f"{line}.keys"), answers[line].get("step")
        if (step is None) == file.exists():
            return f"{answers[line]}, and {file.name} {'is' if file.exists() else 'is not'} written"
        if step is None:
            continue
        lines = file.read_text(encoding="utf-8").splitlines()
        told = [f"{event['step']} {event['key']} {'down' if event['down'] else 'up'}" for event in answers[line]["keys"]]
        if told != lines:
            return f"{answers[line]}, and {file.name} has {lines}"
        met = replayed(code, lines, test)
        if met is None or met > step or "covered" not in answers[line] and met != step:
            return f"{answers[line]}, but its script meets it at {met}"
    return ""


def wrong_facts(program, folder, code, properties, first):
    """What is wrong with the answers where facts are asked before the search."""
    answers, _ = proved(program, folder)
    wrong = wrong_answers(answers, properties, first)
    for line, (_, kind, test) in enumerate(properties, 1):
        if not wrong and answers[line]["answer"] == words_of(kind, "facts"):
            if any(is_met_ticking(code, test, tape) for tape in (SEARCHED.TAPE, OTHER_TAPE)):
                wrong = f"{answers[line]}, and some keys and ticks lead there"
    return wrong


def wrong_program(program, number, folder):
    """What is wrong with the answers for a program, or None where it is left out, and whether one of its properties is met."""
    rng = random.Random(f"proved {number}")
    code = image(number)
    properties = [stated(rng, len(code)) for _ in range(PROPERTIES)]
    first = first_met(code, [test for _, _, test in properties])
    if first is None:
        return None
    pathlib.Path(folder, "image").write_bytes(bytes(code))
    lines = "".join(f";! {text}\n" for text, _, _ in properties)
    source = lines.encode() + program.run(["dis", "image"], b"", folder).stdout
    pathlib.Path(folder, "source").write_bytes(source)
    keys = pathlib.Path(folder, "keys")
    keys.mkdir(exist_ok=True)
    for file in keys.iterdir():
        file.unlink()
    answers, status = proved(program, folder, "--keys-to", "keys/", "--no-facts")
    wrong = wrong_answers(answers, properties, first) or wrong_script(code, folder, answers, properties)
    bad = any((step is None) == (kind == "ever") for (_, kind, _), step in zip(properties, first))
    if not wrong and status != int(bad):
        wrong = f"status {status} of {answers}"
    if not wrong and number % 2 == 0:
        wrong = wrong_facts(program, folder, code, properties, first)
    if not wrong and number % 3 == 0:
        answers, _ = proved(program, folder, "--any-speed", "--no-facts")
        wrong = wrong_answers(answers, properties, first)
        for line, (_, kind, test) in enumerate(properties, 1):
            if not wrong and answers[line]["answer"] == words_of(kind, "speed") and is_met_ticking(code, test):
                wrong = f"{answers[line]}, and some ticks lead there"
    if not wrong and number % 5 == 0:
        answers, _ = proved(program, folder, "--deep", "--states", str(SEARCHED.FEW_STATES), "--no-facts")
        wrong = wrong_answers(answers, properties, first, is_deep=True)
    return wrong and f"program {number} ({code.hex()}): {wrong}"


def wrong_group(program, numbers):
    tried = 0
    with tempfile.TemporaryDirectory() as folder:
        for number in numbers:
            wrong = wrong_program(program, number, folder)
            if wrong:
                return wrong
            tried += wrong is not None
    return "" if tried > len(numbers) // 2 else f"only {tried} programs were tried"


def groups(program, start, end):
    for first in range(start, end, GROUP):
        numbers = range(first, min(first + GROUP, end))
        yield f"properties of programs {numbers[0]} to {numbers[-1]}", lambda numbers=numbers: wrong_group(program, numbers)


def checks(program):
    yield from groups(program, 0, QUICK_PROGRAMS)


def slow_checks(program):
    yield from groups(program, QUICK_PROGRAMS, PROGRAMS)
