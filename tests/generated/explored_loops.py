"""5,000 small programs that may read keys and then come to a loop that reads none: `explore` answers `never` of each, and keeps
few states.

How many it may keep is counted with the machine of tests/trace/emulator.py, which forgets nothing: each state that reads keys,
and for each step from such a state, or from the start, that leads to the loop, those that every 1,001st step in it meets.

The first 1,000 are tried with the quick cases, and the others with the slow ones.

Also chains of 400 blocks, each of which reads a key: `explore` answers `never` of each within a second of processor time. A search
that began anew for each block would take several seconds.
"""
import importlib.util
import math
import pathlib
import random

from runner.programs import TookTooLong, limited

EMULATOR = pathlib.Path(__file__).resolve().parent.parent / "trace" / "emulator.py"
PROGRAMS = 5000
QUICK_PROGRAMS = 1000
GROUP = 250
KEYS = (0, 1, 2)
ALLOWED = ("--keys-allowed", ",".join(map(str, KEYS)))
# no program here keeps as many states
MOST_STATES = ("--states", "5000")
# the steps without keys after which a state is kept, and the one that leads on from it
BETWEEN = 1001

# A block of a chain is a word that reads a key, and one that it may skip.
BLOCKS = 400
CHAIN_SECONDS = 1
# Of each chain: the second word of the first block, to which the later ones add 0 to 4, the words after the last block, and the
# number of states that a block has.
CHAINS = {
    "a chain that counts": (0x7E01, (0x1200,), 1),
    "a chain that ends": (0x7E01, (0x1202 + 4 * BLOCKS, 0x1202 + 4 * BLOCKS), 1),
    # VE is 0 to 5, and VD, which is read as a key, 0 or 1
    "a chain that compares at its end": (0x6E01, (0x3E03, 0x6D01, 0x1200), 12),
}


def emulator():
    spec = importlib.util.spec_from_file_location("emulator", EMULATOR)
    module = importlib.util.module_from_spec(spec)
    spec.loader.exec_module(module)
    return module


EMULATED = emulator()
QUIRKS = EMULATED.quirks_of("schip")


def word(rng):
    """A word before the loop: half of them read keys. It stops nothing, and goes on to the next word or the one after it."""
    x, y, kk = rng.randrange(4), rng.randrange(4), rng.randrange(3)
    return rng.choice((
        0xE09E | x << 8, 0xE0A1 | x << 8, 0xF00A | x << 8, 0xE0A1 | x << 8, 0xF00A | x << 8, 0xF00A | x << 8,
        0x6000 | x << 8 | kk, 0x7000 | x << 8 | kk, 0x8000 | x << 8 | y << 4, 0x8004 | x << 8 | y << 4,
        0x3000 | x << 8 | kk, 0x9000 | x << 8 | y << 4, 0xA000 | kk, 0xF029 | x << 8,
    ))


def looped(rng):
    """A word of the loop: it reads no keys, and after a few rounds all is as it was."""
    x, y, kk = rng.randrange(4), rng.randrange(4), rng.randrange(3)
    return rng.choice((0x6000 | x << 8 | kk, 0x7080 | x << 8, 0x8000 | x << 8 | y << 4, 0xA000 | kk, 0x00E0, 0xD001 | x << 8 | y << 4))


def image(number):
    rng = random.Random(number)
    words = [word(rng) for _ in range(rng.randrange(1, 6))]
    # the last word before the loop may skip one more
    words.append(0x6000)
    there = 0x200 + 2 * len(words)
    words += [looped(rng) for _ in range(rng.choice((0, 0, 0, 1, 2, 3)))]
    words.append(0x1000 | there)
    return b"".join(each.to_bytes(2, "big") for each in words)


def reads_keys(machine):
    high, low = machine.memory[machine.pc], machine.memory[machine.pc + 1]
    return high >> 4 == 14 or high >> 4 == 15 and low == 0x0A


def copied(machine):
    other = object.__new__(type(machine))
    other.__dict__.update(machine.__dict__)
    other.v, other.stack, other.screen = machine.v[:], machine.stack[:], set(machine.screen)
    return other


def shown(machine):
    return machine.pc, machine.i, bytes(machine.v), frozenset(machine.screen)


def kept_on_the_way(machine):
    """How many states are kept after a step, up to the next that reads keys, and that one. A program writes nothing and has no
    timer, so it comes to a loop where a state comes again."""
    made = {}
    while not reads_keys(machine):
        state = shown(machine)
        if state in made:
            steps_of_loop = len(made) - made[state]
            return made[state] // BETWEEN + steps_of_loop // math.gcd(steps_of_loop, BETWEEN) + 1, None
        made[state] = len(made)
        machine.step(0, False)
    return len(made) // BETWEEN, machine


def most_states(code):
    """How many states a search may keep."""
    count, known, left = 0, set(), [EMULATED.Machine(code, QUIRKS, b"\0", None)]
    while left:
        kept, machine = kept_on_the_way(left.pop())
        count += kept
        if machine is None or shown(machine) in known:
            continue
        known.add(shown(machine))
        for keys in (0, *(1 << key for key in KEYS)):
            after = copied(machine)
            after.step(keys, False)
            left.append(after)
    return count + len(known)


def wrong_answer(program, number):
    """What is wrong with the answer for a program."""
    code = image(number)
    ran = limited([program, "explore", "--image", "-", "--no-facts", *ALLOWED, *MOST_STATES], code)
    answer = ran.stdout.decode().splitlines()
    most = most_states(code)
    if answer[:1] != ["never"] or not answer[-1].startswith("states "):
        return f"program {number} ({code.hex()}): {answer}, where `never` can be told by {most} states"
    if int(answer[-1].split()[1]) > most:
        return f"program {number} ({code.hex()}): {answer[-1]}, and not at most {most}"
    return ""


def wrong_group(program, numbers):
    """What is wrong with the first of some programs whose answer is."""
    wrongs = (wrong_answer(program.file, number) for number in numbers)
    return next((wrong for wrong in wrongs if wrong), "")


def wrong_chain(program, name):
    """What is wrong with the answer for a chain."""
    second, last, states_of_block = CHAINS[name]
    words = [word for block in range(BLOCKS) for word in (0xE09E | block % 14 << 8, second + block % 5)]
    code = b"".join(each.to_bytes(2, "big") for each in (*words, *last))
    try:
        ran = limited([program.file, "explore", "--image", "-", "--no-facts"], code, CHAIN_SECONDS)
    except TookTooLong as error:
        return str(error)
    answer = ran.stdout.decode().splitlines()
    most = states_of_block * BLOCKS + 1
    if answer[:1] != ["never"] or int(answer[-1].removeprefix("states ")) > most:
        return f"{answer}, where `never` can be told by {most} states"
    return ""


def groups(program, start, end):
    for first in range(start, end, GROUP):
        numbers = range(first, min(first + GROUP, end))
        yield f"loops {numbers[0]} to {numbers[-1]}", lambda numbers=numbers: wrong_group(program, numbers)


def checks(program):
    yield from groups(program, 0, QUICK_PROGRAMS)
    for name in CHAINS:
        yield name, lambda name=name: wrong_chain(program, name)


def slow_checks(program):
    yield from groups(program, QUICK_PROGRAMS, PROGRAMS)
