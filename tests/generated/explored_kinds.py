"""Programs of fourteen kinds, each searched by `explore` and by trying each set of allowed keys: half of their words are of the kind, and
the others read keys, jump, skip and stop. The answers are compared as in explored_programs.py, whose search over whole states
this is.

Ten programs of each kind are tried with the quick cases, and 60 with the slow ones.
"""
import importlib.util
import pathlib
import random
import tempfile

SEARCH = pathlib.Path(__file__).with_name("explored_programs.py")
QUICK_PROGRAMS = 10
PROGRAMS = 70


def explored_programs():
    spec = importlib.util.spec_from_file_location("explored_programs", SEARCH)
    module = importlib.util.module_from_spec(spec)
    spec.loader.exec_module(module)
    return module


SEARCHED = explored_programs()


def fields(rng, size):
    """Two registers, as bits of a word; a small number; an even place in the program."""
    return rng.randrange(4) << 8, rng.randrange(4) << 4, rng.choice((0, 1, 2, 3, 7, 16, 250)), 0x200 + 2 * rng.randrange(size // 2)


def common(rng, size):
    """A word that every kind of program may have: most of them read keys."""
    x, y, kk, inside = fields(rng, size)
    return rng.choice((
        0xE09E | x, 0xE0A1 | x, 0xF00A | x, 0xE0A1 | x, 0xF00A | x, 0x6000 | x | kk, 0x7000 | x | kk, 0x3000 | x | kk, 0x9000 | x | y,
        0x1000 | inside, 0xA000 | inside, 0x00FD,
    ))


# What words a kind adds.
KINDS = {
    "timers": lambda rng, x, y, kk, inside: (0xF015 | x, 0xF007 | x, 0xF018 | x, 0x3000 | x, 0x6000 | x | 3),
    "stores into code": lambda rng, x, y, kk, inside: (0xA000 | inside, 0xF055 | x, 0xF055 | x, 0xF033 | x, 0xF065 | x),
    "sprites": lambda rng, x, y, kk, inside: (0xD000 | x | y | rng.randrange(16), 0xF029 | x, 0xA000 | inside, 0x00E0, 0x4F00),
    "waits for a key": lambda rng, x, y, kk, inside: (0xF00A | x, 0xF00A | x, 0xE09E | x, 0xE0A1 | x, 0x5000 | x | y),
    "jumps by a register": lambda rng, x, y, kk, inside: (0xB000 | inside, 0xB000 | inside, 0x6000 | x | 2 * rng.randrange(4)),
    "call stack": lambda rng, x, y, kk, inside: (0x2000 | inside, 0x2000 | inside, 0x00EE, 0x00EE),
    "scrolls": lambda rng, x, y, kk, inside: (0x00C0 | rng.randrange(16), 0x00FB, 0x00FC, 0x00FF, 0xD005 | x | y, 0xF029 | x),
    "flag registers": lambda rng, x, y, kk, inside: (0xF075 | x, 0xF085 | x, 0xF075 | rng.randrange(9) << 8, 0x7000 | x | kk),
    "odd addresses": lambda rng, x, y, kk, inside: (0x1001 | inside, 0xA001 | inside, 0x2001 | inside, 0xB001 | inside, 0x00EE),
    "the memory's end": lambda rng, x, y, kk, inside: (0xA000 | rng.randrange(0xFF0, 0x1000), 0xF01E | x, 0xF055 | x, 0xF065 | x, 0xF033 | x,
                                               0xD000 | x | y | rng.randrange(16), 0x1FFC | rng.randrange(4)),
    "random bytes": lambda rng, x, y, kk, inside: (0xC000 | x | kk, 0xC000 | x | 255, 0x3000 | x | kk, 0xF01E | x),
    "arithmetic": lambda rng, x, y, kk, inside: (0x8000 | x | y | rng.choice((0, 1, 2, 3, 4, 5, 6, 7, 14)), 0x8F04 | y, 0x80F5 | x, 0x3F00, 0x4F01),
    "low memory": lambda rng, x, y, kk, inside: (0xA000 | rng.randrange(512), 0xF055 | x, 0xF065 | x, 0x1000 | rng.randrange(0x1F0, 0x210), 0xF030 | x),
    "sizes of the screen": lambda rng, x, y, kk, inside: (0x00FE, 0x00FF, 0xD000 | x | y, 0xD008 | x | y, 0xF030 | x, 0x4F00),
}


def image(kind, number):
    """A program of a kind."""
    rng = random.Random(f"{kind} {number}")
    size = 2 * rng.randrange(6, 24)
    words = [rng.choice(KINDS[kind](rng, *fields(rng, size))) if rng.random() < 0.5 else common(rng, size) for _ in range(size // 2 - 1)]
    return b"".join(each.to_bytes(2, "big") for each in [*words, 0x1200])


def wrong_group(program, kind, numbers):
    """What is wrong with the answers for some programs of a kind."""
    tried = 0
    with tempfile.TemporaryDirectory() as folder:
        for number in numbers:
            code = image(kind, number)
            found = SEARCHED.searched(code)
            if found is None:
                continue
            tried += 1
            first, made = found
            answer, listing, keys = SEARCHED.asked(program, code, folder, "--cover")
            wrong = SEARCHED.wrong_answer(answer, keys, code, first) or SEARCHED.wrong_marks(listing, answer, made)
            if wrong:
                return f"program {number} ({code.hex()}): {wrong}"
    return "" if tried > len(numbers) // 4 else f"only {tried} programs have few states"


def groups(program, numbers):
    for kind in KINDS:
        yield f"{kind}, {len(numbers)} programs", lambda kind=kind: wrong_group(program, kind, numbers)


def checks(program):
    yield from groups(program, range(QUICK_PROGRAMS))


def slow_checks(program):
    yield from groups(program, range(QUICK_PROGRAMS, PROGRAMS))
