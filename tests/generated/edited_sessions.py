"""Generated sessions: edits of words and of keys, and questions between them.

Each question is answered as a new session on the edited words and keys answers it.
"""
import pathlib
import tempfile
from dataclasses import dataclass, field

SESSIONS = 240
COMMANDS = 16
WORDS = 24
# Questions are about earlier steps than this, which is past some checkpoints.
STEPS = 3500
SETTINGS = ["--rate", "10", "--tape", "a55a3c"]


class Numbers:
    """A sequence of numbers below 65,536."""

    def __init__(self, seed):
        self.state = seed

    def next(self):
        self.state = (self.state * 1_664_525 + 1_013_904_223) % 2**32
        return self.state // 65_536

    def word(self):
        """Some word: mostly instructions whose addresses lie in the program."""
        return word_of(self.next() % 20, self.next())


def word_of(kind, digits):
    """A word of a kind, with these digits."""
    low = digits % 0x1000
    place = 2 * (digits % 0x18)
    fixed = {
        0: 0x6000 + low, 1: 0x6000 + low, 2: 0x7000 + low, 3: 0x8000 + low, 4: 0x8000 + low,
        5: 0x3000 + low, 6: 0x4000 + low, 7: 0xA200 + digits % 0x40, 8: 0xA200 + digits % 0x40,
        9: 0xC000 + low, 10: 0xD000 + low, 11: 0x1200 + place, 12: 0x2200 + place,
        13: 0xF055 + 0x100 * (digits % 4), 14: 0xF065 + 0x100 * (digits % 4),
        15: 0xF033 + 0x100 * (digits % 16), 16: 0xE09E + 3 * (digits % 2) + 0x100 * (digits // 2 % 16),
        17: 0xF007 + 0x100 * (digits % 16), 18: 0xF015 + 0x100 * (digits % 16),
    }
    return fixed.get(kind, digits)


@dataclass
class Edited:
    """What a session is made of, as edited so far."""

    words: list
    events: list = field(default_factory=list)

    def source(self):
        return "".join(f"DW #{word:04x}\n" for word in self.words)

    def key_commands(self):
        return [f"kins {step} {key} {way}" for step, key, way in self.events]

    def edit_word(self, numbers):
        """Edits a word, and gives the command for it."""
        word = numbers.word()
        place = numbers.next() % (len(self.words) + 1)
        way = numbers.next() % 6
        if place == len(self.words) or way == 0:
            self.words.insert(place, word)
            return f"ins {place + 1} DW #{word:04x}"
        if way == 1:
            del self.words[place]
            return f"del {place + 1}"
        self.words[place] = word
        return f"rep {place + 1} DW #{word:04x}"

    def edit_key(self, numbers):
        """Removes a key event that is there, or adds one, and gives the command for it."""
        step, key = 64 * (numbers.next() % 32), numbers.next() % 4
        kept = [event for event in self.events if event[:2] != (step, key)]
        if len(kept) < len(self.events):
            self.events = kept
            return f"kdel {step} {key}"
        way = "down" if numbers.next() % 3 != 0 else "up"
        self.events.append((step, key, way))
        return f"kins {step} {key} {way}"


def question(numbers):
    step = numbers.next() % STEPS
    kind = numbers.next() % 6
    fixed = [f"screen {step}", f"mem {step} 0 4096", f"dis {step} #200 24", "image"]
    return fixed[kind] if kind < len(fixed) else f"regs {step}"




def answered(program, source, commands, every):
    """The lines of a session on a source."""
    with tempfile.TemporaryDirectory() as folder:
        pathlib.Path(folder, "source").write_text(source)
        script = "".join(command + "\n" for command in commands)
        ran = program.run(["debug", "source", *SETTINGS, "--every", every], script.encode(), folder)
    return ran.stdout.decode().splitlines()


def generated(seed):
    """The source and the commands of a session; with each question, what it is about."""
    numbers = Numbers(seed)
    edited = Edited([numbers.word() for _ in range(WORDS)])
    source, commands = edited.source(), []
    for _ in range(COMMANDS):
        kind = numbers.next() % 4
        if kind == 0:
            commands.append((edited.edit_word(numbers), None))
        elif kind == 1:
            commands.append((edited.edit_key(numbers), None))
        else:
            commands.append((question(numbers), (edited.source(), edited.key_commands())))
    return source, commands


def wrong_session(program, seed):
    """What is wrong with the answers of the session that this number begins."""
    source, commands = generated(seed)
    lines, at = answered(program, source, [command for command, _ in commands], "1000"), 0
    for number, (command, fresh) in enumerate(commands):
        expected = ["ok"]
        if fresh:
            fresh_source, keys = fresh
            expected = answered(program, fresh_source, [*keys, command], "100000")[len(keys) :]
            if expected[0].startswith("no "):
                return f"command {number}, {command}: refused by a new session: {expected[0]}"
        found = lines[at : at + len(expected)]
        if found != expected:
            return f"command {number}, {command}: {found}\nand not: {expected}"
        at += len(expected)
    return "" if at == len(lines) else f"{len(lines) - at} lines more"


def checks(program):
    for seed in range(SESSIONS):
        yield f"session {seed}", lambda seed=seed: wrong_session(program, seed)
