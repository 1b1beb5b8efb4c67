"""1,500 random programs, searched by `explore` and by trying each set of allowed keys at each step that reads keys.

The programs store into their own code, call, skip and stop. The answers are computed with the machine of
tests/trace/emulator.py: a state for each way that the keys can go, and equal states at the same step taken as one. Each
script that is found is replayed by it, and leads to the address that the answer names. What `--cover` marks is compared with the
addresses at which those states make steps.

In the first 150 the lines to which `check --cover` gives W8 are the instructions that `explore --cover` doesn't mark where it looks
for nothing that is met, but for those that have W3.

The first 500 are asked with `--deep` and room for few states too: what it says is covered is covered, and each script that it
finds leads where it says.

Of all that, 300 programs are tried with the quick cases, and the others with the slow ones.
"""
import importlib.util
import json
import pathlib
import random
import re
import tempfile

EMULATOR = pathlib.Path(__file__).resolve().parent.parent / "trace" / "emulator.py"
PROGRAMS = 1500
QUICK_PROGRAMS = 300
GROUP = 50
STEPS = 120
KEYS = (0, 1, 2)
RATE = 10
TAPE = "3b5a91c7042fe866"
# how many programs are searched with --deep, and with room for how many states
DEEP_PROGRAMS = 500
FEW_STATES = 10
# how many programs are checked for warnings, and an address at which none makes a step
WARNED_PROGRAMS = 150
NOWHERE = "#FFF"
# what an answer says, its step, where the program is then, and the text of the word there
PLACED = re.compile(r"((?:S\d|broken) (\d+)), ([0-9a-f]{4})(: \S.*)?")
# a program with more states at one step is left out
MOST_STATES = 300


def emulator():
    spec = importlib.util.spec_from_file_location("emulator", EMULATOR)
    module = importlib.util.module_from_spec(spec)
    spec.loader.exec_module(module)
    return module


EMULATED = emulator()
QUIRKS = EMULATED.quirks_of("schip")


def word(rng, size):
    """A word of a program of so many bytes: most read keys, go elsewhere in it or change it."""
    x, y, kk = rng.randrange(4), rng.randrange(4), rng.choice((0, 1, 2, 3, 5, 16, 250))
    inside = 0x200 + 2 * rng.randrange(size // 2)
    return rng.choice((
        0xE09E | x << 8, 0xE0A1 | x << 8, 0xF00A | x << 8, 0xE09E | x << 8, 0xF00A | x << 8,
        0x6000 | x << 8 | kk, 0x7000 | x << 8 | kk, 0x8004 | x << 8 | y << 4, 0x8005 | x << 8 | y << 4,
        0x3000 | x << 8 | kk, 0x4000 | x << 8 | kk, 0x5000 | x << 8 | y << 4, 0x9000 | x << 8 | y << 4,
        0xA000 | inside, 0xA000 | inside, 0xF01E | x << 8, 0xF055 | x << 8, 0xF055 | x << 8, 0xF065 | x << 8,
        0xF033 | x << 8, 0x1000 | inside, 0x1000 | inside, 0x2000 | inside, 0x00EE, 0x00FD, 0xC000 | x << 8 | kk,
        0xF015 | x << 8, 0xF007 | x << 8, 0xF018 | x << 8, 0xD001 | x << 8 | y << 4, 0x00E0, rng.randrange(65536),
    ))


def image(number):
    rng = random.Random(number)
    size = 2 * rng.randrange(6, 24)
    words = [word(rng, size) for _ in range(size // 2 - 1)] + [0x1200]
    return b"".join(each.to_bytes(2, "big") for each in words)


def cause(machine):
    """The number k of Sk for which the machine has stopped."""
    if machine.pc > 4094:
        return 3
    now = machine.memory[machine.pc] << 8 | machine.memory[machine.pc + 1]
    x, kk = now >> 8 & 15, now & 255
    if now == 0x00FD:
        return 1
    if now == 0x00EE:
        return 5
    if now >> 12 == 2:
        return 4
    if now >> 12 == 13 or now >> 12 == 15 and kk in (0x33, 0x55, 0x65):
        return 6
    if now >> 12 == 15 and kk in (0x75, 0x85) and x > 7:
        return 7
    return 2


def masks(machine):
    """The sets of keys that the next step may tell apart."""
    if machine.pc > 4094:
        return (0,)
    high, low = machine.memory[machine.pc], machine.memory[machine.pc + 1]
    if high >> 4 == 14 and low in (0x9E, 0xA1) or high >> 4 == 15 and low == 0x0A:
        return tuple(sum(1 << key for place, key in enumerate(KEYS) if some >> place & 1) for some in range(1 << len(KEYS)))
    return (0,)


def copied(machine):
    other = object.__new__(type(machine))
    other.__dict__.update(machine.__dict__)
    other.memory, other.v, other.flags = machine.memory[:], machine.v[:], machine.flags[:]
    other.stack, other.screen = machine.stack[:], set(machine.screen)
    return other


def shown(machine):
    return (
        machine.pc, machine.i, machine.dt, machine.draws, machine.high, bytes(machine.v), bytes(machine.flags),
        tuple(machine.stack), bytes(machine.memory), frozenset(machine.screen),
    )


def searched(code):
    """What keys can do up to STEPS: the first step at which some stop the program, by the cause's number, and the first step that is
    made at an address, by the address. None for too many states."""
    states, first, made = [EMULATED.Machine(code, QUIRKS, bytes.fromhex(TAPE), None)], {}, {}
    for step in range(1, STEPS + 2):
        later = {}
        for state in states:
            made.setdefault(state.pc, step - 1)
            choices = masks(state)
            for keys in choices:
                after = state if len(choices) == 1 else copied(state)
                after.step(keys, step % RATE == 0)
                if not after.stopped:
                    later[shown(after)] = after
                elif step <= STEPS:
                    first.setdefault(cause(after), step)
        states = list(later.values())
        if len(states) > MOST_STATES:
            return None
    return first, made


def events_of(lines):
    """The key events of the lines of a file."""
    return sorted((int(line.split()[0]), int(line.split()[1]), line.split()[2] == "down") for line in lines)


def replayed(code, lines, step):
    """The number of the cause for which the program has stopped at a step, with the keys of a file, and at no earlier one."""
    events = events_of(lines)
    machine = EMULATED.Machine(code, QUIRKS, bytes.fromhex(TAPE), None)
    for number in range(step):
        if machine.stopped:
            return None
        machine.step(EMULATED.held(events, number), (number + 1) % RATE == 0)
    return cause(machine) if machine.stopped else None


def without_place(line, code, lines):
    """An answer before its comma, if the address behind that is where the program is then, with the keys of a file."""
    told = PLACED.fullmatch(line)
    if told is None:
        return line
    events = events_of(lines)
    machine = EMULATED.Machine(code, QUIRKS, bytes.fromhex(TAPE), None)
    for number in range(int(told[2])):
        machine.step(EMULATED.held(events, number), (number + 1) % RATE == 0)
    # The word at the last address isn't whole.
    is_right = int(told[3], 16) == machine.pc and (told[4] is not None) == (machine.pc < 0xFFF)
    return told[1] if is_right else f"{line}, and it is at {machine.pc:04x}"


def asked(program, code, folder, *options):
    """The lines of the answer with these options, those of the listing below it, and those of the file of keys."""
    file, keys = pathlib.Path(folder, "image"), pathlib.Path(folder, "keys")
    file.write_bytes(bytes(code))
    keys.unlink(missing_ok=True)
    settings = ["--rate", str(RATE), "--tape", TAPE, "--keys-allowed", ",".join(map(str, KEYS))]
    ran = program.run(["explore", "--image", "image", "--no-facts", "--steps", str(STEPS), *settings, "--keys-to", "keys", *options], b"", folder)
    lines = [line for line in keys.read_text(encoding="utf-8").splitlines() if line[:1].isdigit()] if keys.exists() else []
    answer = ran.stdout.decode().splitlines()
    answer[:1] = [without_place(line, code, lines) for line in answer[:1]]
    below = next((place + 1 for place, line in enumerate(answer) if line.startswith("states ")), len(answer))
    return answer[:below], answer[below:], lines


def wrong_answer(answer, keys, code, first):
    """What is wrong with an answer, where the first stops are these."""
    wanted = {number: step for number, step in first.items() if number != 1}
    head = answer[0].split() if answer else []
    seen = {int(line[1]): int(line.split()[1]) for line in answer[1:] if line[:1] == "S"}
    if not wanted:
        if head == ["never"] or head == ["within", str(STEPS)]:
            return "" if seen == first else f"met {seen}, and not {first}"
        return f"{answer} where no keys stop it"
    step = min(wanted.values())
    if len(head) != 2 or head[0][0] != "S" or int(head[1]) != step or wanted.get(int(head[0][1])) != step:
        return f"{answer} and not {wanted}"
    if answer[1] != f"keys {len(keys)}":
        return f"{answer} and {len(keys)} keys"
    stop = replayed(code, keys, step)
    return "" if stop == int(head[0][1]) else f"{answer}, but its keys lead to {stop}"


def wrong_marks(listing, answer, made):
    """What is wrong with the marks of a listing, where steps are made at these addresses."""
    rows = [(int(line[7:11], 16), line.startswith("+ ")) for line in listing if line[7:11] != "----" and line[12:13] not in ("", " ", "=")]
    marked = {address for address, is_marked in rows if is_marked}
    unmarked = {address for address, is_marked in rows if not is_marked}
    head = answer[0].split()
    last = min(int(head[1]) - 1, STEPS) if head[0][0] == "S" else STEPS
    left_out = sorted(address for address in unmarked if made.get(address, STEPS + 1) <= last)
    if left_out:
        return f"{left_out} are executed, and have no mark"
    if not marked <= made.keys():
        return f"{sorted(marked - made.keys())} are marked, and not executed"
    return "" if marked else "no line is marked"


def searched_programs(numbers):
    """The number of each program that isn't left out, its code, and what keys can do with it."""
    for number in numbers:
        code = image(number)
        found = searched(code)
        if found is not None:
            yield number, code, found


def wrong_group(program, numbers):
    """What is wrong with the answers for some programs, with `--deep` too where their numbers are low."""
    deep = 0
    with tempfile.TemporaryDirectory() as folder:
        for number, code, (first, made) in searched_programs(numbers):
            answer, listing, keys = asked(program, code, folder, "--cover")
            wrong = wrong_answer(answer, keys, code, first) or wrong_marks(listing, answer, made)
            if not wrong and number < DEEP_PROGRAMS:
                answer, _, keys = asked(program, code, folder, "--states", str(FEW_STATES), "--deep")
                deep += answer[0][:1] == "S" and any(line.startswith("within ") for line in answer)
                wrong = wrong_deep_answer(answer, keys, code, first)
            if wrong:
                return f"program {number} ({code.hex()}): {wrong}"
    # the first group has such programs
    return "no program has a script past what is covered" if numbers[0] == 0 and deep == 0 else ""


def wrong_deep_answer(answer, keys, code, first):
    """What is wrong with an answer to `--deep`, where the first stops are these."""
    wanted = min((step for number, step in first.items() if number != 1), default=STEPS + 1)
    head = answer[0].split()
    covered = next((int(line.split()[1]) for line in answer if line.startswith("within ")), None)
    if head == ["never"]:
        return "" if wanted > STEPS else f"{answer}, and keys stop it at {wanted}"
    if covered is not None and not covered < wanted:
        return f"{answer}, and keys stop it at {wanted}"
    if head[0] == "within":
        return "" if covered <= STEPS else f"{answer}, past the last step"
    step = int(head[1])
    if step > STEPS or covered is None and step != wanted or covered is not None and covered >= step:
        return f"{answer}, and keys stop it at {wanted} first"
    if answer[1] != f"keys {len(keys)}":
        return f"{answer} and {len(keys)} keys"
    stop = replayed(code, keys, step)
    return "" if stop == int(head[0][1]) else f"{answer}, but its keys lead to {stop}"


def warned(program, folder, *options):
    """The codes and the sentences of the warnings of the source in a folder, by their lines."""
    found = {}
    for line in program.run(["check", "source", "--json", *options], b"", folder).stdout.decode().splitlines():
        told = json.loads(line)
        found.setdefault(told["line"], []).append((told["code"], told["message"]))
    return found


def wrong_warnings(program, number, folder):
    """What is wrong with the warnings of a program, and how many lines have W8; None where it comes to NOWHERE."""
    pathlib.Path(folder, "image").write_bytes(image(number))
    pathlib.Path(folder, "source").write_bytes(program.run(["dis", "image"], b"", folder).stdout)
    answer = program.run(["explore", "source", "--reach", NOWHERE, "--cover"], b"", folder).stdout.decode().splitlines()
    if answer[0] != "never" and not answer[0].startswith("within "):
        return None
    end = "" if answer[0] == "never" else f" up to step {answer[0].split()[1]}"
    rows = [line for line in answer if re.fullmatch(r"[+ ] +[0-9]+ [0-9a-f]{4} [0-9a-f]{4} .*", line)]
    # an instruction has a mnemonic in the place of DW
    unmarked = {int(row.split()[0]) for row in rows if row[0] == " " and row.split()[3] != "DW"}
    plain = warned(program, folder)
    unreachable = {line for line, told in plain.items() if "W3" in dict(told)}
    expected = {line: [("W8", f"no key script executes this{end}")] for line in unmarked - unreachable}
    for line, told in plain.items():
        expected.setdefault(line, []).extend(told)
    found = warned(program, folder, "--cover")
    if {line: sorted(told) for line, told in found.items()} == {line: sorted(told) for line, told in expected.items()}:
        return "", len(unmarked - unreachable)
    return f"{found} and not {expected}", 0


def wrong_warned_group(program, numbers):
    """What is wrong with the warnings of some programs. Half of them have W8 at least."""
    having = 0
    with tempfile.TemporaryDirectory() as folder:
        for number in numbers:
            told = wrong_warnings(program, number, folder)
            if told is None:
                continue
            wrong, count = told
            having += count > 0
            if wrong:
                return f"program {number} ({image(number).hex()}): {wrong}"
    return f"only {having} programs have W8" if having < len(numbers) // 2 else ""


def groups(start, end):
    return [range(first, min(first + GROUP, end)) for first in range(start, end, GROUP)]


def searches(program, start, end):
    for numbers in groups(start, end):
        yield f"programs {numbers[0]} to {numbers[-1]}", lambda numbers=numbers: wrong_group(program, numbers)


def checks(program):
    for numbers in groups(0, WARNED_PROGRAMS):
        yield f"warnings of programs {numbers[0]} to {numbers[-1]}", lambda numbers=numbers: wrong_warned_group(program, numbers)
    yield from searches(program, 0, QUICK_PROGRAMS)


def slow_checks(program):
    yield from searches(program, QUICK_PROGRAMS, PROGRAMS)
