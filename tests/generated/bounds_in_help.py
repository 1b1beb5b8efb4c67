"""The numbers and names in help: each is taken, and no other one beside them.

Help is read here: `A to B` of an option gives the least and the greatest number, and texts in backticks or between bars give names. The
source is missing, which is found once all arguments are taken. DEFAULTS has what help calls the default of an option, and a value that
gives another answer.
"""
import pathlib
import re
import tempfile

REFUSED, UNREAD = 2, 3
# The commands that have options with numbers or names, and the words that each one needs.
COMMANDS = {"debug": [], "run": ["--steps=1"], "trace": ["--steps=1"], "picture": ["--steps=1", "--png=a.png"], "check": [], "explore": [], "prove": []}
NUMBERS = {"--steps", "--rate", "--seed", "--scale", "--every", "--states", "--memory", "--seconds"}
PROFILES = {"schip", "vip", "chip48", "schip10", "schip-modern", "octo"}
# How many numbers of options each command's help has at least.
COUNTS = {"debug": 4, "run": 4, "trace": 4, "picture": 5, "check": 3, "explore": 7, "prove": 7}
SOURCE = "LD V0, #81\nLD V1, 9\nLD DT, V1\nSHR V0, V1\nRND V2, #FF\nLD I, #300\nLD [I], V1\nLOOP: SKP V3\nJP LOOP\nJP LOOP\n"
# The command, the option, its default, and a value that gives another answer.
DEFAULTS = [
    ("run", "--rate", "10", "7"),
    ("run", "--tape", "00", "01"),
    ("run", "--profile", "schip", "vip"),
    ("trace", "--from", "0", "1"),
    ("trace", "--rate", "10", "7"),
    ("trace", "--profile", "schip", "vip"),
    ("check", "--color", "auto", "always"),
]


def help_of(program, command):
    """The text of each option or argument of a command, by its name."""
    text = program.run(["help", command]).stdout.decode()
    return dict(re.findall(r"^ +(--[\w-]+|\[\w+\]|<\w+>)(?: <\w+>)?(?:\.\.\.)? {2,}(.*)$", text, re.M))


def status_of(program, command, option, value, folder):
    needed = [word for word in COMMANDS[command] if not word.startswith(option + "=")]
    return program.run([command, *needed, f"{option}={value}", "missing"], b"", folder).status


def wrong_values(program, command, option, taken, refused):
    """What is wrong with values of an option that are taken, and others that are refused."""
    with tempfile.TemporaryDirectory() as folder:
        for expected, values in ((UNREAD, taken), (REFUSED, refused)):
            for value in values:
                status = status_of(program, command, option, value, folder)
                if status != expected:
                    return f"{command} {option}={str(value)[:80]}: status {status} and not {expected}"
    return ""


def values_of(option, text):
    """The values that a help text says are taken, and some beside them."""
    numbers = re.search(r"(\d+) to (\d+)", text)
    least, most = map(int, numbers.groups()) if numbers else (None, None)
    if option in NUMBERS:
        return [least, most], [least - 1, most + 1]
    if option == "--tape":
        return ["ab" * least, "ab" * most], ["", "ab" * (most + 1)]
    if option == "--keys-allowed":
        first, last = re.search(r"or (\w) to (\w)", text).groups()
        return [least, most, first, last], [most + 1, chr(ord(last) + 1)]
    if option in ("--want", "--allow"):
        ranges = re.findall(r"([A-Z])(\d) to ([A-Z])(\d)", text)
        ends = [(letter, int(first), int(last)) for letter, first, _, last in ranges]
        return (
            [f"{letter}{k}" for letter, first, last in ends for k in (first, last)],
            [f"{letter}{k}" for letter, first, last in ends for k in (first - 1, last + 1)],
        )
    if option == "--profile":
        return re.findall(r"`([\w-]+)`", text), ["schip11", "chip8"]
    if option == "--color":
        return re.findall(r"`([\w-]+)`", text.split(".")[0]), ["sometimes"]
    if option == "--quirks":
        lists = re.findall(r"(\w+)=([\w+|]+)", text)
        choices = [f"{quirk}={value}" for quirk, values in lists for value in values.split("|")]
        return choices, [f"{choice}x" for choice in choices]
    return None


def wrong_help(program, command):
    """What is wrong with the options of a command."""
    options = help_of(program, command)
    count = 0
    for option, text in options.items():
        values = values_of(option, text)
        if values is None:
            continue
        count += option in NUMBERS or option == "--tape"
        told = wrong_values(program, command, option, *values)
        if told:
            return told
        if option == "--profile" and set(values[0]) != PROFILES:
            return f"{command}: the profiles are {values[0]}"
    return "" if count >= COUNTS[command] else f"{command}: only {count} options have numbers"


def wrong_default(program, command, option, default, other):
    """What is wrong with the default of an option."""
    text = help_of(program, command)[option]
    named = re.search(r"\[default: ([^\]]*)\]", text).group(1)
    if named != default:
        return f"help names the default {named} and not {default}"
    with tempfile.TemporaryDirectory() as folder:
        pathlib.Path(folder, "source").write_text(SOURCE)
        words = [command, "source", *(["--steps=40"] if command != "check" else [])]
        usual, same, unlike = (program.run([*words, *more], b"", folder) for more in ([], [f"{option}={default}"], [f"{option}={other}"]))
    if usual != same:
        return f"without {option} it prints {usual.stdout}, and with {default} {same.stdout}"
    return f"{other} prints what {default} does" if same == unlike else ""


def wrong_codes(program):
    """What is wrong with the codes that `explain` names: each range has its last code and none after it."""
    text = help_of(program, "explain")["[CODE]"]
    ranges = re.findall(r"([A-Z])(\d+) to ([A-Z])(\d+)", text)
    alone = re.findall(r", ([A-Z]\d)(?=,)", text)
    last = {letter: int(last) for letter, _, _, last in ranges}
    last.update({code[0]: int(code[1:]) for code in alone})
    for letter, most in last.items():
        for number in range(0, most + 2):
            expected = 0 if 1 <= number <= most else REFUSED
            status = program.run(["explain", f"{letter}{number}"]).status
            if status != expected:
                return f"explain {letter}{number}: status {status} and not {expected}"
    return "" if set(last) == set("FWPNQCEOS") else f"help names codes with {sorted(last)}"


def wrong_image_size(program):
    """What is wrong with the greatest image that `dis` takes."""
    most = int(re.search(r"at most (\d+) bytes", help_of(program, "dis")["<IMAGE>"]).group(1))
    with tempfile.TemporaryDirectory() as folder:
        pathlib.Path(folder, "full").write_bytes(most * b"\0")
        pathlib.Path(folder, "over").write_bytes((most + 1) * b"\0")
        statuses = [program.run(["dis", name], b"", folder).status for name in ("full", "over")]
    return "" if statuses[0] == 0 and statuses[1] != 0 else f"{statuses} for {most} bytes and one more"


def checks(program):
    for command in COMMANDS:
        yield f"numbers and names of {command}", lambda command=command: wrong_help(program, command)
    for row in DEFAULTS:
        yield f"default of {row[0]} {row[1]}", lambda row=row: wrong_default(program, *row)
    yield "codes of explain", lambda: wrong_codes(program)
    yield "size of an image", lambda: wrong_image_size(program)
