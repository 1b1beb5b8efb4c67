"""A source of as many lines as there may be, every line with something to print: its names, its listing and its faults.

1,000 instructions, 1,000 names of a value, 1,000 comments and 1,000 lines with a fault take turns.
"""
import pathlib
import tempfile

LINES = 4_000


def written(is_faulty):
    """The lines of the source, its names, and its listing."""
    source, names, listing = [], [], []
    address = 0x200
    for number in range(1, LINES + 1):
        turn, byte = number % 4, number % 256
        if turn == 1:
            text, field = f"L{number}: LD V3, {byte}", f"63{byte:02x}"
            names.append(f"L{number} {address} {number}")
        elif turn == 2:
            text, field = f"N{number} EQU {number}", f"={number}"
            names.append(f"N{number} {number} {number}")
        elif turn == 3:
            text, field = f"; line {number}", ""
        else:
            text, field = ("LD", "F4") if is_faulty else ("", "")
        source.append(text)
        listing.append(f"{number:4} {address:04x} {field:12}  {text}")
        address += 2 if turn == 1 else 0
    return source, names, listing


def wrong_answer(program, command, is_faulty):
    """What is wrong with what the program prints of the source."""
    source, names, listing = written(is_faulty)
    faults = [f"{number} F4" for number in range(4, LINES + 1, 4)] if is_faulty else []
    expected = {"syms": names, "list": listing, "faults": faults}[command] + ["."]
    with tempfile.TemporaryDirectory() as folder:
        pathlib.Path(folder, "source").write_text("".join(line + "\n" for line in source))
        ran = program.run(["debug", "source"], f"{command}\n".encode(), folder)
        is_printed = command == "list" or command == "syms" and not is_faulty
        printed = program.run([command, "source"], b"", folder) if is_printed else ran
    for found in (ran, printed):
        lines = found.stdout.decode().splitlines()
        if lines != expected:
            unlike = next((at for at, pair in enumerate(zip(lines, expected)) if pair[0] != pair[1]), min(len(lines), len(expected)))
            return f"{len(lines)} lines and not {len(expected)}; from line {unlike + 1} on {lines[unlike:unlike + 2]} and not {expected[unlike:unlike + 2]}"
    return ""


def checks(program):
    for command in ("syms", "list", "faults"):
        for is_faulty in (False, True):
            what = "with faults" if is_faulty else "without a fault"
            yield f"{command}, {what}", lambda command=command, is_faulty=is_faulty: wrong_answer(program, command, is_faulty)
