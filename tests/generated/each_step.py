"""A program that counts in its own code, asked at each step, in order and backwards.

Six steps are a round. A round adds one to a byte of the program: by its third step in V0, by its fourth in the
memory, and by its fifth in V3.
"""
import pathlib
import tempfile

SOURCE = "L: LD I, T + 1\nLD V0, [I]\nADD V0, 1\nLD [I], V0\nT: LD V3, 0\nJP L\n"
LAST = 600
SETTINGS = ["--rate", "10", "--tape", "a55a3c", "--every", "1000"]


def commands(step):
    return [f"regs {step}", f"mem {step} #208 2"]


def answers(step):
    """The registers after so many steps, and the word that changes."""
    rounds, rest = divmod(step, 6)
    v0, byte, v3 = rounds + (rest >= 3), rounds + (rest >= 4), rounds + (rest >= 5)
    pointer = 0 if step == 0 else 0x209
    return [
        f"v {v0:02x} 00 00 {v3:02x}" + " 00" * 12,
        f"pc {0x200 + 2 * rest:04x} i {pointer:04x} dt 00 st 00 draws 0 low run",
        "flags" + " 00" * 8 + " stack",
        f"63{byte:02x}",
    ]


def wrong_answers(program, steps):
    """What is wrong with the answers at these steps, asked in this order."""
    with tempfile.TemporaryDirectory() as folder:
        pathlib.Path(folder, "source").write_text(SOURCE)
        script = "".join(line + "\n" for step in steps for line in commands(step))
        ran = program.run(["debug", "source", *SETTINGS], script.encode(), folder)
    found = ran.stdout.decode().splitlines()
    expected = [line for step in steps for line in answers(step)]
    for place, (one, other) in enumerate(zip(expected, found)):
        if one != other:
            return f"at step {steps[place // 4]}: {other}\nand not: {one}"
    return "" if len(found) == len(expected) else f"{len(found)} lines and not {len(expected)}"


def checks(program):
    steps = list(range(LAST + 1))
    yield "each step is told in order", lambda: wrong_answers(program, steps)
    yield "each step is told backwards", lambda: wrong_answers(program, steps[::-1])
