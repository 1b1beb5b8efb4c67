"""The pages of `explain`: each example that can be written out has its code, or its answer."""
import pathlib
import re
import tempfile

CODES = [
    f"{letter}{number}"
    for letter, last in (("F", 17), ("W", 9), ("P", 6), ("N", 10), ("Q", 4), ("C", 2), ("E", 4), ("O", 3), ("S", 7))
    for number in range(1, last + 1)
]
WORDS = ["ins", "rep", "del", "kins", "krep", "kdel", "image", "syms", "list", "faults", "regs", "mem", "screen", "dis"]
# The codes whose example is too large to write out, or depends on the system.
TOLD = {"N2", "N3", "N4", "N9", "N10", "Q4", "C2", "E1", "E2", "E3", "E4", "O1", "O2", "O3"}


def examples(page):
    """The indented blocks of a page: a source, and maybe a script and its answer."""
    blocks = [[]]
    for line in page.splitlines():
        if line.startswith("    "):
            blocks[-1].append(line[4:])
        elif blocks[-1]:
            blocks.append([])
    return ["".join(line + "\n" for line in block) for block in blocks if block]


def answers(program, source, script):
    with tempfile.TemporaryDirectory() as folder:
        pathlib.Path(folder, "source").write_text(source)
        return program.run(["debug", "source"], script.encode(), folder).stdout.decode()


def warnings(program, source):
    """What `check` prints of a source for the profile vip, with what is executed."""
    with tempfile.TemporaryDirectory() as folder:
        pathlib.Path(folder, "source").write_text(source)
        return program.run(["check", "source", "--cover", "--profile", "vip"], b"", folder).stdout.decode()


def wrong_page(program, code):
    """What is wrong with the page on a code."""
    ran = program.run(["explain", code])
    page = ran.stdout.decode()
    if ran.status != 0 or not page.startswith(f"{code}: "):
        return f"status {ran.status}\n{page}"
    blocks = examples(page)
    if code in TOLD:
        return f"an example is written out\n{page}" if blocks else ""
    if len(blocks) == 2:
        found = answers(program, *blocks)
        is_so = found.endswith(f"no {code}\n")
    elif code.startswith(("W", "P")):
        found = warnings(program, blocks[0])
        last = blocks[0].count("\n")
        is_so = re.search(rf"^source:{last}:[0-9]+: {code}: ", found, re.MULTILINE)
    elif code.startswith("S"):
        found = answers(program, blocks[0], "regs 100\n")
        is_so = f" {code}\nflags " in found
    else:
        found = answers(program, blocks[0], "faults\n")
        is_so = found.endswith(f" {code}\n.\n")
    return "" if is_so else f"{page}\nand it answers\n{found}"


def wrong_contents(program):
    """What is wrong with the list of the codes."""
    lines = program.run(["explain"]).stdout.decode().splitlines()
    found = [line.split(" ")[0] for line in lines]
    return "" if sorted(found) == sorted(CODES + WORDS) else f"the codes are {found}"


def wrong_word(program, word):
    """What is wrong with the page on a word that begins a command."""
    page = program.run(["explain", word.upper()]).stdout.decode()
    source, script, answer = examples(page)
    if not page.startswith(f"{word}: `{word}") or word not in script:
        return page
    found = answers(program, source, script)
    return "" if found == answer else f"{page}\nand it answers\n{found}"


def checks(program):
    yield "the codes", lambda: wrong_contents(program)
    for code in CODES:
        yield code, lambda code=code: wrong_page(program, code)
    for word in WORDS:
        yield word, lambda word=word: wrong_word(program, word)
