"""`test` on files of cases: those of tests/sessions, and a good one with each line cut and each byte changed."""
import pathlib
import tempfile

TOP = pathlib.Path(__file__).resolve().parent.parent.parent
GOOD = b"""# What holds for both cases.
tape 25
case runs
source
LD V0, 5
LOOP: ADD V0, 1
JP LOOP
end
rate 7
> rep 1 LD V0, 9
ok
> regs 1
v 09 00 00 00 00 00 00 00 00 00 00 00 00 00 00 00
...
! del 9
no N1

case presses a key
source game.asm
keys game.keys
> regs 6
v 0a 00 00 00 00 00 00 00 00 00 00 00 00 00 00 00
...

case an image
image game.ch8
> image
f00a
"""
# what its cases name
NAMED = {"game.asm": b"LD V0, K\n", "game.keys": b"5 10 down\n", "game.ch8": b"\xf0\x0a"}
# a file that can't be taken is named with its line, and so is an answer that isn't as expected
PLACE = (b"chipbench: game.test:", b"game.test:")


def run(program, text, *options):
    """How `test` ends on a file of cases, and whether it and the files that it names are as they were."""
    with tempfile.TemporaryDirectory() as name:
        folder = pathlib.Path(name)
        files = {"game.test": text, **NAMED}
        for file, content in files.items():
            (folder / file).write_bytes(content)
        ran = program.run(["test", *options, "game.test"], folder=folder)
        is_kept = {file.name: file.read_bytes() for file in folder.iterdir()} == files
    return ran, is_kept


def wrong_ending(program, text):
    """What is wrong with the end of a test of that file."""
    ran, is_kept = run(program, text)
    if not is_kept:
        return "a file was changed"
    if ran.status == 0:
        return "" if not ran.stderr and ran.stdout.endswith(b" passed, 0 failed\n") else f"{ran}"
    if ran.status == 1:
        return "" if not ran.stderr and ran.stdout.startswith(PLACE[1]) else f"{ran}"
    return "" if ran.status == 3 and not ran.stdout and ran.stderr.startswith(PLACE[0]) else f"{ran}"


def wrong_update(program, text):
    """An update makes a file whose cases pass, or leaves one that can't be taken as it was."""
    with tempfile.TemporaryDirectory() as name:
        folder = pathlib.Path(name)
        for file, content in {"game.test": text, **NAMED}.items():
            (folder / file).write_bytes(content)
        first = program.run(["test", "--update", "game.test"], folder=folder)
        second = program.run(["test", "game.test"], folder=folder)
        updated = (folder / "game.test").read_bytes()
    if first.status == 3:
        return "" if updated == text else "a file that can't be taken was changed"
    comments = [line for line in text.split(b"\n") if line.startswith(b"#")]
    if [line for line in updated.split(b"\n") if line.startswith(b"#")] != comments:
        return "comments were changed"
    return "" if second.status == 0 else f"{first} and then {second}"


def wrong_all(program):
    files = sorted(str(file) for file in (TOP / "tests" / "sessions").rglob("*.test"))
    ran = program.run(["test", *files])
    return "" if ran.status == 0 and ran.stdout.endswith(b" passed, 0 failed\n") else f"{ran}"


def changed():
    """The good file with each line cut away, cut in its midst, and with each byte changed."""
    lines = GOOD.splitlines(keepends=True)
    for number, line in enumerate(lines):
        before, after = b"".join(lines[:number]), b"".join(lines[number + 1 :])
        yield f"without line {number + 1}", before + after
        yield f"up to line {number + 1}", before
        yield f"with half of line {number + 1}", before + line[: len(line) // 2] + b"\n" + after
        yield f"up to half of line {number + 1}", before + line[: len(line) // 2]
    for place, byte in enumerate(GOOD):
        for other in (0, ord("\n"), ord("!"), byte ^ 1, 255):
            if other != byte:
                yield f"with {other} in place of byte {place}", GOOD[:place] + bytes([other]) + GOOD[place + 1 :]


def checks(program):
    yield "all files of tests/sessions", lambda: wrong_all(program)
    for name, text in changed():
        yield f"a file {name}", lambda text=text: wrong_ending(program, text)
    for name, text in list(changed())[::7]:
        yield f"an update of a file {name}", lambda text=text: wrong_update(program, text)
