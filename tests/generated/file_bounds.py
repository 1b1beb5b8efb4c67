"""Files of the most bytes that are read, and of one byte more: the first are taken, and the others refused by their size."""
import pathlib
import tempfile

SOURCE = "LD V0, 5\n"
KEYS, TRACE, CASES = 10_000_000, 250_000_000, 10_000_000
HEADER = b"# step v0\n0 00\n"
# Each kind of file: how many bytes it has at most, its first bytes, those that follow again and again, the words of the
# command, and the status and the first bytes of the output where the file is taken.
FILES = {
    "key events": (KEYS, b"", b"; a comment\n", ["run", "source", "--steps", "1", "--keys", "file"], 0, b"v 05 "),
    "a trace": (TRACE, HEADER, b"1 00\n", ["trace", "source", "--steps", "0", "--against", "file"], 1, b"differs at step 1: "),
    "cases": (CASES, b"case a\n> syms\n.\n", b"# a comment\n", ["test", "file"], 0, b"1 passed, 0 failed\n"),
}
IN_A_CASE = b"case a file of key events\nkeys keys\n> syms\n.\n"


def filled(size, first, again):
    """So many bytes, of which the last line may be cut."""
    return (first + again * ((size - len(first)) // len(again) + 1))[:size]


def wrong_run(program, words, name, content, expected):
    """What is wrong with a run on a file of that content."""
    with tempfile.TemporaryDirectory() as folder:
        pathlib.Path(folder, "source").write_text(SOURCE)
        pathlib.Path(folder, "case").write_bytes(IN_A_CASE)
        pathlib.Path(folder, name).write_bytes(content)
        ran = program.run(words, b"", folder)
    status, output, errors = expected
    if (ran.status, ran.stderr) != (status, errors):
        return f"status {ran.status} and {ran.stderr[:80]}"
    return "" if ran.stdout.startswith(output) else f"{ran.stdout[:80]} and not {output}"


def over(name, most):
    """How a command ends that reads a file of more bytes."""
    return 3, b"", f"chipbench: cannot read {name}\nreason: it has over {most} bytes\n".encode()


def checks(program):
    for name, (most, first, again, words, status, output) in FILES.items():
        yield f"{name}, the most bytes", lambda most=most, first=first, again=again, words=words, status=status, output=output: (
            wrong_run(program, words, "file", filled(most, first, again), (status, output, b""))
        )
        yield f"{name}, one byte more", lambda most=most, first=first, again=again, words=words: (
            wrong_run(program, words, "file", filled(most + 1, first, again), over("file", most))
        )
    yield "key events of a case, the most bytes", lambda: (
        wrong_run(program, ["test", "case"], "keys", filled(KEYS, b"", b"; a comment\n"), (0, b"1 passed, 0 failed\n", b""))
    )
    yield "key events of a case, one byte more", lambda: (
        wrong_run(
            program,
            ["test", "case"],
            "keys",
            filled(KEYS + 1, b"", b"; a comment\n"),
            (3, b"", b"chipbench: case:2: cannot read the file that this line names, from the folder of case\nreason: it has over 10000000 bytes\n"),
        )
    )
