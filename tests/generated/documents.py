"""The examples of the documents: what they say is answered is what the program answers.

docs/FORMATS.md has sessions in which each command stands, docs/LANGUAGE.md a source for each fault. README.md and
docs/GUIDE.md are replayed by tools/guide.
"""
import pathlib
import re
import tempfile

from runner.sessions import Command, Session
from runner.texts import TOP


def section(file, heading):
    """The lines of a section, with their numbers."""
    level = heading.split(" ")[0]
    found = []
    for number, line in enumerate((TOP / file).read_text(encoding="utf-8").splitlines(), 1):
        if found and re.match(f"#{{1,{len(level)}}} ", line):
            break
        if found or line == heading:
            found.append((number, line))
    return found[1:]


def block(lines):
    """The indented lines, without their indentation."""
    return [(number, line[4:]) for number, line in lines if line.startswith("    ")]


def session(file, lines):
    """The session that lines of a document show: a source, and after `> ` commands with their answers."""
    shown = Session(pathlib.Path(file), lines[0][0], f"of line {lines[0][0]}")
    for number, line in lines:
        if line == ">" or line.startswith("> "):
            shown.commands.append(Command(number, line[2:], False))
        elif shown.commands:
            shown.commands[-1].answer += [line] if line else []
        elif line:
            shown.source += line.encode() + b"\n"
    return shown


def sessions_of_formats():
    lines = section("docs/FORMATS.md", "### An example of each command")
    starts = [at for at, (_, line) in enumerate(lines) if line.startswith("#### ")] + [len(lines)]
    for start, end in zip(starts, starts[1:]):
        yield lines[start][1][5:], session("docs/FORMATS.md", block(lines[start:end]))


def commands_of_formats():
    """The words of the table of commands."""
    rows = [line for _, line in section("docs/FORMATS.md", "## Scripts") if line.startswith("| `")]
    return {word for row in rows for word in re.findall(r"`([a-z]+)", row.split(" | ")[0])}


def commands_without_example(sessions):
    shown = {command.text.split(" ")[0] for _, it in sessions for command in it.commands}
    left = sorted(commands_of_formats() - shown)
    return f"no example has {left}" if left else ""


def fault_examples():
    """The code of each fault, and its example where one source is all that it shows."""
    for _, line in section("docs/LANGUAGE.md", "## Faults"):
        found = re.fullmatch(r"\| (F[0-9]+) \| [^|]* \| `([^`]*)` \|", line)
        if found:
            yield found.group(1), found.group(2).split(" / ")


def wrong_session(program, shown):
    with tempfile.TemporaryDirectory() as folder:
        return "\n".join(shown.failures(program, pathlib.Path(folder)))


def wrong_fault(program, code, lines):
    with tempfile.TemporaryDirectory() as folder:
        pathlib.Path(folder, "source").write_text("".join(line + "\n" for line in lines))
        found = program.run(["debug", "source"], b"faults\n", folder).stdout.decode()
    expected = f"{len(lines)} {code}\n.\n"
    return "" if found == expected else f"{found} and not {expected}"


def wrong_count(what, found, least):
    return "" if found >= least else f"only {found} {what} were found"


def checks(program):
    sessions, faults = list(sessions_of_formats()), list(fault_examples())
    yield "docs/FORMATS.md has 14 commands", lambda: wrong_count("commands", len(commands_of_formats()), 14)
    yield "docs/FORMATS.md has examples", lambda: commands_without_example(sessions)
    yield "docs/LANGUAGE.md has examples", lambda: wrong_count("examples", len(faults), 16)
    for name, shown in sessions:
        yield f"docs/FORMATS.md, {name}", lambda it=shown: wrong_session(program, it)
    for code, lines in faults:
        yield f"docs/LANGUAGE.md, {code}", lambda code=code, it=lines: wrong_fault(program, code, it)
