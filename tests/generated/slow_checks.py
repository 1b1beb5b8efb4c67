"""65 sources that give `check` much to do: it takes little more processor time than `list`.

They have a fault, a warning or much text on each line, or names that are hard to look up. Each time is the best of several runs. The
bound is twice what a quiet machine shows, and `list` counts as two milliseconds at least, since a process takes one to start.
"""
import itertools
import os
import pathlib
import random
import tempfile

LINES = 4_000
LINE_BYTES = 200
NAME_BYTES = 64
# As many lines with two bytes of code as fit into the memory.
CODE_LINES = 1_790
RUNS = 3
# How many times the time of `list` a run of `check` may take.
TIMES = 40
LEAST_SECONDS = 0.002


def full(front, part, end=""):
    """A line of as many bytes as there may be: its front, a part again and again, and its end."""
    return front + part * ((LINE_BYTES - len(front) - len(end)) // len(part)) + end


def values(names):
    """Lines that give names the value 1."""
    return [f"{name} EQU 1" for name in names]


def alike(count, letters, seed):
    """Names of as many bytes as there may be, of these letters alone."""
    pick = random.Random(seed)
    return ["N" + "".join(pick.choices(letters, k=NAME_BYTES - 1)) for _ in range(count)]


def unlike_at_end(count, front):
    """Names of as many bytes as there may be, which are unlike in their last ones alone."""
    return [f"{front}{number:0>{NAME_BYTES - len(front)}}" for number in range(count)]


def short_names(count):
    """Names of three bytes, none of them a reserved word."""
    triples = itertools.product("GHJKLMNOPQRSTUVWXYZ", "GHJKLMNOPQRSTUVWXYZ", "GHJKMPQTUXYZ0123456789")
    return ["".join(triple) for triple in itertools.islice(triples, count)]


def near_names(known, unknown):
    """Lines that give names values, and lines that want others."""
    return [*values(known), *(f"DB {name}" for name in unknown)]


def sums(names, wanted, end):
    """Lines that give names values, and then lines that each have the sum of the last ones and an end."""
    return [*values(names), *["DB " + "+".join(names[-wanted:]) + end] * (LINES - len(names))]


def chain(end):
    """Names that each take their value from the ones before."""
    follows = (f"E{number} EQU (E{number - 1}+E{number - 2}-E{number - 3})&7{end}" for number in range(3, LINES))
    return ["E0 EQU 1", "E1 EQU 1", "E2 EQU 1", *follows]


def nested(depth, inside):
    """IFs in one another, and the lines in the innermost."""
    return ["DEFINE ON", *["IFDEF ON"] * depth, *inside, *["ENDIF"] * depth]


def legal_lines():
    """Lines without a fault, and how many of each."""
    yield "parentheses and signs", "DB " + "(" * 16 + "~" * 164 + "1" + ")" * 16, CODE_LINES
    yield "signs", full("DB ", "~-+", "1"), CODE_LINES
    yield "pairs of parentheses", full("DB 0", "+(1)"), CODE_LINES
    yield "parentheses 16 deep", "DB " + "((((((((((((((((1))))))))))))))))+" * 5 + "1", CODE_LINES
    yield "sums", full("DW 1", "+1"), CODE_LINES
    yield "shifts", full("DW 1", "<0>0"), CODE_LINES
    yield "blanks", full("", " "), LINES
    yield "blanks before an instruction", full("", "\t", "CLS"), CODE_LINES
    yield "blanks between words", full("LD", " ", "V0,1"), CODE_LINES
    yield "comments", full(";", "-"), LINES
    yield "words that count for nothing", full("USED", " V0"), LINES


FAULTY = {
    "parentheses and signs, out of range": "DB " + "(" * 16 + "~" * 162 + "999" + ")" * 16,
    "parentheses and signs without their end": "DB " + "(" * 16 + "~" * 164 + "1" + ")" * 15,
    "bad characters": full("", "?"),
    "a bad character at the end": full("DB 1", ",1", "?"),
    "unfinished texts": full("DB '", "x"),
    "parentheses 17 deep": full("DB ", "("),
    "commas": full("DB ", ","),
    "commas after an instruction": full("LD ", ","),
    "registers for values": full("DB 1", ",V1"),
    "registers in sums": full("DB 1", "+V1"),
    "reserved words in a sum": full("DB 1", "+HIGH"),
    "names in a sum without its end": full("DB 1", "+AB", "+"),
    "a parenthesis without its end": full("DB (1", "+A"),
    "too few operands": "LD V0",
    "too many operands": full("LD V0", ",V1"),
    "operands of no form": "DRW 1, 2, V3",
    "unknown words": "FOO V0",
    "unknown words of 200 bytes": full("", "FOOBAR"),
    "unknown words like an instruction": "ALIGM ON",
    "unknown words of 9 bytes": "ALIGNMENT 5",
    "words that may be labels": full("LOPO LD V0,1", "+1"),
    "words of other assemblers": "MOV V0, 1",
    "numbers of other assemblers": "LD V0, 0x10",
    "SYS out of range": "SYS 4096",
    "registers as names": "V1 EQU 5",
    "directives as names": "OPTION: CLS",
    "names of 200 bytes": full("", "N", ":"),
    "values out of range": full("DB 256", "+1"),
    "the last value out of range": full("DB 1", ",1", ",256"),
    "zero divisors": full("DB 1", "+1", "/0"),
    "stray ENDIFs": "ENDIF",
    "IFs without their ends": "IFUND X",
    "not in the profile": "INCLUDE 'x'",
    "control bytes": full("", "\x01"),
    "bytes that are no UTF-8": full("", "\xff"),
    "sums of unknown names": full("DB 1", "+UNKNOWN"),
}


def many_names():
    """Names that are alike, unknown, unused, or used often."""
    for letters in ("AB", "ABCDEFGH"):
        yield f"300 names of the letters {letters}", near_names(alike(300, letters, 1), alike(300, letters, 2))
    yield "2,000 unknown names beside 30", near_names(alike(30, "ABC", 1), alike(2000, "ABC", 2))
    yield "2,000 unknown names beside 2,000", near_names(unlike_at_end(2000, "N"), unlike_at_end(2000, "M"))
    yield "names that are there", [*values(short_names(2000)), *values(short_names(2000))]
    yield "labels that no line uses", [f"{name}: CLS" for name in unlike_at_end(CODE_LINES, "L")]
    yield "values that no line uses", values(unlike_at_end(LINES, "N"))
    yield "sums of 47 names, out of range", sums(short_names(2000), 47, "+999")
    yield "sums of 47 names and an unknown one", sums(short_names(2000), 47, "+QQQQ")
    yield "sums of 2 long names, out of range", sums(unlike_at_end(2000, "N"), 2, "+999")
    yield "values of values", chain("")
    yield "values of values and an unknown one", chain("+UNKNOWN")
    yield "IFs in one another", nested(1999, [])
    yield "IFs in one another, and unknown names", nested(1000, ["DB UNKNOWN"] * 1999)


def warned_lines():
    """Sources of which most lines have a warning."""
    yield "rows that ALIGN splits", ["DB 1"] * CODE_LINES
    yield "jumps to data", ["DB 1, 2", *["JP 512"] * (CODE_LINES - 1)]
    yield "jumps to 256 bytes", ["JP V0, 0"] * CODE_LINES


def sources():
    """The sources, each with its name."""
    for name, line, count in legal_lines():
        yield name, [line] * count
    for name, line in FAULTY.items():
        yield name, [line] * LINES
    yield "all faults in turn", list(itertools.islice(itertools.cycle(FAULTY.values()), LINES))
    yield from many_names()
    yield from warned_lines()


def seconds(program, command, file):
    """The processor time of a run of a command on a file."""
    nowhere = [(os.POSIX_SPAWN_OPEN, stream, os.devnull, os.O_WRONLY, 0) for stream in (1, 2)]
    child = os.posix_spawn(program.file, [program.file, command, file], os.environ, file_actions=nowhere)
    used = os.wait4(child, 0)[2]
    return used.ru_utime + used.ru_stime


def ratio(program, source):
    """How many times the time of `list` a run of `check` takes."""
    with tempfile.TemporaryDirectory() as folder:
        file = pathlib.Path(folder, "source")
        file.write_bytes("".join(line + "\n" for line in source).encode("latin-1"))
        lists, checks = (min(seconds(program, command, file) for _ in range(RUNS)) for command in ("list", "check"))
        return checks / max(lists, LEAST_SECONDS)


def wrong_time(program, source):
    """What is wrong with the time of `check`."""
    found = ratio(program, source)
    return "" if found <= TIMES else f"it takes {found:.0f} times as long as list, and not {TIMES} at most"


def checks(program):
    for name, source in sources():
        yield name, lambda source=source: wrong_time(program, source)
