"""The program chipbench-steps."""

from __future__ import annotations

import argparse
import re
import sys
from pathlib import Path

sys.path.insert(0, str(Path(__file__).resolve().parent.parent))

from chipbench import ChipbenchError, Ended, find_program  # noqa: E402

from chipbench_steps.files import Asked, rows_named, write_all  # noqa: E402
from chipbench_steps.folder import Others  # noqa: E402
from chipbench_steps.settings import Settings  # noqa: E402
from chipbench_steps.writing import progress  # noqa: E402

MOST_CASES = 10_000
MOST_PROGRAMS = 1000
FORMS = {"json": ("json",), "flat": ("flat",), "both": ("json", "flat")}


def parser() -> argparse.ArgumentParser:
    words = argparse.ArgumentParser(
        prog="chipbench-steps",
        usage="%(prog)s [OPTIONS] OUT",
        description="Writes tests for emulators into a folder: for each instruction, states before and after one step.",
        epilog="Both states are answers of chipbench, whose machine is proved. docs/EMULATORS.md says how to use them.",
        allow_abbrev=False,
    )
    words.add_argument("out", metavar="OUT", help="the folder, which is made where it isn't there")
    words.add_argument("--profile", metavar="NAME", default="schip", help="the machine (default: schip)")
    words.add_argument("--quirks", metavar="LIST", default="", help="what differs from the profile, such as shift=vx,edges=wrap")
    words.add_argument("--instruction", metavar="ROWS", help="only these rows of the instruction table, such as DXYN,8XY4")
    words.add_argument("--count", metavar="N", default="100", help=f"the cases of each row, 1 to {MOST_CASES} (default: 100)")
    words.add_argument("--seed", metavar="N", default="0", help="what is random follows from this number (default: 0)")
    words.add_argument("--programs", metavar="N", default="0", help=f"also whole programs, up to {MOST_PROGRAMS} (default: 0)")
    words.add_argument("--format", metavar="FORM", default="json", help="json, flat or both: flat has a line a case (default: json)")
    words.add_argument("--force", action="store_true", help="replaces files of another profile, or of an earlier format, in OUT")
    words.add_argument("--program", metavar="PATH", help="the program chipbench; by default $CHIPBENCH or the one beside this")
    return words


def number(words: argparse.Namespace, name: str, least: int, most: int) -> int:
    text = getattr(words, name)
    if not re.fullmatch(r"[0-9]{1,20}", text) or not least <= int(text) <= most:
        raise ValueError(f"--{name} is a number from {least} to {most}, and not {text}")
    return int(text)


def asked_for(words: argparse.Namespace) -> Asked:
    """What the arguments ask for. ValueError where one of them is faulty."""
    try:
        named = rows_named(words.instruction)
    except KeyError as error:
        raise ValueError(f"--instruction: the instruction table has no row {error.args[0]}; rows are 8XY4, DXYN ..") from None
    if words.format not in FORMS:
        raise ValueError(f"--format is json, flat or both, and not {words.format}")
    count, programs = number(words, "count", 1, MOST_CASES), number(words, "programs", 0, MOST_PROGRAMS)
    return Asked(named, count, words.instruction is None, programs, FORMS[words.format], words.force)


def settings_of(words: argparse.Namespace) -> Settings:
    seed = number(words, "seed", 0, 2**64 - 1)
    return Settings(words.program or find_program(), words.profile, words.quirks, seed)


def fail(reason: str, status: int) -> int:
    progress("")
    print(f"chipbench-steps: {reason}", file=sys.stderr)
    return status


def main(arguments: list[str]) -> int:
    words = parser().parse_args(arguments)
    try:
        asked = asked_for(words)
        removed = write_all(Path(words.out), settings_of(words), asked)
    except (ValueError, Others) as error:
        return fail(str(error), 2)
    except Ended as ended:
        return fail(ended.text.split("\n\n")[0].removeprefix("error: "), ended.status if ended.status > 0 else 3)
    except ChipbenchError as error:
        return fail(str(error), 3)
    except OSError as error:
        return fail(f"cannot write {error.filename or words.out}: {error.strerror}", 3)
    except KeyboardInterrupt:
        return fail("interrupted: the files in OUT are not complete", 130)
    progress("")
    if removed:
        more = f" and {len(removed) - 3} more" if len(removed) > 3 else ""
        print(f"chipbench-steps: removed files of an earlier run: {', '.join(removed[:3])}{more}", file=sys.stderr)
    return 0


if __name__ == "__main__":
    sys.exit(main(sys.argv[1:]))
