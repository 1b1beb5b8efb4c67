#!/usr/bin/env python3
"""Makes game.js, the script of the page of a game. It is a file of the repository, since whoever exports a game has no esbuild.

    frontends/web/game_script.py             writes it
    frontends/web/game_script.py --check     says whether it is of these modules; where the esbuild that made it is here, its bytes too
"""

import hashlib
import os
import re
import sys

sys.dont_write_bytecode = True
HERE = os.path.dirname(os.path.abspath(__file__))
sys.path.insert(0, HERE)

import bundle  # noqa: E402
from one_file import text_of  # noqa: E402

FILE = os.path.join(HERE, "game.js")
MODULES = ("session.mjs", "game.mjs", "game_start.mjs")
NOTE = re.compile(r"// Made by frontends/web/game_script\.py, with esbuild (\S+), of modules with the checksum (\w+)\.\n")


def checksum():
    return hashlib.sha256("".join(text_of(HERE, name) for name in MODULES).encode()).hexdigest()


def made():
    """The script, below what it is made of."""
    note = f"// Made by frontends/web/game_script.py, with esbuild {bundle.version()}, of modules with the checksum {checksum()}.\n"
    return f"{note}{bundle.script(['game_start.mjs'], 'iife')}\n"


def check():
    """What is wrong with the file, or nothing."""
    found = text_of(HERE, "game.js")
    noted = NOTE.match(found)
    if noted is None or noted[2] != checksum():
        return "game.js is of other modules"
    if noted[1] != bundle.version():
        print(f"game.js: its bytes weren't compared, since esbuild {noted[1]} made it, and this is {bundle.version() or 'none (Debian: esbuild)'}")
        return ""
    return "" if found == made() else "game.js has other bytes than its modules give"


def main(words):
    if words == ["--check"]:
        wrong = check()
        if wrong:
            print(f"frontends/web/game_script.py: {wrong}: run it")
        return 1 if wrong else 0
    if words:
        print(__doc__, file=sys.stderr)
        return 2
    with open(FILE, "w", encoding="utf-8") as file:
        file.write(made())
    return 0


if __name__ == "__main__":
    sys.exit(main(sys.argv[1:]))
