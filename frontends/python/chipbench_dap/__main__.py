"""The program chipbench-dap."""

from __future__ import annotations

import argparse
import sys
from pathlib import Path
from typing import NoReturn

sys.path.insert(0, str(Path(__file__).resolve().parent.parent))

from chipbench_dap.adapter import Adapter  # noqa: E402
from chipbench_dap.requests import HANDLERS  # noqa: E402
from chipbench_messages import serve_streams  # noqa: E402


def parser() -> argparse.ArgumentParser:
    words = argparse.ArgumentParser(
        prog="chipbench-dap",
        description="A debug adapter for sources of chipbench, on standard input and output.",
        allow_abbrev=False,
    )
    which = "the chipbench to run (default: $CHIPBENCH, the one beside the adapter, or the one on the PATH)"
    words.add_argument("--program", metavar="PATH", help=which)
    return words


def main(arguments: list[str]) -> NoReturn:
    program = parser().parse_args(arguments).program
    serve_streams(lambda reader, writer: Adapter(reader, writer, program, HANDLERS).serve())


if __name__ == "__main__":
    main(sys.argv[1:])
