"""The program chipbench-lsp."""

from __future__ import annotations

import argparse
import sys
from pathlib import Path
from typing import NoReturn

sys.path.insert(0, str(Path(__file__).resolve().parent.parent))

from chipbench_lsp.server import Server  # noqa: E402
from chipbench_messages import serve_streams  # noqa: E402


def parser() -> argparse.ArgumentParser:
    words = argparse.ArgumentParser(
        prog="chipbench-lsp", description="A language server for sources of chipbench, on standard input and output."
    )
    which = "the chipbench to run (default: $CHIPBENCH, the one beside the server, or the one on the PATH)"
    words.add_argument("--program", metavar="PATH", help=which)
    words.add_argument("--stdio", action="store_true", help="ignored: the server always uses standard input and output")
    return words


def main(arguments: list[str]) -> NoReturn:
    program = parser().parse_args(arguments).program
    serve_streams(lambda reader, writer: Server(reader, writer, program).serve())


if __name__ == "__main__":
    main(sys.argv[1:])
