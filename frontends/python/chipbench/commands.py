"""The commands of an installation of the module. If the program is inside it, `chipbench` is one of them."""

from __future__ import annotations

import os
import subprocess
import sys

from .errors import ChipbenchError
from .program import command_of, inner_program


def shell() -> int:
    """chipbench-shell: a debugger at the terminal."""
    from chipbench_shell.__main__ import main

    return main(sys.argv[1:])


def debug_adapter() -> int:
    """chipbench-dap: the debug adapter."""
    from chipbench_dap.__main__ import main

    main(sys.argv[1:])


def language_server() -> int:
    """chipbench-lsp: the language server."""
    from chipbench_lsp.__main__ import main

    main(sys.argv[1:])


def steps() -> int:
    """chipbench-steps: tests for emulators."""
    from chipbench_steps.__main__ import main

    return main(sys.argv[1:])


def program() -> int:
    """chipbench: the program inside this package. It replaces this process if the system can do that."""
    try:
        found = inner_program()
    except ChipbenchError as error:
        print(f"chipbench: {error}", file=sys.stderr)
        return 127
    if found is None:
        print("chipbench: this installation doesn't contain the program chipbench", file=sys.stderr)
        return 127
    words = command_of([found, *sys.argv[1:]])
    if os.name == "nt":
        return subprocess.run(words).returncode
    os.execvp(words[0], words)
