"""What the bridge serves: the page, the program in WebAssembly that the page runs, and the texts that the page shows."""

from __future__ import annotations

import sys
from pathlib import Path

HERE = Path(__file__).resolve().parent
#: frontends/ in the repository, share/chipbench/ where it is installed
TOP = HERE.parent
STATIC = HERE / "static"
WEB = TOP / "web"
KINDS = {
    ".html": "text/html; charset=utf-8",
    ".css": "text/css; charset=utf-8",
    ".mjs": "text/javascript; charset=utf-8",
    ".svg": "image/svg+xml",
    ".wasm": "application/wasm",
    ".asm": "text/plain; charset=utf-8",
    ".md": "text/plain; charset=utf-8",
    "": "text/plain; charset=utf-8",
}
#: the modules of frontends/web that the page and its workers are made of
MODULES = ("carrier", "memory_host", "options", "requests", "seed_tape", "session", "system", "trace_search", "worker")
PROGRAMS = ("session.wasm", "chipbench.wasm")
#: those that were built here come before those of the repository
PROGRAM_FOLDERS = (WEB / "out", TOP.parent / "release", WEB)
EXAMPLES = ("bounce.asm", "breaker.asm", "maze.asm")
EXAMPLE_FOLDERS = (TOP.parent / "examples", TOP.parent / "doc/chipbench/examples")
DOCUMENTS = ("LANGUAGE.md", "MACHINE.md", "FORMATS.md")
DOCUMENT_FOLDERS = (TOP.parent / "docs", TOP.parent / "doc/chipbench/docs")
LICENCES = "THIRD-PARTY"
LICENCES_FOLDERS = (TOP.parent, TOP)
#: the page of an exported game, which is made when it is asked for
GAME = "game.html"

sys.path.append(str(WEB))


def first_of(name: str, folders: tuple[Path, ...]) -> Path | None:
    """The file of that name in the first folder that has it."""
    return next((folder / name for folder in folders if (folder / name).is_file()), None)


def served_files() -> dict[str, Path]:
    """The files that are served, by their names."""
    found: dict[str, Path | None] = {path.name: path for path in STATIC.iterdir() if path.suffix in KINDS}
    found |= {f"{name}.mjs": WEB / f"{name}.mjs" for name in MODULES}
    for names, folders in ((PROGRAMS, PROGRAM_FOLDERS), (EXAMPLES, EXAMPLE_FOLDERS), (DOCUMENTS, DOCUMENT_FOLDERS), ((LICENCES,), LICENCES_FOLDERS)):
        found |= {name: first_of(name, folders) for name in names}
    return {name: path for name, path in found.items() if path is not None}


def missing_programs() -> list[str]:
    """Those of the modules in WebAssembly that aren't there: without them the page answers nothing."""
    return [name for name in PROGRAMS if first_of(name, PROGRAM_FOLDERS) is None]


def content_of(name: str, files: dict[str, Path]) -> tuple[str, bytes] | None:
    """The kind and the bytes of what is served under a name, or none."""
    if name == GAME:
        from one_file import game_template

        return KINDS[".html"], game_template().encode("utf-8")
    path = files.get(name)
    return None if path is None else (KINDS[path.suffix], path.read_bytes())
