#!/usr/bin/env python3
"""Writes the tables of the language server and of the page from the tables of the documents.

    frontends/python/generate_tables.py           writes chipbench_lsp/tables.json and frontends/page/static/language_table.mjs
    frontends/python/generate_tables.py --check   writes nothing; the status is 1 if a file differs from the documents' tables

Instructions come from the tables of docs/MACHINE.md (with SYS, which only docs/LANGUAGE.md has), directives and faults from
docs/LANGUAGE.md, stops from docs/MACHINE.md, the reserved words from crates/chip_lang/specs/Keyword.antt.
"""

from __future__ import annotations

import json
import re
import sys
from pathlib import Path
from typing import Any

PYTHON = Path(__file__).resolve().parent
TOP = PYTHON.parents[1]
TABLES = PYTHON / "chipbench_lsp" / "tables.json"
FOR_THE_PAGE = TOP / "frontends" / "page" / "static" / "language_table.mjs"


def read(path: str) -> str:
    return (TOP / path).read_text(encoding="utf-8")


def rows(text: str, header: str) -> list[list[str]]:
    """The rows of the first table whose header begins so."""
    at = text.index("\n" + header)
    found = []
    for line in text[at + 1 :].split("\n")[2:]:
        if not line.startswith("|"):
            break
        cells = re.split(r"(?<!\\)\|", line)[1:-1]
        found.append([cell.strip().replace("\\|", "|") for cell in cells])
    return found


def quoted(cell: str) -> list[str]:
    return re.findall(r"`([^`]*)`", cell)


def instructions(machine: str) -> list[dict[str, Any]]:
    vip = {quoted(word)[0]: text for word, _, _, text in rows(machine, "| Word | Source | `schip` | `vip` |")}
    found = []
    for word, source, effect, stops in rows(machine, "| Word | Source | Effect | Stops |"):
        pattern = quoted(word)[0]
        forms = [form for form in quoted(source)]
        # the cell is shown without the table below it
        effect = effect.removesuffix(", see below")
        also = vip.get(pattern, "") or (f"n = 0: {vip['DXY0']}" if pattern == "DXYN" else "")
        found.append({"word": pattern, "forms": forms, "effect": effect, "stops": stops, "vip": also})
    found.append({
        "word": "0NNN", "forms": ["SYS a"], "stops": "", "vip": "",
        "effect": "the word a, which the machine reads as any other word",
    })
    return found


def directives(language: str, words: list[str]) -> dict[str, dict[str, Any]]:
    found: dict[str, dict[str, Any]] = {word: {"forms": [], "effect": "not in this assembler (F17)"} for word in words}
    for line, effect in rows(language, "| Line | What it does |"):
        for form in quoted(line):
            for word in re.findall(r"[A-Z]{2,}", form):
                if word in found and word not in ("ON", "OFF"):
                    found[word]["forms"].append(form)
                    found[word]["effect"] = effect.removesuffix(", see below")
    return found


def reserved(keywords: str) -> dict[str, list[str]]:
    found = {}
    for name in ("directives", "specials"):
        table = re.search(rf"^{name} =\n.*?\[\]$", keywords, re.DOTALL | re.MULTILINE)
        assert table is not None
        found[name] = re.findall(r'codes "(\w+)"', table.group(0))
    return found


def options(language: str) -> list[str]:
    line = next(cells[0] for cells in rows(language, "| Line | What it does |") if cells[0].startswith("`OPTION"))
    return re.findall(r"[A-Z0-9]{5,}", line.split("one of", 1)[1])


def tables() -> dict[str, Any]:
    machine, language = read("docs/MACHINE.md"), read("docs/LANGUAGE.md")
    words = reserved(read("crates/chip_lang/specs/Keyword.antt"))
    return {
        "instructions": instructions(machine),
        "directives": directives(language, words["directives"]),
        "parts": words["specials"],
        "options": options(language),
        "faults": {code: meaning for code, meaning, _ in rows(language, "| Fault | Meaning | Example |")},
        "stops": {code: because for code, because in rows(machine, "| Stop | ")},
    }


def for_the_page(found: dict[str, Any]) -> str:
    """The module that has the words of the language: instructions as they are under `schip`, directives and the other words."""
    from chipbench_lsp.tables import CONDITIONS

    def plain(text: str) -> str:
        return re.sub(r" \(\*own\*[^)]*\)|, see below", "", text).replace("`", "")

    instructions = [
        {
            "word": row["word"],
            "forms": row["forms"],
            "effect": plain(row["effect"]),
            "stops": row["stops"],
            # not an instruction where the quirk `instructions` is `base`
            "isSuper": row["vip"].startswith("not an instruction"),
        }
        for row in found["instructions"]
    ]
    directives = {word: {"forms": row["forms"], "effect": plain(CONDITIONS.get(word, row["effect"]))} for word, row in found["directives"].items()}
    rows = "".join(f"  {json.dumps(row, ensure_ascii=False)},\n" for row in instructions)
    words = "".join(f"  {json.dumps(word)}: {json.dumps(row, ensure_ascii=False)},\n" for word, row in directives.items())
    return (
        "// Written by frontends/python/generate_tables.py of the tables of docs/MACHINE.md and docs/LANGUAGE.md.\n\n"
        f"/** The instructions, with their effects under `schip`. */\nexport const INSTRUCTIONS = [\n{rows}];\n\n"
        f"/** The directives. */\nexport const DIRECTIVES = {{\n{words}}};\n\n"
        f"/** The words besides V0 to VF that stand for parts of the machine. */\nexport const PARTS = {json.dumps(found['parts'])};\n"
    )


def main(arguments: list[str]) -> int:
    is_check = arguments == ["--check"]
    if arguments and not is_check:
        print(__doc__, file=sys.stderr)
        return 2
    found = tables()
    status = 0
    texts = {TABLES: json.dumps(found, indent=1, ensure_ascii=False) + "\n", FOR_THE_PAGE: for_the_page(found)}
    for path, text in texts.items():
        if not is_check:
            path.write_text(text, encoding="utf-8")
        elif not path.is_file() or path.read_text(encoding="utf-8") != text:
            print(f"{path.relative_to(TOP)} differs from the documents' tables: run frontends/python/generate_tables.py", file=sys.stderr)
            status = 1
    return status


if __name__ == "__main__":
    sys.exit(main(sys.argv[1:]))
