"""Completions: the texts that can be written at a place."""

from __future__ import annotations

import itertools
import re
from typing import Any

from chipbench import ChipbenchError

from .document import Document, OverLimits
from .hover import directive_text, row_text
from .language import defined_in, in_all_bases, read_line
from .operands import ANY_REGISTER, VALUES, place_in, wanted_at
from .properties import is_property, words
from .tables import DIRECTIVES, INSTRUCTIONS, OPTIONS, PARTS, REGISTERS

KEYWORD, SNIPPET, VALUE, VARIABLE, CONSTANT, FUNCTION = 14, 15, 12, 6, 21, 3
NAMED = (CONSTANT, FUNCTION)
# The most names of the source in an answer.
MOST_NAMES = 200
# The most rows of a sprite.
MOST_ROWS = 15
FIELD = re.compile(r"Vx|Vy|\bkk\b|\ba\b|\bn\b")
WORD_BEFORE = re.compile(r"[A-Za-z0-9_]*$")
NAME_ONLY = ("IFDEF", "IFUND", "USED", "XREF")
# Words that may follow a directive that takes an expression and no register.
VALUES_ONLY = ("ORG", "DB", "DW", "DS", "EQU", "=")


def complete(document: Document, number: int, place: int, has_snippets: bool) -> Any:
    """The completions at a place. If there are more names than it offers, the answer says that it isn't complete, so that the
    client asks again once the user has typed more."""
    text = document.line(number)[:place]
    prefix = WORD_BEFORE.search(text)
    assert prefix is not None
    found = matching(document, number, prefix.start(), place, items_at(document, text, prefix[0], has_snippets))
    if sum(item["kind"] in NAMED for item in found) < MOST_NAMES:
        return found
    return {"isIncomplete": True, "items": found}


def items_at(document: Document, text: str, begun: str, has_snippets: bool) -> list[dict[str, Any]]:
    """The texts that may follow at the end of a text whose last letters begin a word."""
    start = len(text) - len(begun)
    before = read_line(text[:start])
    if is_property(text):
        return [*words(), *all_names(document, begun)]
    if before.comment is not None or before.is_bad or (start > 0 and text[start - 1] in "#@$"):
        return []
    if before.head is None:
        return statements(has_snippets)
    if before.mnemonic is not None:
        return instruction_operands(document, text[:start], begun)
    return operands(document, before.head.upper, begun)


def matching(document: Document, number: int, start: int, place: int, items: list[dict[str, Any]]) -> list[dict[str, Any]]:
    """The items that begin as what is typed between two places of a line, with their edits."""
    typed = document.line(number)[start:place]
    wanted = typed.upper()
    found = [item for item in items if item.get("filterText", item["label"]).upper().startswith(wanted)]
    is_lower = typed != "" and typed == typed.lower() and typed != wanted
    span = document.columns.range(number, document.line(number), start, place)
    return [finished(item, span, is_lower) for item in found]


def finished(item: dict[str, Any], span: dict[str, Any], is_lower: bool) -> dict[str, Any]:
    """An item with its edit: in lower case where the word was begun so."""
    made = dict(item)
    text = made.pop("text", made["label"])
    is_reserved = made.pop("is_reserved", True)
    if is_lower and is_reserved:
        text = text.lower()
    if "filterText" in made and is_lower:
        made["filterText"] = made["filterText"].lower()
    made["textEdit"] = {"range": span, "newText": text}
    return made


def statements(has_snippets: bool) -> list[dict[str, Any]]:
    """The forms of the instructions, and the directives."""
    items = []
    for row in INSTRUCTIONS:
        for form in row.forms:
            item = {
                "label": form,
                "filterText": row.mnemonic,
                "kind": SNIPPET if " " in form else KEYWORD,
                "detail": row.word,
                "documentation": {"kind": "markdown", "value": row_text(row)},
            }
            if has_snippets:
                items.append({**item, "text": snippet(form), "insertTextFormat": 2})
            else:
                items.append({**item, "text": row.mnemonic + (" " if " " in form else "")})
    for word in DIRECTIVES:
        if DIRECTIVES[word].forms:
            items.append(documented(word, KEYWORD, "directive", directive_text(word)))
    return items


def snippet(form: str) -> str:
    """A form with its operands as fields.

    >>> snippet("DRW Vx, Vy, n")
    'DRW ${1:Vx}, ${2:Vy}, ${3:n}'
    """
    numbers = itertools.count(1)
    return FIELD.sub(lambda found: f"${{{next(numbers)}:{found.group()}}}", form)


def documented(label: str, kind: int, detail: str, text: str) -> dict[str, Any]:
    return {"label": label, "kind": kind, "detail": detail, "documentation": {"kind": "markdown", "value": text}}


def operands(document: Document, head: str, begun: str) -> list[dict[str, Any]]:
    if head == "OPTION":
        return [{"label": word, "kind": KEYWORD} for word in OPTIONS]
    if head == "ALIGN":
        return [{"label": word, "kind": KEYWORD} for word in ("ON", "OFF")]
    items = all_names(document, begun)
    if head in NAME_ONLY or head in VALUES_ONLY:
        return items
    return registers() + [documented(word, KEYWORD, "", PARTS[word]) for word in PARTS] + items


def instruction_operands(document: Document, text: str, begun: str) -> list[dict[str, Any]]:
    """The operands that the forms of an instruction take at the end of a text, the likeliest first: for an address labels, for
    a byte registers and constants, for a number of rows constants and numbers."""
    place = place_in(text)
    wanted = wanted_at(place) if place is not None else []
    if text.rstrip().endswith("["):
        return [documented("I]", KEYWORD, "", "the bytes from I on")] if "[I]" in wanted else []
    values = [operand for operand in wanted if operand in VALUES]
    of_registers = registers(begun) if any(operand in ANY_REGISTER for operand in wanted) else []
    of_registers += registers(begun)[:1] if "V0" in wanted else []
    of_names = value_operands(document, begun, values)
    groups = [*of_names, of_registers] if "a" in values else [of_registers, *of_names]
    groups.append([part_operand(operand) for operand in wanted if operand in PARTS or operand == "[I]"])
    return [{**item, "sortText": f"{rank}{item['label']:>2}"} for rank, group in enumerate(groups) for item in group]


def part_operand(operand: str) -> dict[str, Any]:
    return documented(operand, KEYWORD, "", "the bytes from I on" if operand == "[I]" else PARTS[operand])


def value_operands(document: Document, begun: str, values: list[str]) -> list[list[dict[str, Any]]]:
    """Names and numbers for the letters of a form: `a`, `kk`, `n`."""
    if not values:
        return []
    found = names(document, begun)
    of_labels, constants = ([name for name, is_one in found if is_one == is_label] for is_label in (True, False))
    if values == ["n"]:
        numbers = [{"label": str(number), "kind": VALUE} for number in range(1, MOST_ROWS + 1)]
        return [name_items(document, constants[:MOST_NAMES], CONSTANT), numbers]
    groups = [(of_labels[:MOST_NAMES], FUNCTION), (constants[:MOST_NAMES], CONSTANT)]
    first, second = groups if "a" in values else reversed(groups)
    rest = second[0][: MOST_NAMES - len(first[0])]
    return [name_items(document, *first), name_items(document, rest, second[1])]


def registers(begun: str = "") -> list[dict[str, Any]]:
    """The registers, also for a word that begins like R3."""
    letter = "R" if begun[:1] in ("r", "R") else "V"
    return [
        {"label": name, "kind": VARIABLE, "detail": "register", "filterText": letter + name[1:]}
        for name in REGISTERS
    ]


def names(document: Document, begun: str) -> list[tuple[str, bool]]:
    """The names of the source that begin with some letters, each once, as its first definition spells it, and whether that is
    a label."""
    wanted = begun.upper()
    found: dict[str, tuple[str, bool]] = {}
    for _, text in document.numbered():
        defined = defined_in(text)
        if defined is not None and defined[0].startswith(wanted):
            found.setdefault(defined[0], defined[1:])
    return list(found.values())


def all_names(document: Document, begun: str) -> list[dict[str, Any]]:
    """Names of both kinds, in the order of their lines."""
    return name_items(document, [name for name, _ in names(document, begun)[:MOST_NAMES]], CONSTANT)


def name_items(document: Document, spelt: list[str], kind: int) -> list[dict[str, Any]]:
    """Names with their values, where the program knows them."""
    try:
        symbols = document.symbols
    except (OverLimits, ChipbenchError):
        symbols = {}
    found = []
    for name in spelt:
        symbol = symbols.get(name.upper())
        detail = in_all_bases(symbol.value) if symbol is not None else ""
        found.append({"label": name, "kind": kind, "detail": detail, "is_reserved": False})
    return found
