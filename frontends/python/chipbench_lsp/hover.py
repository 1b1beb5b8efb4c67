"""The text that the editor shows for the word under the pointer."""

from __future__ import annotations

from typing import Any

from chipbench import ChipbenchError, to_bytes

from .document import Document, OverLimits
from .language import Line, Token, in_all_bases, read_number
from .names import definition_of
from .properties import WORDS
from .tables import DIRECTIVES, PARTS, REGISTERS, Instruction, row_of_word, rows_of

MOST_BYTES = 32
MOST_COMMENTS = 20
PROPERTY_WORDS = {word.upper(): f"`{word}`: {text}" for word, text in WORDS.items()}


def hover(document: Document, number: int, place: int) -> dict[str, Any] | None:
    """The text for a place: about its token, and the address and bytes of its line. A line with a property has neither."""
    line = document.read(number)
    token = line.token_at(place)
    parts = [token_text(document, number, line, token)] if token is not None else []
    if not line.stated:
        parts.append(line_text(document, number))
    text = "\n\n".join(part for part in parts if part)
    if not text:
        return None
    reply: dict[str, Any] = {"contents": {"kind": "markdown", "value": text}}
    if token is not None:
        reply["range"] = document.columns.range(number, line.text, token.start, token.end)
    return reply


def line_text(document: Document, number: int) -> str:
    """Address and bytes of a line."""
    try:
        row = document.listing(number)
        code = document.code_of(number)
    except (OverLimits, ChipbenchError):
        return ""
    if row is None or row.address is None:
        return "" if row is None else "not active"
    if row.value is not None:
        return f"value {in_all_bases(row.value)}"
    shown = code[:MOST_BYTES].hex(" ")
    more = f" .. ({len(code)} bytes)" if len(code) > MOST_BYTES else " .." if row.more and len(code) <= 6 else ""
    return f"address #{row.address:03X}" + (f", bytes `{shown}`{more}" if code else "")


def token_text(document: Document, number: int, line: Line, token: Token) -> str:
    if token.kind == "number":
        value = read_number(token.text)
        return "" if value is None else in_all_bases(value)
    if token.kind == "text":
        inner = to_bytes(token.text[1:-1])
        return f"{in_all_bases(inner[0])}" if len(inner) == 1 else f"{len(inner)} bytes: `{inner[:MOST_BYTES].hex(' ')}`"
    if token.kind != "word":
        return ""
    if line.stated and token.upper not in REGISTERS and (token, True) not in line.stated_names():
        word = PROPERTY_WORDS.get(token.upper)
        if word is not None:
            return word
    if token == line.head and line.mnemonic is not None:
        return instruction_text(document, number, line.mnemonic)
    if token == line.head and line.directive is not None:
        return directive_text(token.upper)
    if token.upper in REGISTERS:
        return f"register {token.upper}"
    if token.upper in PARTS:
        return f"`{token.upper}`: {PARTS[token.upper]}"
    if token in list(line.names()):
        return name_text(document, token.upper)
    return ""


def directive_text(word: str) -> str:
    directive = DIRECTIVES[word]
    forms = ", ".join(f"`{form}`" for form in directive.forms) or f"`{word}`"
    return f"{forms}: {directive.effect}"


def row_text(row: Instruction) -> str:
    """A row of the table of instructions."""
    text = f"`{row.word}` {', '.join(f'`{form}`' for form in row.forms)}"
    if row.effect:
        text += f": {row.effect}"
    if row.stops:
        text += f". Stops with {row.stops}"
    if row.vip:
        text += f". Under `vip`: {row.vip}"
    return text


def instruction_text(document: Document, number: int, mnemonic: str) -> str:
    """The row of the line's word; all rows of the mnemonic where the line has no word."""
    try:
        code = document.code_of(number)
    except (OverLimits, ChipbenchError):
        code = b""
    row = row_of_word(int.from_bytes(code, "big"), mnemonic) if len(code) == 2 else None
    return "\n\n".join(row_text(row) for row in ([row] if row is not None else rows_of(mnemonic)))


def name_text(document: Document, name: str) -> str:
    """A name's value, the line that defines it, and that line's text."""
    found = definition_of(document, name)
    try:
        symbol = document.symbols.get(name)
    except (OverLimits, ChipbenchError):
        symbol = None
    text = f"**{name}**"
    if symbol is not None:
        text += f" = {in_all_bases(symbol.value)}"
    elif found is None:
        return text + ": undefined"
    if found is not None:
        number, _ = found
        shown = [*comments_above(document, number), document.line(number).strip()]
        text += f", line {number + 1}\n\n```chip8\n{chr(10).join(shown)}\n```"
    return text


def comments_above(document: Document, number: int) -> list[str]:
    """The comments directly above a line, at most so many; a property is none."""
    found: list[str] = []
    while number > 0 and len(found) < MOST_COMMENTS:
        number -= 1
        line = document.read(number)
        if line.tokens or line.stated or line.comment is None:
            break
        found.insert(0, line.text.strip())
    return found
