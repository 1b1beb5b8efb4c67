"""The forms of the instruction that is typed, with the operand where the cursor is."""

from __future__ import annotations

from typing import Any

from .document import Document
from .hover import row_text
from .operands import forms_at, operands_of, place_in
from .tables import Instruction, rows_of


def signature(row: Instruction, form: str) -> dict[str, Any]:
    start, places = len(row.mnemonic) + 1, []
    for operand in operands_of(form):
        places.append({"label": [start, start + len(operand)]})
        start += len(operand) + len(", ")
    return {"label": form, "documentation": {"kind": "markdown", "value": row_text(row)}, "parameters": places}


def signature_help(document: Document, number: int, place: int) -> dict[str, Any] | None:
    """The forms that fit the typed operands; all forms of the instruction if none fits."""
    found = place_in(document.line(number)[:place])
    if found is None:
        return None
    forms = forms_at(found) or [(row, form) for row in rows_of(found.mnemonic) for form in row.forms]
    longer = [(row, form) for row, form in forms if len(operands_of(form)) > found.index] or forms
    signatures = [signature(row, form) for row, form in longer if operands_of(form)]
    if not signatures:
        return None
    return {"signatures": signatures, "activeSignature": 0, "activeParameter": found.index}
