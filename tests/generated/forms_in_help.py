"""The forms that the help of `check` lists: each is one of the language.

A word that stands alone at fault is helped by its forms; each form, with an operand in each place, has no fault of its own.
"""
import re
import tempfile
import pathlib

# operands that fit no form, so that the forms are listed, at most five of them, for each word
WRONG = ("'a' 'b'", "V1, V2, V3, V4", "[I], 5", "DT, 5, K", "5, V1, I", "I, V1, DT", "R, [I]", "B, K", "HF, DT", "F, 5, DT", "")
WORDS = (
    "CLS RET JP CALL SE SNE LD ADD OR AND XOR SUB SUBN SHR SHL RND DRW SKP SKNP SCD SCR SCL EXIT LOW HIGH "
    "EQU ORG ALIGN DB DW DA DS IFDEF IFUND ELSE ENDIF END OPTION XREF DEFINE"
).split()
OPERANDS = {"Vx": "V1", "Vy": "V2", "nibble": "5", "byte": "5", "addr": "#205", "value": "#205", "name": "OTHER"}


def helped(program, line):
    """The forms in the help for a line."""
    with tempfile.TemporaryDirectory() as folder:
        pathlib.Path(folder, "source").write_text(line + "\n")
        printed = program.run(["check", "source"], b"", folder).stdout.decode()
    found = re.search(r"^help: \w+ takes: (.*)$", printed, re.M)
    return [form for form in found.group(1).split(" | ") if form != ".."] if found else []


def line_of(form):
    """A line of that form, and what has to stand after it."""
    operand = re.compile(r"\b(?:Vx|Vy|nibble|byte|addr|value|name)\b")
    line = operand.sub(lambda it: OPERANDS[it.group()], form).replace(", ..", "")
    line = line.replace("DB #205", "DB 5").replace("DS #205", "DS 5")
    head, rest = form.split()[0], []
    if head == "EQU":
        line = "NAME " + line
    if head in ("IFDEF", "IFUND"):
        rest = ["ENDIF"]
    if head in ("ELSE", "ENDIF"):
        line, rest = f"IFDEF OTHER\n{line}", ["ENDIF"] if head == "ELSE" else []
    return "\n".join([line, *rest])


def wrong_forms(program, word):
    forms = {form for wrong in WRONG for form in helped(program, f"{'NAME ' if word == 'EQU' else ''}{word} {wrong}")}
    for form in sorted(forms):
        with tempfile.TemporaryDirectory() as folder:
            pathlib.Path(folder, "source").write_text(line_of(form) + "\n")
            ran = program.run(["check", "source"], b"", folder)
        if ran.status != 0:
            return f"the form {form!r}: {ran.stdout.decode()}"
    return ""


def checks(program):
    for word in WORDS:
        yield f"forms of {word}", lambda word=word: wrong_forms(program, word)
