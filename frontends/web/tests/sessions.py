#!/usr/bin/env python3
"""Sessions for the comparison of the module with the program, each with what the program answers:

    frontends/web/tests/sessions.py PROGRAM [COUNT]

They are all cases of tests/sessions, at both spacings, and COUNT generated sessions. Each is a line with a JSON object: the name; source,
script and answer in base64; and the settings.
"""

import base64
import json
import pathlib
import random
import re
import sys
import tempfile

sys.dont_write_bytecode = True
TOP = pathlib.Path(__file__).resolve().parents[3]
sys.path.insert(0, str(TOP / "tests"))

from generated.edited_sessions import Numbers, word_of  # noqa: E402
from runner.programs import Program  # noqa: E402
from runner.sessions import EACH_EVERY, read_sessions  # noqa: E402

MNEMONICS = """CLS|RET|LOW|HIGH|EXIT|SCR|SCL|SCD {n}|JP {e}|JP V0, {e}|CALL {e}|SE {v}, {e}|SNE {v}, {v}|LD {v}, {e}|LD {v}, {v}|LD I, {e}|LD {v}, DT
LD DT, {v}|LD ST, {v}|LD {v}, K|LD F, {v}|LD HF, {v}|LD B, {v}|LD [I], {v}|LD {v}, [I]|LD R, {v}|LD {v}, R|ADD {v}, {e}|ADD {v}, {v}|ADD I, {v}
OR {v}, {v}|AND {v}, {v}|XOR {v}, {v}|SUB {v}, {v}|SUBN {v}, {v}|SHR {v}|SHL {v}, {v}|RND {v}, {e}|DRW {v}, {v}, {n}|SKP {v}|SKNP {v}"""
OTHERS = "DB {e}, {e}|DW {e}|DA 'text'|DS {n}|ALIGN|ORG {e}|IFDEF {w}|IFUND {w}|ENDIF|END|OPTION BINARY|{w} EQU {e}|{w} = {e}|{w}:|; a comment|"
STRANGE = ["JP", "LD V0", "LD VG, 1", "DRW V0, V1, 16", "'", "X Y Z", "$", "DB 'unclosed", "(" * 90, "x" * 201, "LD V0, 1 / 0", "\t\x00\xff"]

# the values of each quirk, and the profiles
TABLES = (TOP / "docs/MACHINE.md").read_text(encoding="utf-8")
QUIRKS = {}
for _name, _value in re.findall(r"^\| `([\w-]+)=([\w+]+)` \|", TABLES, re.M):
    QUIRKS.setdefault(_name, []).append(_value)
PROFILES = re.findall(r"`([\w-]+)`", re.search(r"^\| Quirk \|(.*)$", TABLES, re.M)[1])


class Generator:
    """A session that a number gives."""

    def __init__(self, seed):
        self.random = random.Random(seed)
        self.numbers = Numbers(seed)
        self.names = ["A1", "LOOP", "value", "_x", "END2"]

    def expression(self):
        pick = self.random
        number = pick.choice(["{}", "#{:x}", "${:b}"]).format(pick.choice([0, 1, 2, 15, 16, 255, 256, 512, 4095, pick.randrange(70000)]))
        plain = pick.choice([number, number, number, pick.choice(self.names)])
        return plain if pick.random() < 0.8 else f"{plain} {pick.choice('+-*/%&|^<>')} {pick.choice([number, pick.choice(self.names)])}"

    def statement(self):
        pick = self.random
        if pick.random() < 0.04:
            return pick.choice(STRANGE)
        if pick.random() < 0.4:
            return f"DW #{word_of(self.numbers.next() % 20, self.numbers.next()):04x}"
        forms = (MNEMONICS if pick.random() < 0.8 else OTHERS).replace("\n", "|").split("|")
        text = pick.choice(forms)
        while "{" in text:
            for mark, value in (("{v}", f"V{pick.randrange(16):X}"), ("{n}", str(pick.randrange(16))), ("{w}", pick.choice(self.names)), ("{e}", self.expression())):
                text = text.replace(mark, value, 1)
        return f"{pick.choice(self.names)}: {text}" if pick.random() < 0.1 else text

    def source(self):
        ending = self.random.choice(["\n", "\n", "\r\n"])
        text = ending.join(self.statement() for _ in range(self.random.choice([0, 1, 8, 30, 80])))
        return text + self.random.choice(["", ending])

    def step(self):
        return self.random.choice([0, 1, 9, 999, 1000, 1001, self.random.randrange(5000), self.random.randrange(60000), 1_000_001])

    def command(self):
        pick, line, step = self.random, self.random.randrange(90), self.step()
        kind = pick.randrange(12)
        if kind < 4:
            return pick.choice([f"ins {line} {self.statement()}", f"rep {line} {self.statement()}", f"del {line}"])
        if kind < 6:
            step, key, way = pick.randrange(3000), pick.randrange(17), pick.choice(["down", "up"])
            return pick.choice([f"kins {step} {key} {way}", f"krep {step} {key} {way}", f"kdel {step} {key}"])
        if kind == 6:
            return pick.choice(["", "foo", "regs", "regs x", "mem 1 2", "  image  ", "INS 1 CLS", "z" * 401, "screen -1", "kins 1 1 left"])
        low = pick.randrange(4096)
        return pick.choice([f"regs {step}", f"screen {step}", f"mem {step} {low} {pick.randrange(4200 - low)}", f"dis {step} {low} {pick.randrange(40)}", "image", "syms", "list", "faults"])

    def session(self):
        pick = self.random
        settings = {"rate": pick.choice([1, 10, 1000]), "tape": bytes(pick.randrange(256) for _ in range(pick.choice([1, 3, 256]))).hex()}
        settings |= {"profile": pick.choice(PROFILES), "every": int(pick.choice(EACH_EVERY))}
        if pick.random() < 0.5:
            settings["quirks"] = ",".join(f"{name}={pick.choice(list(QUIRKS[name]))}" for name in pick.sample(list(QUIRKS), pick.randrange(1, 11)))
        script = "\n".join(self.command() for _ in range(pick.choice([5, 60, 120])))
        return self.source().encode("latin-1"), script.encode("latin-1") + pick.choice([b"", b"\n", b"\r\n"]), settings


def settings_of(case, every):
    """The settings of a case of tests/sessions; a seed's tape is left to the program."""
    known = {"rate": "10", "profile": "schip", "tape": "00", **case.settings, "every": every}
    return {**known, "rate": int(known["rate"]), "every": int(every)}


def written(program, name, source, script, settings, folder):
    """A session with what the program answers, as a line."""
    pathlib.Path(folder, "source").write_bytes(source)
    words = [word for key, value in settings.items() for word in (f"--{key}", str(value))]
    ran = program.run(["debug", "source", *words], script, folder)
    texts = {key: base64.b64encode(value).decode() for key, value in (("source", source), ("script", script), ("answer", ran.stdout))}
    return json.dumps({"name": name, "status": ran.status, "settings": settings, **texts})


def from_tests(program, folder):
    """The cases of tests/sessions. A tape that comes of a seed is asked of no module, so they are left out."""
    for file in sorted((TOP / "tests/sessions").glob("**/*.test")):
        for case in read_sessions(file):
            if "seed" in case.settings:
                continue
            source = case.source
            if case.is_image:
                pathlib.Path(folder, "image").write_bytes(source)
                source = program.run(["dis", "image"], folder=folder).stdout
            script = "".join(command.text + "\n" for command in case._key_commands() + case.commands).encode()
            for every in (case.settings["every"],) if "every" in case.settings else EACH_EVERY:
                yield f"{file.relative_to(TOP)}: {case.name}", source, script, settings_of(case, every)


def main(words):
    program, count = Program(str(pathlib.Path(words[0]).resolve())), int(words[1]) if len(words) > 1 else 0
    with tempfile.TemporaryDirectory() as folder:
        sessions = [*from_tests(program, folder), *((f"generated {seed}", *Generator(seed).session()) for seed in range(count))]
        for session in sessions:
            print(written(program, *session, folder), flush=True)


if __name__ == "__main__":
    main(sys.argv[1:])
