"""Which lines of `;!` are properties: random ones, read here by the grammar of docs/LANGUAGE.md, beside those that `check` warns of.

The reading here goes from the left to the right, token by token, and knows nothing of the program. Each source has the names of
NAMES, some of which are words of the language too.
"""
import json
import pathlib
import random
import re
import tempfile

SOURCES, LINES = 40, 60
NAMES = {"LIVES": 768, "TWO": 2, "BELOW": -3, "AT": 5, "KEYS": 6, "BIG": 2147483647}
HEAD = [f"{name} EQU {value}" if value >= 0 else f"{name} EQU -{-value}" for name, value in NAMES.items()]
TOKEN = re.compile(r"(?P<word>[A-Z_][A-Z0-9_]*)|(?P<number>[0-9#@$][A-Z0-9_.]*)|(?P<text>'[^']*')|(?P<sign>!=|[-,:=\[\]()+*/&|^~<>\\])|(?P<bad>.)")
RESERVED = {f"V{digit:X}" for digit in range(16)} | set(
    "CLS RET JP CALL SE SNE LD ADD OR AND XOR SUB SHR SUBN SHL RND DRW SKP SKNP SCD SCR SCL EXIT LOW HIGH SYS I DT ST K F HF B R EQU ORG"
    " ALIGN DB DW DA DS IFDEF IFUND ELSE ENDIF END OPTION USED XREF DEFINE INCLUDE UNDEF".split()
)
ITEMS = {f"V{digit:X}" for digit in range(16)} | set("I PC DT DEPTH HIGH KEYS".split())
WORDS = set("HERE AT ALWAYS NEVER EVER CAN PC DEPTH KEYS PIXEL".split())
# the operators by level, of which the first binds most strongly
LEVELS = [{"<", ">"}, {"*", "/"}, {"+", "-"}, {"&"}, {"|"}, {"^", "\\"}]


class Refused(Exception):
    """The tokens are not a property."""


def tokens_of(text):
    found = []
    for match in TOKEN.finditer(text.upper()):
        kind, token = match.lastgroup, match.group()
        if kind == "number":
            base, digits = {"#": (16, token[1:]), "@": (8, token[1:]), "$": (2, token[1:].replace(".", "0"))}.get(token[0], (10, token))
            if not re.fullmatch({16: "[0-9A-F]+", 8: "[0-7]+", 2: "[01]+", 10: "[0-9]+"}[base], digits) or int(digits, base) > 2**31 - 1:
                kind = "bad"
            else:
                token = int(digits, base)
        if kind != "bad" or not token.isspace():
            found.append((kind, token))
    return found


def ranged(value):
    if not -(2**31) <= value < 2**31:
        raise Refused
    return value


def applied(sign, a, b):
    if sign in "<>" and not 0 <= b <= 31 or sign == "/" and b == 0:
        raise Refused
    if sign == "/":
        return ranged(abs(a) // abs(b) * (1 if (a < 0) == (b < 0) else -1))
    return ranged({"<": lambda: a << b, ">": lambda: a >> b, "*": lambda: a * b, "+": lambda: a + b, "-": lambda: a - b, "&": lambda: a & b,
                   "|": lambda: a | b, "^": lambda: a ^ b, "\\": lambda: a ^ b}[sign]())


class Reading:
    """The reading of a property, and the place that it has come to."""

    def __init__(self, text):
        self.tokens, self.place = tokens_of(text), 0
        depth = 0
        for _, token in self.tokens:
            depth = max(depth + (token in ("(", "[")) - (token in (")", "]")), 0)
            if depth > 16:
                raise Refused

    def next(self):
        return self.tokens[self.place] if self.place < len(self.tokens) else (None, None)

    def take(self, *tokens):
        if self.next()[1] in tokens and self.next()[0] in ("sign", "word"):
            self.place += 1
            return self.tokens[self.place - 1][1]
        return None

    def need(self, *tokens):
        found = self.take(*tokens)
        if found is None:
            raise Refused
        return found

    def operand(self):
        sign = self.take("+", "-", "~")
        if sign:
            value = self.operand()
            return ranged({"+": value, "-": -value, "~": ~value}[sign])
        if self.take("("):
            value = self.expression()
            self.need(")")
            return value
        kind, token = self.next()
        self.place += 1
        if kind == "number":
            return token
        if kind == "text" and len(token) == 3:
            return ord(token[1])
        if kind == "word" and token not in RESERVED and token in NAMES:
            return NAMES[token]
        raise Refused

    def expression(self, level=len(LEVELS) - 1):
        if level < 0:
            return self.operand()
        value = self.expression(level - 1)
        while self.next()[0] == "sign" and self.next()[1] in LEVELS[level]:
            value = applied(self.take(*LEVELS[level]), value, self.expression(level - 1))
        return value

    def number(self, below):
        value = self.expression()
        if not 0 <= value < below:
            raise Refused
        return value

    def value(self):
        if self.take("("):
            value = self.number(2**31)
            self.need(")")
            return value
        kind, token = self.next()
        if kind == "word" and token in WORDS:
            raise Refused
        if kind not in ("word", "number", "text"):
            raise Refused
        value = self.operand()
        if value < 0:
            raise Refused
        return value

    def item(self):
        if self.take("["):
            item = f"@{self.number(4096)}"
            self.need("]")
            return item
        if self.take("PIXEL"):
            self.need("(")
            column = self.number(128)
            self.need(",")
            row = self.number(64)
            self.need(")")
            return f"p{column}.{row}"
        word = self.take(*ITEMS)
        if word is None:
            return None
        return f"v{int(word[1], 16)}" if re.fullmatch("V[0-9A-F]", word) else word.lower()

    def sum(self):
        constant, terms = 0, []
        for count in range(17):
            if count == 16:
                raise Refused
            item = self.item()
            if item:
                terms.append(f"+1{item}")
            else:
                value = self.value()
                if self.take("*"):
                    item = self.item()
                    if item is None:
                        raise Refused
                    terms.append(f"+{value}{item}")
                else:
                    constant += value
            if not self.take("+"):
                break
        if constant >= 2**32:
            raise Refused
        return f"{constant}{''.join(terms)}"

    def comparison(self):
        left = self.sum()
        relation = self.need("=", "<", ">", "!=")
        if relation == "!=":
            relation = "<>"
        elif relation == "<":
            relation += self.take(">", "=") or ""
        elif relation == ">":
            relation += self.take("=") or ""
        return f"({left} {relation} {self.sum()})"

    def property(self):
        """What is stated, as a text."""
        kind = self.take("ALWAYS", "NEVER", "EVER", "CAN") or "ALWAYS"
        joint, comparisons = "AND", []
        if self.next()[1] not in ("HERE", "AT", None) or self.next()[0] not in ("word", None):
            comparisons.append(self.comparison())
            joint = self.next()[1] if self.next() in (("word", "AND"), ("word", "OR")) else "AND"
            while self.take(joint):
                comparisons.append(self.comparison())
        if len(comparisons) > 16:
            raise Refused
        place = None
        if self.take("AT"):
            place = self.value()
            if place > 4095:
                raise Refused
        elif self.take("HERE"):
            place = "here"
        if self.next() != (None, None) or not comparisons and (place is None or kind == "ALWAYS"):
            raise Refused
        wanted = "false" if kind == "ALWAYS" else "true"
        shown = [kind.lower(), wanted, "any" if joint == "OR" else "all", *comparisons]
        return " ".join(shown + ([] if place is None else [f"at {place}"]))


def stated(text):
    try:
        return Reading(text).property()
    except Refused:
        return None


# ---- random lines

ATOMS = ["V0", "VA", "vf", "I", "PC", "DT", "DEPTH", "HIGH", "keys", "0", "1", "7", "#FF", "$1.1", "@17", "LIVES", "TWO", "BELOW", "(AT)", "(KEYS)", "(BIG)", "BIG",
         "[LIVES]", "[LIVES + 1]", "[4095]", "[4096]", "[(1 < 4)]", "[BELOW]", "PIXEL(8, 0)", "PIXEL(127,63)", "PIXEL(128,0)", "PIXEL((TWO), TWO*3)", "(1 < 6)",
         "(TWO - 5)", "(6 / (TWO - 2))", "NONE", "AT", "ST", "K", "R", "JP", "12A", "2147483648", "'A'", "'AB'", "PIXEL", "((3))", "-1"]
SAFE = ["V0", "VA", "I", "DT", "DEPTH", "[LIVES]", "3", "LIVES", "(TWO*2)", "PIXEL(1,2)", "KEYS"]


def some_sum(choose, atoms):
    parts = []
    for _ in range(choose.choice([1, 1, 1, 2, 3, 17 if choose.random() < 0.05 else 2])):
        atom = choose.choice(atoms)
        parts.append(f"{choose.choice(['2', 'TWO', '256', '(TWO + 1)', 'V1'])} * {atom}" if choose.random() < 0.2 else atom)
    return choose.choice([" + ", "+"]).join(parts)


def some_line(choose):
    atoms = SAFE if choose.random() < 0.6 else ATOMS
    relations = ["=", "<>", "!=", "<", "<=", ">", ">=", "< =", "< >"] + (["==", "! =", "!==", "=>", "=<", ""] if choose.random() < 0.1 else [])
    joint = choose.choice([" and ", " or ", " AND "])
    parts = [f"{some_sum(choose, atoms)} {choose.choice(relations)} {some_sum(choose, atoms)}" for _ in range(choose.choice([0, 1, 1, 1, 2, 3]))]
    text = joint.join(parts)
    if choose.random() < 0.05:
        text += choose.choice([" and V1 = 1", " or V1 = 1", " < 3", " and", ")", " ("])
    text = f"{choose.choice(['', '', 'always', 'never', 'Ever', 'can'])} {text}"
    return text + choose.choice(["", "", "", " here", " at LIVES", " AT 520", " at (LIVES + 2)", " at LIVES + 2" if choose.random() < 0.2 else "", " at", " at AT" if choose.random() < 0.2 else ""])


def some_lines(number):
    choose = random.Random(f"properties {number}")
    # a line has at most 200 bytes
    return [some_line(choose)[:190] for _ in range(LINES)]


def wrong(program, number):
    """What `check` says of the lines of one source that isn't so."""
    texts = some_lines(number)
    with tempfile.TemporaryDirectory() as folder:
        pathlib.Path(folder, "game.asm").write_text("\n".join(["STOP: JP STOP", *HEAD, *(f";! {text}" for text in texts)]) + "\n")
        lines = program.run(["check", "--json", "game.asm"], b"", folder).stdout.decode().splitlines()
    faults = [fault for fault in map(json.loads, lines) if fault["code"].startswith("P")]
    before = len(HEAD) + 2
    expected = [place + before for place, text in enumerate(texts) if stated(text) is None]
    if [fault["line"] for fault in faults] == expected:
        return ""
    return f"source {number} has faults on lines {[fault['line'] for fault in faults]}, and not on {expected}"


def checks(program):
    for number in range(SOURCES):
        yield f"random properties {number}", lambda number=number: wrong(program, number)
