"""The fix on each page of `explain`: it says what helps with this code, and what it says does help.

Each code has the words that its fix can't do without, by docs/LANGUAGE.md, docs/FORMATS.md and docs/MACHINE.md, and what the
example becomes where somebody follows the fix: sources or scripts that no longer have the code.
"""
import pathlib
import tempfile

DRAWN = "LD I, BALL\nDRW V0, V1, 2\nSTOP: JP STOP\n"
# Faults, warnings and faults of properties: the words, and sources.
LINES = {
    "F1": (["`#10`", "`@17`", "`$1..1`", "`;`"], ["DB #10, @17, $1..1 ; a comment"]),
    "F2": (["quote", "end of the text"], ["DA 'ab'", "DA \"it's\""]),
    "F3": (["spelling", "`:` after a label"], ["FOO: LD V0, 1"]),
    "F4": (["table of instructions", "`DA 'text'`"], ["LD V0, 1", "DA 'text'"]),
    "F5": (["smaller", "8 bits", "16"], ["DB 255", "DW 65535"]),
    "F6": (["EQU", "part of the expression"], ["PART EQU ((1))\nDB (((((((((((((((PART)))))))))))))))"]),
    "F7": (["another name"], ["LOAD: CLS"]),
    "F8": (["another name"], ["X EQU 1\ny EQU 2"]),
    "F9": (["Define", "label", "EQU", "spelling", "further up"], ["DB NONE\nNONE EQU 5", "NONE: CLS\nDW NONE", "NONE EQU 5\nDS NONE"]),
    "F10": (["smaller", "DW instead of DB"], ["DB 255", "DW 256"]),
    "F11": (["expression"], ["DB 1/1"]),
    "F12": (["expression"], ["DW 1 < 15"]),
    "F13": (["address", "at or after", "listing"], ["ORG 512"]),
    "F14": (["program", "smaller"], ["DS 3584"]),
    "F15": (["Delete", "IFDEF or IFUND before"], ["CLS", "IFDEF X\nENDIF"]),
    "F16": (["ENDIF after"], ["IFDEF X\nENDIF"]),
    "F17": (["INCLUDE", "lines of its file"], ["CLS\nRET"]),
    "W1": (
        ["in one DB", "ALIGN OFF before", "ALIGN ON after"],
        [f"{DRAWN}BALL: DB $.1111..., $.1111...", f"{DRAWN}ALIGN OFF\nBALL: DB $.1111...\nDB $.1111...\nALIGN ON"],
    ),
    "W2": (["Delete the name", "spelling", "`_`"], ["STOP: JP STOP", "STOP: JP STOP\n_WIDTH EQU 64"]),
    "W3": (["Delete the instruction", "label", "jump there"], ["STOP: JP STOP", "JP NEXT\nNEXT: CLS\nJP NEXT"]),
    "W4": (
        ["JP", "RET", "EXIT", "before the data"],
        ["LD I, BALL\nDRW V0, V1, 1\nSTOP: JP STOP\nBALL: DB $.1111...", "LD I, BALL\nDRW V0, V1, 1\nEXIT\nBALL: DB $.1111..."],
    ),
    "W5": (["label of an instruction"], ["JP START\nBALL: DB $.1111...\nSTART: LD I, BALL\nJP START"]),
    "W6": (
        ["ALIGN ON before the data", "add a byte"],
        ["JP START\nALIGN ON\nBALL: DB $.1111...\nSTART: LD I, BALL", "JP START\nALIGN OFF\nBALL: DB $.1111..., 0\nSTART: LD I, BALL"],
    ),
    "W7": (["Avoid the instruction", "profile schip"], ["CLS"]),
    "W8": (["lead there", "delete", "`explore --cover`"], ["LD V0, 1\nLOOP: SKP V0\nJP LOOP\nCLS", "LD V0, 1\nLOOP: SE V0, 0\nJP LOOP"]),
    "W9": (["`check` and the other commands", "`--seed 1`", "`--tape 2a91`", "`--allow W9`"], ["RND V0, 0"]),
    "P1": (["condition", "place", "`;! never at BUG`"], ["STOP: JP STOP\n;! always V0 <= 7", "BUG: JP BUG\n;! never at BUG"]),
    "P2": (
        ["two comparisons", "`;! 0 < V0 and V0 < 5`", "in parentheses"],
        ["STOP: JP STOP\n;! 0 < V0 and V0 < 5", "STOP: JP STOP\n;! V0 < (2 * 3)", "STOP: JP STOP\n;! V0 = 3 or V0 <> 4"],
    ),
    "P3": (["spelling", "label", "EQU"], ["STOP: JP STOP\n;! never V0 = 1 at STOP", "LIVES EQU 3\n;! V0 <= LIVES\nSTOP: JP STOP"]),
    "P4": (["in the range", "add on the other"], ["STOP: JP STOP\n;! never [4095] = 1", "STOP: JP STOP\n;! V0 <= V1 + 3"]),
    "P5": (["register", "DT", "KEYS"], ["STOP: JP STOP\n;! always DT = 0", "STOP: JP STOP\n;! KEYS = 0", "STOP: JP STOP\n;! ever V0 = 0"]),
    "P6": (["several properties", "EQU"], ["PART EQU ((1))\nSTOP: JP STOP\n;! (((PART))) = V0"]),
}
# Refusals: the words, a source, and scripts. None of a script's commands is refused.
REFUSALS = {
    "N1": (["`list`", "numbers"], "CLS", ["list\ndel 1"]),
    "N2": (["Split the line", "comment"], "", ["ins 1 ;"]),
    "N3": (["Delete lines"], "\n" * 3999, ["del 1\nins 1"]),
    "N4": (["separate line"], "", ["ins 1 ;A\nins 2 ;B"]),
    "N5": (["0 to 1,000,000"], "CLS", ["kins 1000000 5 down", "kins 0 5 down"]),
    "N6": (["0 to 15"], "CLS", ["kins 0 15 down", "kins 0 0 down"]),
    "N7": (["`krep`", "`kdel`"], "CLS", ["kins 2 5 down\nkrep 2 5 up", "kins 2 5 down\nkdel 2 5\nkins 2 5 up"]),
    "N8": (["`kins`"], "CLS", ["kins 2 5 up\nkdel 2 5", "kins 2 5 up\nkrep 2 5 down"]),
    "N9": (["Delete", "`kdel`"], "", ["kins 2 5 up\nkdel 2 5"]),
    "N10": (["memory", "edit"], "", []),
    "Q1": (["`faults`", "lines"], "DB NONE", ["faults\nrep 1 DB 1\nregs 0"]),
    "Q2": (["0 to 1,000,000"], "CLS", ["screen 1000000", "screen 0"]),
    "Q3": (["fewer bytes", "lower address", "two bytes"], "CLS", ["mem 0 4095 1", "mem 0 4094 2", "dis 0 4094 1"]),
    "Q4": (["memory", "ask"], "", []),
    "C1": (["`chipbench debug --help`", "commands"], "CLS", ["image"]),
    "C2": (["shorter", "200 bytes"], "", ["syms" + " " * 396, "ins 1 ;" + "x" * 199]),
}
# Ends: the words, and nothing that could be tried without another system.
ENDS = {
    "E1": ["standard input"],
    "E2": ["standard output"],
    "E3": ["memory", "`--every 100000`"],
    "E4": ["Split the script"],
    "O1": ["Split the line", "binary"],
    "O2": ["source", "shorter"],
    "O3": ["memory"],
}
# Stops: the words, and sources whose programs haven't stopped so by step 100.
STOPS = {
    "S1": (["Nothing is wrong", "jumps back"], ["LOOP: CLS\nJP LOOP\nEXIT"]),
    "S2": (["`dis S A N`", "jump or a RET", "`--profile`"], ["LOOP: JP LOOP\nDW 0", "CALL PART\nLOOP: JP LOOP\nPART: RET\nDW 0"]),
    "S3": (["jump or skip", "`regs`", "earlier steps"], ["LOOP: JP LOOP"]),
    "S4": (["CALL", "reaches a RET", "JP"], ["LOOP: CALL PART\nJP LOOP\nPART: RET", "LOOP: JP LOOP"]),
    "S5": (["subroutine", "JP before it"], ["JP STOP\nRET\nSTOP: JP STOP"]),
    "S6": (["I with `regs`", "step before"], ["LD I, 4094\nLD V1, [I]\nSTOP: JP STOP"]),
    "S7": (["V0 to V7"], ["LD R, V7\nLD V0, R\nSTOP: JP STOP"]),
}
WORDS = {**{code: row[0] for rows in (LINES, REFUSALS, STOPS) for code, row in rows.items()}, **ENDS}


def ran(program, words, source, script=""):
    """What the program prints of a source."""
    with tempfile.TemporaryDirectory() as folder:
        pathlib.Path(folder, "source").write_text(source + "\n" if source else "")
        return program.run(words, script.encode(), folder).stdout.decode()


def wrong_words(program, code):
    """What is wrong with the fix on a page, the last line of it."""
    last = program.run(["explain", code]).stdout.decode().splitlines()[-1]
    if not last.startswith("The fix: "):
        return f"the page ends with another line: {last}"
    missing = [word for word in WORDS[code] if word not in last]
    return f"{last}\nit lacks {missing}" if missing else ""


def wrong_line(program, code, source):
    """What is wrong with a source that follows the fix of a fault or a warning."""
    if code.startswith("F"):
        found = ran(program, ["debug", "source"], source, "faults\n")
        return "" if found == ".\n" else f"{source}\nhas the faults\n{found}"
    found = ran(program, ["check", "source", "--cover", "--profile", "vip"], source)
    return f"{source}\nhas the warnings\n{found}" if f" {code}: " in found else ""


def wrong_script(program, source, script):
    """What is wrong with a script that follows the fix of a refusal."""
    found = ran(program, ["debug", "source"], source, script + "\n")
    refused = [line for line in found.splitlines() if line.startswith("no ")]
    return f"{script}\nis refused: {refused}" if refused else ""


def wrong_stop(program, code, source):
    """What is wrong with a program that follows the fix of a stop."""
    found = ran(program, ["debug", "source"], source, "regs 100\n")
    return f"{source}\nends so:\n{found}" if f" {code}\nflags " in found or "flags " not in found else ""


def checks(program):
    for code in WORDS:
        yield f"the fix of {code}", lambda code=code: wrong_words(program, code)
    for code, (_, sources) in LINES.items():
        for number, source in enumerate(sources, 1):
            yield f"following the fix of {code}, {number}", lambda code=code, source=source: wrong_line(program, code, source)
    for code, (_, source, scripts) in REFUSALS.items():
        for number, script in enumerate(scripts, 1):
            yield f"following the fix of {code}, {number}", lambda source=source, script=script: wrong_script(program, source, script)
    for code, (_, sources) in STOPS.items():
        for number, source in enumerate(sources, 1):
            yield f"following the fix of {code}, {number}", lambda code=code, source=source: wrong_stop(program, code, source)
