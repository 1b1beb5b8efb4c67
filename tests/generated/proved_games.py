"""Ten small games, most with a planted fault: at an edge, by a wrap, below 0, in the stack, past a table, on the screen, in a score of
two bytes, with the timer, in a sum, and by a screen that keeps its size. With them goes examples/road.asm. `prove` answers their
properties, and so does a search over all states of the machine of tests/trace/emulator.py, which goes on until no state is new: what it
never meets is never met.

A property is text for the program and a test of such a machine here. Each script is replayed by that machine, and by `run --keys`: the
property is broken at its step and at no earlier one. What is put right in a game is proved. Those of `can` are left to
proved_prospects.py.
"""
import importlib.util
import json
import pathlib
import tempfile

PROGRAMS = pathlib.Path(__file__).with_name("proved_programs.py")
EXAMPLE = pathlib.Path(__file__).parents[2] / "examples" / "road.asm"
RATE = 10
TAPE = "3b5a91c7042fe866"
GOOD_ANSWERS = (": proved: ", ": proved for any keys, ", ": unbroken up to step ", ": reached at step ", ": always: ")

# name, keys, source with a line ;! for each test, and the tests, in the order of these lines: what breaks the property, or reaches it
GAMES = {}


def game(name, keys, source, *tests):
    GAMES[name] = (keys, source, tests)


game("edge", (4, 6), """
;! always V0 <= 63 at FRAME
;! V0 <= 64 at FRAME
;! never V1 <> 4 and V1 <> 6 at MOVE
;! ever V0 = 63 at FRAME
FRAME:  LD V1, 6
MOVE:   SKNP V1
        CALL RIGHT
        LD V1, 4
        SKNP V1
        CALL LEFT
        JP FRAME
RIGHT:  SE V0, 64               ; 64 for 63
        ADD V0, 1
        RET
LEFT:   SE V0, 0
        ADD V0, 255
        RET
""", lambda m, at: m.pc == at["FRAME"] and m.v[0] > 63, lambda m, at: m.pc == at["FRAME"] and m.v[0] > 64,
     lambda m, at: m.pc == at["MOVE"] and m.v[1] not in (4, 6), lambda m, at: m.pc == at["FRAME"] and m.v[0] == 63)

game("wrap", (5,), """
;! never VF = 1 at ADDED
;! always V2 + V3 < 300
;! ever V2 = 250 at ADDED
;! ever V2 = 251 at ADDED
START:  LD V0, 5
        LD V1, 50
LOOP:   SKNP V0
        JP HIT
        JP LOOP
HIT:    ADD V2, V1
ADDED:  LD V3, VF
        JP LOOP
""", lambda m, at: m.pc == at["ADDED"] and m.v[15] == 1, lambda m, at: m.v[2] + m.v[3] >= 300,
     lambda m, at: m.pc == at["ADDED"] and m.v[2] == 250, lambda m, at: m.pc == at["ADDED"] and m.v[2] == 251)

game("underflow", (1, 2), """
;! always V3 <= 5
;! always V3 <= 5 or V4 > 0
;! never at OVER
;! ever at OVER
START:  LD V3, 5
        LD V5, 2
LOOP:   LD V0, K
        SNE V0, 1
        JP HIT
        SNE V3, 0
        JP OVER
        JP LOOP
HIT:    SUB V3, V5              ; 5, 3, 1, 255
        JP LOOP
OVER:   JP OVER
""", lambda m, at: m.v[3] > 5, lambda m, at: m.v[3] > 5 and m.v[4] == 0,
     lambda m, at: m.pc == at["OVER"], lambda m, at: m.pc == at["OVER"])

game("stack", (1, 2, 3), """
;! always DEPTH = 0 at MAIN
;! always DEPTH <= 2
;! always DEPTH = 1 at SHOP
MAIN:   LD V0, K
        SNE V0, 1
        CALL SHOP
        SNE V0, 2
        JP QUIT
        JP MAIN
SHOP:   LD V0, K
        SNE V0, 3
        JP MAIN                 ; JP for RET
        RET
QUIT:   EXIT
""", lambda m, at: m.pc == at["MAIN"] and m.stack, lambda m, at: len(m.stack) > 2, lambda m, at: m.pc == at["SHOP"] and len(m.stack) != 1)

game("table", (0, 1), """
;! always I <= (TABLE + 3) at READ
;! always I >= TABLE and I < (TABLE + 5) at READ
;! [TABLE + 3] = 9 or V0 < 3
LOOP:   LD V2, K
        SNE V2, 1
        ADD V0, 1
        SNE V0, 5
        LD V0, 0
        LD I, TABLE
        ADD I, V0
READ:   LD V0, [I]
        LD V0, V3
        ADD V3, 1
        SNE V3, 5               ; 5 for 4
        LD V3, 0
        JP LOOP
TABLE:  DB 1, 3, 3, 9
""", lambda m, at: m.pc == at["READ"] and m.i > at["TABLE"] + 3,
     lambda m, at: m.pc == at["READ"] and not at["TABLE"] <= m.i < at["TABLE"] + 5,
     lambda m, at: m.memory[at["TABLE"] + 3] != 9 and m.v[0] >= 3)

game("ghost", (7,), """
;! always PIXEL(8, 0) = 0
;! always PIXEL(7, 1) = 0
;! ever PIXEL(6, 0) + PIXEL(7, 0) = 2
START:  LD V1, 7
        LD I, DOT
        DRW V0, V2, 1
LOOP:   SKP V1
        JP LOOP
        DRW V0, V2, 1
        ADD V0, 1
        SNE V0, 8               ; 8 for 7
        LD V0, 0
        DRW V0, V2, 1
        JP LOOP
DOT:    DB #C0
""", lambda m, at: (16, 0) in m.screen, lambda m, at: (14, 2) in m.screen, lambda m, at: {(12, 0), (14, 0)} <= m.screen)

game("score", (2, 3), """
;! always 256 * [SCORE] + [SCORE + 1] <= 600 at SAVED
;! 256 * [SCORE] + [SCORE + 1] <= 250
;! ever [SCORE] = 2 at SAVED
START:  LD V5, 250
LOOP:   LD V7, K
        SE V7, 3
        JP LOOP
        LD I, SCORE
        LD V1, [I]
        ADD V1, V5
        LD V6, VF
        ADD V0, V6
        SNE V0, 3
        EXIT
        LD I, SCORE
        LD [I], V1
SAVED:  JP LOOP
SCORE:  DB 0, 0
""", lambda m, at: m.pc == at["SAVED"] and 256 * m.memory[at["SCORE"]] + m.memory[at["SCORE"] + 1] > 600,
     lambda m, at: 256 * m.memory[at["SCORE"]] + m.memory[at["SCORE"] + 1] > 250,
     lambda m, at: m.pc == at["SAVED"] and m.memory[at["SCORE"]] == 2)

game("timer", (8,), """
;! never DT > 0 at OPEN
;! DT = 0 or DT <= 3 at CLOSED
;! always DT <= 3
;! ever at OPEN
CLOSED: LD V1, 8
        LD V0, 3
        LD DT, V0
WAIT:   SKP V1
        JP TICK
        LD V2, DT
        SE V2, 2                ; opens early, at 2 left
        JP TICK
        JP OPEN
TICK:   LD V2, DT
        SE V2, 0
        JP WAIT
OPEN:   JP CLOSED
""", lambda m, at: m.pc == at["OPEN"] and m.dt > 0, lambda m, at: m.pc == at["CLOSED"] and m.dt > 3,
     lambda m, at: m.dt > 3, lambda m, at: m.pc == at["OPEN"])

game("pegs", (0, 1, 2), """
;! V0 + V1 + V2 <= 3 at MENU
;! always 2 * V0 + V1 <= 518
MENU:   LD V4, 1
        LD V0, 3
NEXT:   LD V3, K
        SNE V3, 0
        JP TOP
        SNE V3, 1
        JP MID
        JP NEXT
TOP:    SNE V0, 0
        JP NEXT
        SUB V0, V4
        ADD V1, 1
        JP HERE
MID:    SUB V1, V4              ; also where it is empty
        ADD V2, 1
        SE V2, 4
        JP HERE
        JP STOP
;! V0 + V1 + V2 = 3 here
HERE:   JP NEXT
STOP:   JP STOP
""", lambda m, at: m.pc == at["MENU"] and m.v[0] + m.v[1] + m.v[2] > 3, lambda m, at: 2 * m.v[0] + m.v[1] > 518,
     lambda m, at: m.pc == at["HERE"] and m.v[0] + m.v[1] + m.v[2] != 3)

game("sizes", (0, 9), """
;! always HIGH = 0 at MENU
;! ever KEYS = 1 at MENU
;! never KEYS = 1 and HIGH = 1
;! never at LOST
;! ever at LOST
MENU:   LD V0, K
        SE V0, 9
        JP MENU
        HIGH
PLAY:   LD V1, K
        SNE V1, 9
        JP MENU                 ; without LOW
        SNE V1, 0
        JP DONE
        JP PLAY
DONE:   LOW
        JP MENU
LOST:   JP LOST
""", lambda m, at: m.pc == at["MENU"] and m.high, lambda m, at: m.pc == at["MENU"],
     lambda m, at: m.high and m.pc in (at["MENU"], at["PLAY"]), lambda m, at: m.pc == at["LOST"], lambda m, at: m.pc == at["LOST"])

game("road", (4, 6), EXAMPLE.read_text(encoding="utf-8"), lambda m, at: m.v[0] > 7, lambda m, at: m.pc == at["LOOP"] and m.v[1] > 3,
     lambda m, at: m.pc == at["OVER"], lambda m, at: m.pc == at["TRAP"] + 4 and m.v[1] >= 3 and m.v[0] == 5)


def loaded():
    spec = importlib.util.spec_from_file_location("proved_programs", PROGRAMS)
    module = importlib.util.module_from_spec(spec)
    spec.loader.exec_module(module)
    return module


PROVED = loaded()
EMULATED = PROVED.EMULATED


def choices(machine, keys):
    """The sets of keys that the next step may tell apart."""
    if machine.pc > 4094:
        return (0,)
    high, low = machine.memory[machine.pc], machine.memory[machine.pc + 1]
    if high >> 4 == 14 and low in (0x9E, 0xA1):
        key = machine.v[high & 15] % 16
        return (0, 1 << key) if key in keys else (0,)
    if high >> 4 == 15 and low == 0x0A:
        return (0, *(1 << key for key in keys))
    return (0,)


def known(machine, step):
    """What tells states apart: the sound timer alone doesn't, and of the step what the next tick needs."""
    return (*PROVED.SEARCHED.shown(machine), step % RATE)


def first_met(code, keys, tests):
    """The first step at which each test is met, or None where none is, by a search until no state is new."""
    states, first, step = [EMULATED.Machine(code, PROVED.SEARCHED.QUIRKS, bytes.fromhex(TAPE), None)], [None] * len(tests), 0
    seen = {known(states[0], 0)}
    while states:
        for place, test in enumerate(tests):
            if first[place] is None and any(test(state) for state in states):
                first[place] = step
        step += 1
        later = []
        for state in states:
            for held in choices(state, keys):
                after = PROVED.SEARCHED.copied(state)
                after.step(held, step % RATE == 0)
                if not after.stopped and known(after, step) not in seen:
                    seen.add(known(after, step))
                    later.append(after)
        states = later
    return first


def replayed(code, lines, test, last):
    """The first step up to a last one at which a program meets a test under the events of a file, and the registers there."""
    events = sorted((int(line.split()[0]), int(line.split()[1]), line.split()[2] == "down") for line in lines)
    machine = EMULATED.Machine(code, PROVED.SEARCHED.QUIRKS, bytes.fromhex(TAPE), None)
    for step in range(last + 1):
        if machine.stopped:
            break
        if test(machine):
            return step, machine.v.hex(" ")
        machine.step(EMULATED.held(events, step), (step + 1) % RATE == 0)
    return None, ""


def expected(kind, first):
    if first is None:
        return "never reached" if kind == "ever" else "proved"
    return "reached" if kind == "ever" else "broken"


def wrong_script(program, folder, code, line, answer, test):
    """What is wrong with the script of an answer."""
    keys, step = f"keys/{line}.keys", answer["step"]
    lines = pathlib.Path(folder, keys).read_text(encoding="utf-8").splitlines()
    met, registers = replayed(code, lines, test, step)
    if met != step:
        return f"{answer}, but its script meets it at {met}"
    ran = program.run(["run", "game.asm", "--steps", str(step), "--tape", TAPE, "--rate", str(RATE), "--keys", keys], b"", folder)
    shown = ran.stdout.decode().splitlines()[:1]
    return "" if shown == [f"v {registers}"] else f"{answer}, and `run` shows {shown} and not {registers}"


def wrong_game(program, name):
    keys, source, tests = GAMES[name]
    source = source.lstrip()
    with tempfile.TemporaryDirectory() as folder:
        pathlib.Path(folder, "game.asm").write_text(source, encoding="utf-8")
        pathlib.Path(folder, "keys").mkdir()
        if program.run(["asm", "game.asm", "image"], b"", folder).status:
            return "it has faults"
        code = pathlib.Path(folder, "image").read_bytes()
        symbols = program.run(["syms", "game.asm"], b"", folder).stdout.decode().splitlines()
        at = {words[0]: int(words[1]) for words in (line.split() for line in symbols) if len(words) > 1}
        settings = ["--rate", str(RATE), "--tape", TAPE, "--keys-allowed", ",".join(map(str, keys))]
        ran = program.run(["prove", "game.asm", "--json", "--no-facts", *settings, "--keys-to", "keys/"], b"", folder)
        told = [json.loads(line) for line in ran.stdout.decode().splitlines()]
        answers = {answer["line"]: answer for answer in told if "line" in answer and not answer["property"].startswith("can ")}
        lines = [number for number, line in enumerate(source.splitlines(), 1) if line.startswith(";!") and not line.startswith(";! can ")]
        if sorted(answers) != lines or len(lines) != len(tests):
            return f"answers to {sorted(answers)} and not {lines}"
        tests = [lambda machine, test=test: bool(test(machine, at)) for test in tests]
        is_bad = False
        for line, test, first in zip(lines, tests, first_met(code, keys, tests)):
            wanted = expected(answers[line]["property"].split()[0], first)
            is_bad |= wanted in ("broken", "never reached")
            if answers[line]["answer"] != wanted or answers[line].get("step") != first:
                return f"{answers[line]} and not {wanted} {first}"
            wrong = "" if first is None else wrong_script(program, folder, code, line, answers[line], test)
            if wrong:
                return wrong
        return "" if ran.status == int(is_bad) else f"status {ran.status}"


def checks(program):
    for name in GAMES:
        yield f"game {name}", lambda name=name: wrong_game(program, name)


def wrong_example(program, name):
    """What is wrong in the answers to the properties of a game of examples/: no line is broken, each `ever` is reached, and a `can`
    is always so, as the comments of the source say. A search that ends with its states may leave a line open."""
    path = EXAMPLE.with_name(name)
    stated = [number for number, line in enumerate(path.read_text().splitlines(), 1) if line.startswith(";!")]
    done = program.run(["prove", str(path), "--states", "200000"], b"", str(path.parent))
    lines = done.stdout.decode().splitlines()
    told = [line for line in lines if line.startswith(f"{path}:")]
    if done.status != 0 or len(told) != len(stated) or lines[-1].split()[0] != "states":
        return f"status {done.status}: {lines}"
    return "\n".join(line for line in told if not any(word in line for word in GOOD_ANSWERS))


def slow_checks(program):
    for name in ("maze.asm", "breaker.asm", "puzzle.asm"):
        yield f"properties of {name}", lambda name=name: wrong_example(program, name)
