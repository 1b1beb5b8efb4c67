"""Tests an emulator with the programs of `chipbench-steps`, and prints the first difference of each: run_programs.py FOLDER

`run_programs.py FOLDER --trace 3` prints the trace of program 3, for `chipbench trace --against`. For another emulator change
`fields_of`, and how a machine is made and makes a step.
"""
import functools
import json
import pathlib
import re
import sys

from emulator import Machine


def fnv(content):
    """The sum of 64 bits, FNV-1a, that the trace has of the screen and of the memory."""
    add = lambda total, byte: (total ^ byte) * 0x100000001B3 & (1 << 64) - 1
    return f"{functools.reduce(add, content, 0xCBF29CE484222325):016x}"


def fields_of(machine):
    """The fields of the trace except the sums."""
    fields = {"pc": machine.pc, "i": machine.i, "dt": machine.dt, "st": machine.st, "depth": len(machine.stack)}
    return fields | {f"v{number:x}": value for number, value in enumerate(machine.v)}


def states(program):
    """Runs a program, and gives each step and the machine before it."""
    machine, keys, events = Machine(program["profile"], bytes.fromhex(program["image"])), set(), list(program["keys"])
    tape, at = bytes.fromhex(program["tape"]), 0
    random_bytes = (tape[at % len(tape)] for at in range(1 << 62))
    while True:
        yield at, machine
        while events and events[0][0] == at:
            _, key, is_down = events.pop(0)
            keys = keys | {key} if is_down else keys - {key}
        at += 1
        machine.step(keys, at % program["rate"] == 0, random_bytes)


def program_difference(program):
    """The first step at which a state of the program isn't as it has to be, in words, or None."""
    listed = {state["step"]: state for state in program["states"]}
    for at, machine in states(program):
        if expected := listed.pop(at, None):
            found = fields_of(machine) | {"memory": fnv(machine.memory)}
            found["screen"] = fnv(b"".join(row.to_bytes(16, "big") for row in machine.screen))
            # the text of the last state is the stop
            found["text"] = machine.stops if machine.stops or re.fullmatch("S[1-7]", expected["text"]) else expected["text"]
            for name, value in found.items():
                if value != expected[name]:
                    return f"at step {at}: {name} is {value}, and has to be {expected[name]}"
        if not listed:
            return None


def print_trace(program):
    """The trace of a program, as `chipbench trace --against` reads it."""
    print("# step pc i dt st depth", *(f"v{number:x}" for number in range(16)))
    for at, machine in states(program):
        timers = f"{machine.dt:02x} {machine.st:02x}"
        print(f"{at} {machine.pc:04x} {machine.i:04x} {timers} {len(machine.stack)} {machine.v.hex(' ')}")
        if machine.stops or at == program["states"][-1]["step"]:
            return


def main(place, trace=None):
    index = json.loads((place / "index.json").read_text()) if place.is_dir() else sys.exit(f"{place}: expected a folder, such as schip")
    programs = json.loads((place / index["programs"]["file"]).read_text()) if index["format"] == 1 else sys.exit("another format")
    if trace is not None:
        return print_trace(programs[trace - 1])
    wrong = [(program, found) for program in programs if (found := program_difference(program))]
    print(*(f"{program['name']} {found}    (in {place}: {program['command']} --against TRACE)\n" for program, found in wrong),
          f"{index['profile']}: {len(wrong)} of {len(programs)} programs differ", sep="")
    return len(wrong) > 0


if __name__ == "__main__":
    sys.exit(main(pathlib.Path(sys.argv[1]), *map(int, sys.argv[3:])) if len(sys.argv) in (2, 4) else __doc__)
