"""Tests an emulator with the JSON files of `chipbench-steps`, and prints the first difference of each: run_steps.py FOLDER

For another emulator change `put` and `parts_of`, and how a machine is made and makes a step.
"""
import json
import pathlib
import sys

from emulator import Machine


def put(machine, state):
    """Gives a machine the parts of a state that a case names."""
    for name, value in state.items():
        match name:
            case "pc" | "i" | "dt" | "st" | "high": setattr(machine, name, value)
            case "v" | "flags": setattr(machine, name, bytearray(value))
            case "stack": machine.stack = list(value)
            case "memory":
                for address, byte in value:
                    machine.memory[address] = byte
            case "screen":
                for row, pixels in value:
                    machine.screen[row] = int(pixels, 16)


def machine_of(profile, *states):
    """A machine in a state, as the last one says that names a part. The rest of the memory and of the screen is 0."""
    machine = Machine(profile)
    machine.memory = bytearray(4096)
    for state in states:
        put(machine, state)
    return machine


def parts_of(machine):
    """The parts of a machine by their names: each register, each byte and each row of the screen that isn't 0."""
    parts = {f"V{number:X}": value for number, value in enumerate(machine.v)}
    parts |= {"pc": machine.pc, "I": machine.i, "DT": machine.dt, "ST": machine.st, "stack": machine.stack}
    parts |= {"flags": list(machine.flags), "high size": machine.high, "stop": machine.stops}
    parts |= {f"memory {address:#06x}": byte for address, byte in enumerate(machine.memory) if byte}
    return parts | {f"screen row {row}": f"{pixels:032x}" for row, pixels in enumerate(machine.screen) if pixels}


def differences(case):
    """What differs after the step of a case, in words."""
    profile, initial, final = case["profile"], case["initial"], case["final"]
    machine, expected = machine_of(profile, initial), machine_of(profile, initial, final)
    expected.stops = case["stops"]
    random_bytes = iter(initial["random"])
    try:
        machine.step(initial["keys"], initial["tick"], random_bytes)
    except Exception as error:
        return [f"the step fails: {error!r}"]
    found, wanted = parts_of(machine), parts_of(expected)
    found["random bytes left"], wanted["random bytes left"] = list(random_bytes), final.get("random", initial["random"])
    names = [name for name in {**wanted, **found} if found.get(name, 0) != wanted.get(name, 0)]
    return [f"{name} is {found.get(name, 0)}, and has to be {wanted.get(name, 0)}" for name in names]


def run_file(path):
    """Tests the cases of a file, prints the first difference, and gives how many cases differ."""
    wrong = [(case, found[0]) for case in json.loads(path.read_text()) if (found := differences(case))]
    for case, found in wrong[:1]:
        print(f"{case['name'].replace(' ', ' case ')}: {found}    ({case['text']}: {case['about']})")
    return len(wrong)


if __name__ == "__main__":
    if len(sys.argv) != 2:
        sys.exit(__doc__)
    place = pathlib.Path(sys.argv[1])
    index = json.loads((place / "index.json").read_text()) if place.is_dir() else sys.exit(f"{place}: expected a folder, such as schip")
    if index["format"] != 1:
        sys.exit(f"{place} has another format")
    wrong, cases = (sum(found) for found in zip(*((run_file(place / each["file"]), each["cases"]) for each in index["files"])))
    print(f"{index['profile']}: {wrong} of {cases} cases differ")
    sys.exit(wrong > 0)
