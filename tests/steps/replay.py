"""The cases for tests/trace/emulator.py, an emulator that knows nothing of the program."""
import importlib.util

from common import TOP

# the example has a module of the same name
found = importlib.util.spec_from_file_location("trace_emulator", TOP / "tests" / "trace" / "emulator.py")
emulator = importlib.util.module_from_spec(found)
found.loader.exec_module(emulator)
QUIRKS = emulator.profiles()


def machine_of(case, profile):
    initial = case["initial"]
    machine = emulator.Machine(b"", QUIRKS[profile], bytes(initial["random"]), None)
    machine.memory[:] = bytes(4096)
    for address, byte in initial["memory"]:
        machine.memory[address] = byte
    machine.v[:], machine.flags[:], machine.stack = bytes(initial["v"]), bytes(initial["flags"]), list(initial["stack"])
    machine.pc, machine.i, machine.dt, machine.st = (initial[name] for name in ("pc", "i", "dt", "st"))
    machine.high = initial["high"]
    lit = ((row, int(pixels, 16)) for row, pixels in initial["screen"])
    machine.screen = {(column, row) for row, bits in lit for column in range(128) if bits >> 127 - column & 1}
    return machine


def found_by(machine):
    """The parts of a machine, as a case has them; of memory and screen what isn't 0."""
    rows = {}
    for column, row in machine.screen:
        rows[row] = rows.get(row, 0) | 1 << 127 - column
    found = {name: getattr(machine, name) for name in ("pc", "i", "dt", "st", "stack", "high")}
    return found | {
        "v": list(machine.v), "flags": list(machine.flags), "stops": machine.stopped, "used": machine.draws,
        "memory": {address: byte for address, byte in enumerate(machine.memory) if byte},
        "screen": {row: f"{bits:032x}" for row, bits in rows.items()},
    }


def wanted_by(case):
    """The parts that a case asks for."""
    initial, final = case["initial"], case["final"]
    wanted = {name: final.get(name, initial[name]) for name in ("pc", "i", "dt", "st", "stack", "high", "v", "flags")}
    wanted["stops"] = case["stops"] is not None
    wanted["used"] = len(initial["random"]) - len(final.get("random", initial["random"]))
    for name in ("memory", "screen"):
        cells = {**dict(initial[name]), **dict(final.get(name, []))}
        wanted[name] = {at: value for at, value in cells.items() if value not in (0, "0" * 32)}
    return wanted


def differing(case, profile):
    """The names of the parts in which the emulator isn't as the case says."""
    machine, initial = machine_of(case, profile), case["initial"]
    machine.step(sum(1 << key for key in initial["keys"]), initial["tick"])
    found, wanted = found_by(machine), wanted_by(case)
    return [name for name in wanted if found[name] != wanted[name]]
