"""The state as a client shows it: scopes, their variables, and memory."""

from __future__ import annotations

from collections.abc import Callable
from typing import Any

from chipbench import ListingLine, State, sentences
from chipbench_shell.values import Mistake

from .expressions import Value
from .run import MEMORY_BYTES, Layout, Run
from .search import StateView

#: The most bytes that are shown in the value of a name.
SHOWN_BYTES = 8
#: The references of the bytes of a name begin here.
FIRST_NAME = 100
#: The reference of the screen.
SCREEN = 5
READ_ONLY = {"attributes": ["readOnly"]}

Variable = dict[str, Any]


def number_text(value: int, digits: int, is_hexadecimal: bool = False) -> str:
    """A number as a client shows it.

    >>> number_text(10, 2), number_text(10, 2, True), number_text(-3, 2)
    ('10 = #0a', '#0a', '-3')
    """
    if value < 0:
        return str(value)
    written = f"#{value:0{digits}x}"
    return written if is_hexadecimal else f"{value} = {written}"


def variable(
    name: str, value: str, kind: str, expression: str | None, reference: int = 0, address: int | None = None
) -> Variable:
    """A variable of the protocol. `expression` is the text to type for its value, and `address` is the address of its bytes."""
    made: Variable = {"name": name, "value": value, "type": kind, "variablesReference": reference, "presentationHint": READ_ONLY}
    if expression is not None:
        made["evaluateName"] = expression
    if address is not None:
        made["memoryReference"] = f"0x{address:04x}"
    return made


class Variables:
    """The scopes of a run. Every frame has the same scopes, those of the machine."""

    def __init__(self, run: Run) -> None:
        self.run = run
        self._scopes: list[tuple[str, str, Callable[[State, bool], list[Variable]]]] = [
            ("Registers", "registers", self._registers),
            ("Timers and run", "locals", self._timers),
            ("Flags", "registers", self._flags),
            ("Names", "locals", self._names),
            ("Screen", "locals", self._screen),
        ]

    def scopes(self) -> list[dict[str, Any]]:
        return [
            {"name": name, "presentationHint": hint, "variablesReference": number, "expensive": number == SCREEN}
            for number, (name, hint, _) in enumerate(self._scopes, 1)
        ]

    def of(self, reference: int, is_hexadecimal: bool) -> list[Variable]:
        """The variables of a scope, or the bytes of a name."""
        state = self.run.state()
        if 1 <= reference <= len(self._scopes):
            return self._scopes[reference - 1][2](state, is_hexadecimal)
        names = list(self.run.layout().symbols)
        if FIRST_NAME <= reference < FIRST_NAME + len(names):
            return self._bytes(names[reference - FIRST_NAME], state, is_hexadecimal)
        raise Mistake(f"there are no variables {reference}")

    def _registers(self, state: State, is_hexadecimal: bool) -> list[Variable]:
        found = [
            variable(f"V{number:X}", number_text(value, 2, is_hexadecimal), "register", f"V{number:X}")
            for number, value in enumerate(state.v)
        ]
        for name, value in (("I", state.i), ("PC", state.pc)):
            address = value if value < MEMORY_BYTES else None
            found.append(variable(name, number_text(value, 4, is_hexadecimal), "register", name, address=address))
        return found

    def _timers(self, state: State, is_hexadecimal: bool) -> list[Variable]:
        stop = state.stopped
        sentence = sentences(self.run.game.bench.program).get(stop or "", "")
        return [
            variable("step", str(state.step), "number", "STEP"),
            variable("DT", number_text(state.delay_timer, 2, is_hexadecimal), "timer", "DT"),
            variable("ST", number_text(state.sound_timer, 2, is_hexadecimal), "timer", "ST"),
            variable("random bytes used", str(state.random_bytes_used), "number", "DRAWS"),
            variable("calls open", str(len(state.call_stack)), "number", "DEPTH"),
            variable("keys down", self.keys_down(state.step) or "none", "keys", None),
            variable("machine", "runs" if stop is None else f"has stopped: {stop}, {sentence}", "state", None),
        ]

    def keys_down(self, step: int) -> str:
        held = {key: down for (at, key), down in sorted(self.run.game.bench.events.items()) if at <= step}
        return " ".join(f"{key:X}" for key in sorted(held) if held[key])

    def _flags(self, state: State, is_hexadecimal: bool) -> list[Variable]:
        return [
            variable(f"flag {number}", number_text(value, 2, is_hexadecimal), "flag register", None)
            for number, value in enumerate(state.flags)
        ]

    def _names(self, state: State, is_hexadecimal: bool) -> list[Variable]:
        layout, found = self.run.layout(), []
        for place, (name, symbol) in enumerate(layout.symbols.items()):
            size = bytes_of_name(layout, name)
            if size == 0:
                found.append(variable(name, number_text(symbol.value, 2, is_hexadecimal), "constant", name))
                continue
            content = state.memory[symbol.value : symbol.value + size]
            shown = content[:SHOWN_BYTES].hex(" ") + (" .." if size > SHOWN_BYTES else "")
            text = f"#{symbol.value:03x}: {shown}"
            found.append(variable(name, text, f"{size} bytes", f"[{name}]", FIRST_NAME + place, symbol.value))
        return found

    def _bytes(self, name: str, state: State, is_hexadecimal: bool) -> list[Variable]:
        layout = self.run.layout()
        start = layout.symbols[name].value
        return [
            variable(
                f"[{offset}]", number_text(state.memory[start + offset], 2, is_hexadecimal), "byte",
                f"[{name} + {offset}]" if offset else f"[{name}]", address=start + offset,
            )
            for offset in range(bytes_of_name(layout, name))
        ]

    def _screen(self, state: State, is_hexadecimal: bool) -> list[Variable]:
        return [variable(f"{row:02}", pixels, "pixels", None) for row, pixels in enumerate(state.screen.rows)]

    # -- expressions

    def value_text(self, value: Value, digits: int, is_hexadecimal: bool) -> str:
        return number_text(value(StateView(self.run.state())), digits, is_hexadecimal)


def bytes_of_name(layout: Layout, name: str) -> int:
    """The number of bytes at a label: those of its line, or of the next line that has some. 0 for a constant."""
    if not layout.is_label(name):
        return 0
    symbol = layout.symbols[name]
    line: ListingLine | None = layout.with_code(symbol.line)
    if line is None or line.address != symbol.value:
        return 0
    return min(layout.sizes.get(line.number, 0), MEMORY_BYTES - symbol.value)
