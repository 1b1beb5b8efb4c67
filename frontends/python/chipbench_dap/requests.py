"""The requests of the protocol, except those that move the machine."""

from __future__ import annotations

import base64
import re
from typing import Any

from chipbench_lsp.tables import STOPS
from chipbench_shell.values import Mistake, counted

from . import moves
from .adapter import THREAD, Adapter, Handler
from .breakpoints import Breakpoint, instruction_place, reference
from .expressions import Reader, known_words, read_subject
from .run import MEMORY_BYTES, Run
from .search import StateView
from .variables import FIRST_NAME, SCREEN, bytes_of_name, number_text
from .wire import Arguments, Refusal, objects, optional, required
from .words import FORMS, Words

#: The most instructions of one answer.
MOST_INSTRUCTIONS = 10_000
WORD_BYTES = 2
RANGE = re.compile(r"\[[^\[\]]*\.\.[^\[\]]*\]")
LAST_BEGUN = re.compile(r"[A-Za-z_][A-Za-z0-9_]*$")
FOLLOWS = (
    "a state follows from the lines and the key events: change a line and save it, or type `press` or `release` in the console"
)
CAPABILITIES: dict[str, Any] = {
    **dict.fromkeys((
        "supportsConfigurationDoneRequest", "supportsFunctionBreakpoints", "supportsConditionalBreakpoints",
        "supportsHitConditionalBreakpoints", "supportsEvaluateForHovers", "supportsStepBack", "supportsRestartFrame",
        "supportsGotoTargetsRequest", "supportsCompletionsRequest", "supportsRestartRequest", "supportsExceptionInfoRequest",
        "supportTerminateDebuggee", "supportsDelayedStackTraceLoading", "supportsLoadedSourcesRequest", "supportsLogPoints",
        "supportsTerminateRequest", "supportsDataBreakpoints", "supportsReadMemoryRequest", "supportsDisassembleRequest",
        "supportsCancelRequest", "supportsBreakpointLocationsRequest", "supportsClipboardContext", "supportsSteppingGranularity",
        "supportsInstructionBreakpoints", "supportsValueFormattingOptions",
    ), True),
    "exceptionBreakpointFilters": [
        {"filter": "stops", "label": "The machine stops (S1 to S7)", "default": True,
         "description": "Without this filter the session ends when the machine stops."},
    ],
}


# -- the beginning and the end


def initialize(adapter: Adapter, arguments: Any) -> Arguments:
    if adapter.is_initialized:
        raise Refusal("the adapter is initialized already")
    client = adapter.client
    client.first_line = 0 if optional(arguments, "linesStartAt1", bool) is False else 1
    client.first_column = 0 if optional(arguments, "columnsStartAt1", bool) is False else 1
    client.has_uris = optional(arguments, "pathFormat", str) == "uri"
    client.invalidates = optional(arguments, "supportsInvalidatedEvent", bool) is True
    client.shows_progress = optional(arguments, "supportsProgressReporting", bool) is True
    adapter.is_initialized = True
    return dict(CAPABILITIES)


def launch(adapter: Adapter, arguments: Any) -> None:
    if adapter.launch is not None:
        raise Refusal("a game is launched already: restart starts it again")
    adapter.open(arguments)
    adapter.later(lambda: adapter.writer.event("initialized"))
    if adapter.is_configured:
        adapter.later(adapter.begin)


def attach(adapter: Adapter, arguments: Any) -> None:
    raise Refusal("the adapter can't attach to a game: use launch, with its source")


def configuration_done(adapter: Adapter, arguments: Any) -> None:
    if adapter.is_configured:
        raise Refusal("the configuration is done already")
    adapter.is_configured = True
    if adapter.launch is not None:
        adapter.later(adapter.begin)


def restart(adapter: Adapter, arguments: Any) -> None:
    given = optional(arguments, "arguments", dict)
    adapter.open(given if given and ("source" in given or "image" in given) else dict(adapter.launched_by))
    adapter.later(adapter.begin)


def terminate(adapter: Adapter, arguments: Any) -> None:
    adapter.later(adapter.ended)


def disconnect(adapter: Adapter, arguments: Any) -> None:
    adapter.later(adapter.disconnect)


def cancel(adapter: Adapter, arguments: Any) -> None:
    optional(arguments, "requestId", int)
    progress = optional(arguments, "progressId", str)
    if adapter.move is not None and progress is not None and progress == adapter.move.progress:
        adapter.pause()


# -- breakpoints


def is_ours(adapter: Adapter, source: Any) -> bool:
    """Whether a source of the protocol is the one that runs."""
    return adapter.is_source(optional(source, "path", str), optional(source, "sourceReference", int))


def breakpoints(adapter: Adapter, points: list[Breakpoint]) -> Arguments:
    adapter.anew()
    return {"breakpoints": [adapter.breakpoint(point) for point in points]}


def function_name(one: Arguments) -> str:
    return str(required(one, "name", str))


def data_id(one: Arguments) -> str:
    return str(required(one, "dataId", str))


def set_breakpoints(adapter: Adapter, arguments: Any) -> Arguments:
    source = required(arguments, "source", dict)
    given = objects(arguments, "breakpoints")
    if "breakpoints" not in arguments:
        given = [{"line": line} for line in optional(arguments, "lines", list) or []]
    lines = [adapter.line_in(required(one, "line", int)) for one in given]
    if not is_ours(adapter, source):
        message = "this is not the source that is debugged"
        return {"breakpoints": [{"verified": False, "message": message} for _ in lines]}
    return breakpoints(adapter, adapter.all_points().replace("line", given, lambda one: adapter.line_in(one["line"])))


def set_function_breakpoints(adapter: Adapter, arguments: Any) -> Arguments:
    given = objects(arguments, "breakpoints", is_needed=True)
    return breakpoints(adapter, adapter.all_points().replace("function", given, function_name))


def set_instruction_breakpoints(adapter: Adapter, arguments: Any) -> Arguments:
    given = objects(arguments, "breakpoints", is_needed=True)
    return breakpoints(adapter, adapter.all_points().replace("instruction", given, instruction_place))


def set_data_breakpoints(adapter: Adapter, arguments: Any) -> Arguments:
    given = objects(arguments, "breakpoints", is_needed=True)
    for one in given:
        if optional(one, "accessType", str) not in (None, "write"):
            raise Refusal("a data breakpoint stops only at changes: its accessType must be write")
    return breakpoints(adapter, adapter.all_points().replace("data", given, data_id))


def set_exception_breakpoints(adapter: Adapter, arguments: Any) -> Arguments:
    more = [required(one, "filterId", str) for one in objects(arguments, "filterOptions")]
    names = [*required(arguments, "filters", list), *more]
    for name in names:
        if not isinstance(name, str):
            raise Refusal("each item of filters must be a text")
    adapter.stops_at_faults = "stops" in names
    return {"breakpoints": [
        {"verified": True} if name == "stops" else {"verified": False, "message": f"there is no filter {name}"} for name in names
    ]}


def data_breakpoint_info(adapter: Adapter, arguments: Any) -> Arguments:
    name, container = required(arguments, "name", str), optional(arguments, "variablesReference", int) or 0
    symbols = adapter.run.layout().symbols
    if container >= FIRST_NAME and container - FIRST_NAME < len(symbols) and re.fullmatch(r"\[[0-9]+\]", name):
        name = f"[{list(symbols)[container - FIRST_NAME]} + {name[1:-1]}]"
    if container == SCREEN:
        return {"dataId": None, "description": "this is a row of the screen: use PIXEL(column, row) for one pixel"}
    try:
        subject = read_subject(name, symbols)
    except Mistake as mistake:
        return {"dataId": None, "description": str(mistake)}
    return {"dataId": subject.text, "description": f"changes of {subject.text}", "accessTypes": ["write"], "canPersist": True}


def breakpoint_locations(adapter: Adapter, arguments: Any) -> Arguments:
    source = required(arguments, "source", dict)
    first = adapter.line_in(required(arguments, "line", int))
    end = optional(arguments, "endLine", int)
    last = first if end is None else adapter.line_in(end)
    if not is_ours(adapter, source):
        return {"breakpoints": []}
    lines = adapter.run.layout().listing[max(first, 1) - 1 : max(last, 0)]
    with_code = [line.number for line in lines if line.code and line.address is not None]
    return {"breakpoints": [{"line": adapter.line_out(number)} for number in with_code]}


# -- the state


def threads(adapter: Adapter, arguments: Any) -> Arguments:
    return {"threads": [{"id": THREAD, "name": "CHIP-8"}]}


def stack_trace(adapter: Adapter, arguments: Any) -> Arguments:
    moves.check_thread(arguments)
    start, levels = optional(arguments, "startFrame", int) or 0, optional(arguments, "levels", int) or 0
    frames = adapter.run.frames()
    found = []
    for number, frame in enumerate(frames, 1):
        made: dict[str, Any] = {
            "id": number, "name": frame.name, "line": 0, "column": 0, "instructionPointerReference": f"0x{frame.address:04x}",
        }
        if frame.line is not None:
            made |= {"source": adapter.source(), "line": adapter.line_out(frame.line), "column": adapter.client.first_column}
        found.append(made)
    end = start + levels if levels > 0 else len(found)
    return {"stackFrames": found[max(start, 0) : max(end, 0)], "totalFrames": len(found)}


def frame_depth(adapter: Adapter, number: int) -> int:
    """The number of calls that are open in a frame, by the frame's number."""
    frames = adapter.run.frames()
    if not 1 <= number <= len(frames):
        raise Refusal(f"there is no frame {number}")
    return frames[number - 1].depth


def scopes(adapter: Adapter, arguments: Any) -> Arguments:
    frame_depth(adapter, required(arguments, "frameId", int))
    return {"scopes": adapter.all_variables().scopes()}


def is_hexadecimal(arguments: Any) -> bool:
    return optional(optional(arguments, "format", dict), "hex", bool) is True


def variables(adapter: Adapter, arguments: Any) -> Arguments:
    found = adapter.all_variables().of(required(arguments, "variablesReference", int), is_hexadecimal(arguments))
    optional(arguments, "filter", str)
    start, count = optional(arguments, "start", int) or 0, optional(arguments, "count", int) or 0
    end = start + count if count > 0 else len(found)
    return {"variables": found[max(start, 0) : max(end, 0)]}


def refuse_to_set(adapter: Adapter, arguments: Any) -> None:
    raise Refusal(FOLLOWS)


def evaluate(adapter: Adapter, arguments: Any) -> Arguments:
    text, context = required(arguments, "expression", str), optional(arguments, "context", str)
    if not text.strip():
        raise Refusal("there is no expression", is_shown=False)
    # some clients name no context in their console
    if context in (None, "repl"):
        answered = Words(adapter.run, adapter.drain).answer(text)
        if answered is not None:
            result, is_elsewhere = answered
            if is_elsewhere:
                adapter.later(lambda: adapter.stopped("goto", result))
            return {"result": result, "variablesReference": 0}
    try:
        return evaluated(adapter.run, text.strip(), is_hexadecimal(arguments))
    except Mistake as mistake:
        raise Refusal(str(mistake), is_shown=context not in ("hover", "watch")) from None


def evaluated(run: Run, text: str, is_hexadecimal: bool) -> Arguments:
    """The value of a condition, a sum, a range of bytes, or a label with its bytes."""
    layout, state = run.layout(), run.state()
    size = bytes_of_name(layout, text.upper())
    if size:
        symbol = layout.symbols[text.upper()]
        content = state.memory[symbol.value : symbol.value + size]
        place = list(layout.symbols).index(text.upper())
        return {
            "result": f"{number_text(symbol.value, 3, is_hexadecimal)}: {content.hex(' ')}", "type": f"{size} bytes",
            "variablesReference": FIRST_NAME + place, "memoryReference": f"0x{symbol.value:04x}",
        }
    if RANGE.fullmatch(text):
        subject = read_subject(text, layout.symbols)
        return {"result": subject.shown(subject.read(StateView(state))), "type": "bytes", "variablesReference": 0}
    reader = Reader(text, layout.symbols)
    test = reader.condition()
    if test is not None:
        reader.end()
        return {"result": "true" if test(StateView(state)) else "false", "type": "condition", "variablesReference": 0}
    value = reader.sum()
    reader.end()
    number = value(StateView(state))
    digits = 4 if text.upper() in ("I", "PC") else 2
    return {"result": number_text(number, digits, is_hexadecimal), "type": "number", "variablesReference": 0}


def completions(adapter: Adapter, arguments: Any) -> Arguments:
    text, column = required(arguments, "text", str), required(arguments, "column", int)
    before = text[: max(column - adapter.client.first_column, 0)]
    found = LAST_BEGUN.search(before)
    begun = found[0] if found is not None else ""
    first = [f"{word} " for word in FORMS] if before == begun else []
    words = [*first, *known_words(adapter.run.layout().symbols)]
    targets = [
        {"label": word.strip(), "text": word, "start": len(before) - len(begun), "length": len(begun)}
        for word in words if word.upper().startswith(begun.upper())
    ]
    return {"targets": targets}


def exception_info(adapter: Adapter, arguments: Any) -> Arguments:
    moves.check_thread(arguments)
    run = adapter.run
    state = run.state()
    if state.stopped is None:
        raise Refusal("the machine has not stopped")
    line = run.layout().line_at(state.pc)
    where = f"line {line}: {run.line_text(line)}" if line is not None else f"#{state.pc:03X}: {run.instruction(state)}"
    facts = f"at step {state.step} pc is #{state.pc:03X}, I is #{state.i:03X}, and {counted(len(state.call_stack), 'call')} open"
    why = f"{STOPS.get(state.stopped, '').replace('`', '')}; {facts}"
    calls = [f"called from #{frame.address:03X}" + (f", line {frame.line}" if frame.line else "") for frame in run.frames()[1:]]
    return {
        "exceptionId": state.stopped, "description": f"{run.stop_text(state.stopped)}, at {where}", "breakMode": "always",
        "details": {"message": why, "typeName": state.stopped, "stackTrace": "\n".join([where, *calls])},
    }


def read_memory(adapter: Adapter, arguments: Any) -> Arguments:
    start = reference(required(arguments, "memoryReference", str)) + (optional(arguments, "offset", int) or 0)
    count = required(arguments, "count", int)
    if count < 0:
        raise Refusal("expected a count from 0 on")
    if not 0 <= start < MEMORY_BYTES:
        return {"address": f"0x{max(start, 0):04x}", "unreadableBytes": count}
    content = adapter.run.state().memory[start : start + count]
    made: Arguments = {"address": f"0x{start:04x}", "data": base64.b64encode(content).decode("ascii")}
    if len(content) < count:
        made["unreadableBytes"] = count - len(content)
    return made


def disassemble(adapter: Adapter, arguments: Any) -> Arguments:
    start = reference(required(arguments, "memoryReference", str)) + (optional(arguments, "offset", int) or 0)
    start += WORD_BYTES * (optional(arguments, "instructionOffset", int) or 0)
    count = required(arguments, "instructionCount", int)
    if not 0 <= count <= MOST_INSTRUCTIONS:
        raise Refusal(f"instructionCount must be from 0 to {MOST_INSTRUCTIONS}, but is {count}")
    addresses = range(start, start + WORD_BYTES * count, WORD_BYTES)
    inside = [address for address in addresses if 0 <= address < MEMORY_BYTES - 1]
    run = adapter.run
    words = run.game.bench.words(run.step, inside[0], len(inside)) if inside else []
    texts = {word.address: (f"{word.word:04x}", word.text) for word in words}
    return {"instructions": [instruction(adapter, address, *texts.get(address, ("", ""))) for address in addresses]}


def instruction(adapter: Adapter, address: int, code: str, text: str) -> Arguments:
    """A word of the memory as an instruction; a placeholder past its end."""
    if not code:
        return {"address": f"0x{max(address, 0):04x}", "instruction": "past the memory", "presentationHint": "invalid"}
    layout = adapter.run.layout()
    made: Arguments = {"address": f"0x{address:04x}", "instructionBytes": f"{code[:2]} {code[2:]}", "instruction": text}
    if address in layout.labels:
        made["symbol"] = layout.labels[address]
    line = layout.line_at(address)
    if line is not None:
        made |= {"location": adapter.source(), "line": adapter.line_out(line)}
    return made


def loaded_sources(adapter: Adapter, arguments: Any) -> Arguments:
    return {"sources": [adapter.source()]}


def source(adapter: Adapter, arguments: Any) -> Arguments:
    given = optional(arguments, "source", dict) or {}
    number = required(arguments, "sourceReference", int) or optional(given, "sourceReference", int)
    if not adapter.is_source(optional(given, "path", str), number):
        raise Refusal("this is not the source that is debugged")
    return {"content": adapter.run.game.bench.source.encode("utf-8", "replace").decode("utf-8"), "mimeType": "text/x-chip8"}


HANDLERS: dict[str, Handler] = {
    "initialize": initialize, "launch": launch, "attach": attach, "configurationDone": configuration_done, "restart": restart,
    "terminate": terminate, "disconnect": disconnect, "cancel": cancel, "setBreakpoints": set_breakpoints,
    "setFunctionBreakpoints": set_function_breakpoints, "setInstructionBreakpoints": set_instruction_breakpoints,
    "setDataBreakpoints": set_data_breakpoints, "setExceptionBreakpoints": set_exception_breakpoints,
    "dataBreakpointInfo": data_breakpoint_info, "breakpointLocations": breakpoint_locations, "threads": threads,
    "stackTrace": stack_trace, "scopes": scopes, "variables": variables, "setVariable": refuse_to_set,
    "setExpression": refuse_to_set, "writeMemory": refuse_to_set, "evaluate": evaluate, "completions": completions,
    "exceptionInfo": exception_info, "readMemory": read_memory, "disassemble": disassemble, "loadedSources": loaded_sources,
    "source": source, **moves.HANDLERS,
}
