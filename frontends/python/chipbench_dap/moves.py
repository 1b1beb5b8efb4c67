"""The requests that move the machine: forward and back."""

from __future__ import annotations

from typing import Any

from chipbench import State
from chipbench_shell.search import LAST_STEP

from .adapter import THREAD, Adapter, Handler
from .run import not_deeper
from .search import Task, Wanted
from .wire import Arguments, Refusal, optional, required


def check_thread(arguments: Any) -> None:
    thread = required(arguments, "threadId", int)
    if thread != THREAD:
        raise Refusal(f"there is no thread {thread}: the machine is thread {THREAD}")


def granularity(arguments: Any) -> str:
    found = optional(arguments, "granularity", str) or "statement"
    if found not in ("statement", "line", "instruction"):
        raise Refusal(f"granularity must be statement, line or instruction, but is {found[:40]}")
    return str(found)


def stepping_state(adapter: Adapter, arguments: Any) -> State | None:
    """The state that the step of a request goes on from, as `running_state` has it."""
    check_thread(arguments)
    granularity(arguments)
    return running_state(adapter)


def running_state(adapter: Adapter) -> State | None:
    """The state that a step goes on from. None if the machine has stopped; then the client is told so once more."""
    state = adapter.run.state()
    if state.stopped is not None:
        adapter.later(adapter.stopped_at_fault)
        return None
    if state.step >= LAST_STEP:
        raise Refusal(f"step {LAST_STEP} is the last step that a run can have")
    return state


def is_at_start(adapter: Adapter) -> bool:
    """Whether this is the first step; then the client is told so."""
    if adapter.run.step > 0:
        return False
    adapter.later(lambda: adapter.stopped("entry", "at the start: no step is before it"))
    return True


def go_on(adapter: Adapter, arguments: Any) -> Arguments:
    check_thread(arguments)
    if running_state(adapter) is not None:
        adapter.start("continue", lambda after: adapter.run.forward(adapter.wanted(), after), adapter.run.step)
    return {"allThreadsContinued": True}


def reverse_continue(adapter: Adapter, arguments: Any) -> None:
    check_thread(arguments)
    if not is_at_start(adapter):
        adapter.start("reverse", lambda before: adapter.run.backward(silent(adapter.wanted()), before), adapter.run.step, False)


def silent(wanted: list[Wanted]) -> list[Wanted]:
    """The breakpoints without the log points, which print only on the way forward."""
    return [one for one in wanted if one.told is None]


def one_step(adapter: Adapter, step: int) -> None:
    adapter.run.go(step)
    adapter.later(adapter.stopped_after_step)


def step_in(adapter: Adapter, arguments: Any) -> None:
    state = stepping_state(adapter, arguments)
    if state is not None:
        one_step(adapter, state.step + 1)


def step_over(adapter: Adapter, arguments: Any) -> None:
    state = stepping_state(adapter, arguments)
    if state is None:
        return
    depth = len(state.call_stack)
    if len(adapter.run.state(state.step + 1).call_stack) <= depth:
        one_step(adapter, state.step + 1)
    else:
        adapter.start("next", lambda after: adapter.run.over(adapter.wanted(), after, depth), state.step)


def step_out(adapter: Adapter, arguments: Any) -> None:
    state = stepping_state(adapter, arguments)
    if state is None:
        return
    depth = len(state.call_stack)
    if depth == 0:
        raise Refusal("no subroutine is running, so there is nothing to step out of")
    adapter.start("step out", lambda after: adapter.run.until(not_deeper(depth - 1), adapter.wanted(), after), state.step)


def step_back(adapter: Adapter, arguments: Any) -> None:
    """One step back. Unless the granularity is instruction, a whole call is one step in this subroutine."""
    check_thread(arguments)
    is_instruction = granularity(arguments) == "instruction"
    if is_at_start(adapter):
        return
    run = adapter.run
    before, depth = run.step - 1, len(run.state().call_stack)
    if is_instruction or len(run.state(before).call_stack) <= depth:
        one_step(adapter, before)
    else:
        wanted = silent(adapter.wanted())
        adapter.start("step back", lambda at: run.back_over(wanted, at, depth), run.step, False)


def pause(adapter: Adapter, arguments: Any) -> None:
    check_thread(arguments)
    adapter.pause()


def restart_frame(adapter: Adapter, arguments: Any) -> None:
    """Goes back to the first step of a call; of the program itself, to the start."""
    frames, number = adapter.run.frames(), required(arguments, "frameId", int)
    if not 1 <= number <= len(frames):
        raise Refusal(f"there is no frame {number}")
    depth = frames[number - 1].depth
    if depth == 0:
        adapter.run.go(0)
        adapter.later(lambda: adapter.stopped("entry", "at the start"))
        return
    adapter.start("restart", lambda at: adapter.run.entry(depth, at), adapter.run.step, False, behind=1)


def goto_targets(adapter: Adapter, arguments: Any) -> Arguments:
    """The steps before a line is executed: the next after this step, the last before it, and the first."""
    source = required(arguments, "source", dict)
    number = adapter.line_in(required(arguments, "line", int))
    if not adapter.is_source(optional(source, "path", str), optional(source, "sourceReference", int)):
        raise Refusal("this is not the source that is debugged")
    line = adapter.run.layout().with_code(number)
    if line is None or line.number != number:
        raise Refusal(f"line {number} has no code")
    wanted, run = [Wanted(0, line.address)], adapter.run
    searches: dict[str, Task] = {
        "the next time": run.forward(wanted, run.step), "the last time before": run.backward(wanted, run.step),
        "the first time": run.forward(wanted, -1),
    }
    steps: dict[int, str] = {}
    for name, task in searches.items():
        found = adapter.drain(task)
        if found.step is not None:
            steps.setdefault(found.step, name)
    if not steps:
        raise Refusal(f"the run never reaches line {number}")
    adapter.targets = list(steps)
    return {"targets": [
        {"id": target, "label": f"step {step}, {name}", "line": adapter.line_out(number)}
        for target, (step, name) in enumerate(steps.items())
    ]}


def goto(adapter: Adapter, arguments: Any) -> None:
    check_thread(arguments)
    target = required(arguments, "targetId", int)
    if not 0 <= target < len(adapter.targets):
        raise Refusal(f"there is no target {target}: gotoTargets lists the targets")
    adapter.run.go(adapter.targets[target])
    adapter.later(lambda: adapter.stopped("goto"))


HANDLERS: dict[str, Handler] = {
    "continue": go_on, "reverseContinue": reverse_continue, "next": step_over, "stepIn": step_in, "stepOut": step_out,
    "stepBack": step_back, "pause": pause, "restartFrame": restart_frame, "gotoTargets": goto_targets, "goto": goto,
}
