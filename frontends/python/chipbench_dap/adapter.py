"""The adapter: takes requests in order, and tells the client where the machine is.

One thread reads messages, so that a request can be cancelled before its turn. The main thread does everything else: while the
machine runs, it takes a slice of the search, looks whether a message waits, and goes on.
"""

from __future__ import annotations

import os
import queue
import threading
import time
from collections.abc import Callable, Mapping
from dataclasses import dataclass
from typing import Any, BinaryIO

from chipbench import ChipbenchError, find_program
from chipbench_files import FileError
from chipbench_lines import same_ends
from chipbench_messages import END, BadMessage, Incoming, dig
from chipbench_shell.search import LAST_STEP
from chipbench_shell.values import Mistake

from .breakpoints import REASONS, Breakpoint, Breakpoints
from .expressions import NoValue
from .launch import Launch, misspelled, path_of, read_launch
from .run import STEPPED, Run
from .search import Found, Task
from .variables import Variables
from .wire import Arguments, Refusal, Writer, is_a, shown

THREAD = 1
#: The seconds between two looks at the file while the machine stands still, and before a move reports its progress.
LOOK_SECONDS, SILENT_SECONDS, TOLD_SECONDS = 0.3, 0.7, 0.5
#: The requests that are answered while the machine runs.
WHILE_RUNNING = frozenset({
    "pause", "restart", "terminate", "disconnect", "cancel", "threads", "loadedSources", "source", "breakpointLocations",
    "dataBreakpointInfo", "setBreakpoints", "setFunctionBreakpoints", "setInstructionBreakpoints", "setDataBreakpoints",
    "setExceptionBreakpoints",
})

Begin = Callable[[int], Task]
Handler = Callable[["Adapter", Any], "Arguments | None"]


def check_program() -> None:
    """Says what to do if no program is found."""
    try:
        find_program()
    except ChipbenchError:
        raise Refusal('no program chipbench was found: install it, or name it as "chipbench" in the launch configuration') from None


@dataclass
class Client:
    """The abilities and conventions that the client has named."""

    first_line: int = 1
    first_column: int = 1
    has_uris: bool = False
    invalidates: bool = False
    shows_progress: bool = False


@dataclass
class Move:
    """A search that moves the machine. `begin` starts it at a step, and again where breakpoints change on the way."""

    title: str
    begin: Begin
    at: int
    is_forward: bool
    request: int
    task: Task
    began: float
    #: The number that is added to the step found.
    behind: int = 0
    told: float = 0.0
    progress: str | None = None


class Adapter:
    def __init__(self, reader: BinaryIO, writer: BinaryIO, program: str | None, handlers: Mapping[str, Handler]) -> None:
        self._handlers = handlers
        self.writer = Writer(writer)
        self.program = program
        self._incoming = Incoming(reader, self._hear)
        self._lock = threading.Lock()
        self._cancelled: set[int] = set()
        self._is_ending = threading.Event()
        self._was_asked_to_end = False
        self.client = Client()
        self.is_initialized = False
        self._is_ended = False
        self.launch: Launch | None = None
        self.launched_by: Arguments = {}
        self._run: Run | None = None
        self.points: Breakpoints | None = None
        self.variables: Variables | None = None
        self.is_configured = False
        self.stops_at_faults = True
        self.move: Move | None = None
        self.request = 0
        self.targets: list[int] = []
        self._later: list[Callable[[], None]] = []
        self._file_error = ""

    # -- the loop

    def serve(self) -> int:
        """Serves until the client ends it. The status is 0 if the client sent `disconnect`."""
        self._incoming.start()
        try:
            while not self._is_ended:
                self._turn()
        except BrokenPipeError:
            return 1
        finally:
            if self._run is not None:
                self._run.close()
        return 0 if self._was_asked_to_end else 1

    def _hear(self, message: Arguments) -> None:
        """Notes at once any message that concerns the request being answered."""
        command = message.get("command")
        if command == "cancel":
            request = dig(message, "arguments", "requestId")
            if is_a(request, int):
                with self._lock:
                    self._cancelled.add(request)
        elif command in ("disconnect", "terminate"):
            self._is_ending.set()

    def _turn(self) -> None:
        """Takes one message. If none waits, goes on with a move, or looks at the file."""
        try:
            if self.move is not None:
                message = self._incoming.get_nowait()
            else:
                is_watched = self._run is not None and self._run.path is not None and self.is_configured
                message = self._incoming.get(timeout=LOOK_SECONDS if is_watched else None)
        except queue.Empty:
            if self.move is not None:
                self._go_on(self.move)
            else:
                self._look_at_file()
            return
        if message is END:
            self._is_ended = True
        elif isinstance(message, BadMessage):
            self.output(f"the adapter skips a message that it can't read: {message}\n", "stderr")
        else:
            self._take(message)

    def _take(self, message: Arguments) -> None:
        request, command = message.get("seq"), message.get("command")
        if message.get("type") != "request":
            return
        if not is_a(request, int):
            self.output("the adapter skips a request whose seq is not a number\n", "stderr")
            return
        assert isinstance(request, int)
        self.request = request
        name = command if isinstance(command, str) else ""
        try:
            answer = self._answer(name, message.get("arguments"))
        except Refusal as refusal:
            self.writer.fail(request, name, refusal)
        except (Mistake, ChipbenchError, FileError) as error:
            self.writer.fail(request, name, Refusal(self._sentence(error)))
        except NoValue:
            self.writer.fail(request, name, Refusal("this has no value at this step"))
        except Exception as error:
            self.writer.fail(request, name, Refusal(f"{name} failed: {error!r}"))
        else:
            self.writer.answer(request, name, answer)
            later, self._later = self._later, []
            for action in later:
                self._attempt(action)
        finally:
            self._later = []
            with self._lock:
                self._cancelled.discard(request)

    def _sentence(self, error: Exception) -> str:
        code = getattr(error, "code", "")
        return self._run.game.sentence(code) if code == "Q1" and self._run is not None else str(error)

    def _answer(self, command: str, arguments: Any) -> Arguments | None:
        if not command:
            raise Refusal("the request names no command")
        if command not in self._handlers:
            raise Refusal(f"no such request: {command[:60]}")
        if arguments is not None and not isinstance(arguments, dict):
            raise Refusal(f"the arguments of {command} must be an object, but are {shown(arguments)}")
        if not self.is_initialized and command not in ("initialize", "disconnect", "cancel"):
            raise Refusal("initialize must come first")
        if self.is_cancelled():
            raise Refusal("cancelled", "cancelled", is_shown=False)
        if self.move is not None and command not in WHILE_RUNNING:
            raise Refusal("the machine runs: pause it first", "notStopped", is_shown=False)
        return self._handlers[command](self, arguments or {})

    # -- helpers of the handlers

    @property
    def run(self) -> Run:
        if self._run is None:
            raise Refusal("no game is launched")
        return self._run

    def later(self, action: Callable[[], None]) -> None:
        """Calls `action` once the request is answered."""
        self._later.append(action)

    def is_cancelled(self) -> bool:
        with self._lock:
            return self.request in self._cancelled

    def drain(self, task: Task) -> Found:
        """Carries out a search at once. Raises `Refusal` if its request is cancelled, or the client ends."""
        while True:
            try:
                next(task)
            except StopIteration as stop:
                found: Found = stop.value
                return found
            if self.is_cancelled() or self._is_ending.is_set():
                task.close()
                raise Refusal("cancelled", "cancelled", is_shown=False)

    def output(self, text: str, category: str = "console") -> None:
        self.writer.event("output", {"category": category, "output": text})

    def line_out(self, line: int) -> int:
        """A line, counted from 1, as the client counts."""
        return line - 1 + self.client.first_line

    def line_in(self, line: int) -> int:
        return line - self.client.first_line + 1

    def all_points(self) -> Breakpoints:
        if self.points is None:
            raise Refusal("no game is launched")
        return self.points

    def all_variables(self) -> Variables:
        if self.variables is None:
            raise Refusal("no game is launched")
        return self.variables

    def is_source(self, path: str | None, number: int | None) -> bool:
        """Whether a source is the debugged one, by its path, or for an image by the number of its source."""
        run = self.run
        if run.path is None:
            return number == 1
        if path is None or "\0" in path:
            return False
        plain = path_of(path) if self.client.has_uris and "://" in path else path
        return os.path.realpath(plain) == os.path.realpath(run.path)

    def source(self) -> dict[str, Any]:
        """The source as the protocol names it. The source of an image has no path, and the client asks for its text."""
        run = self.run
        if run.path is None:
            name = run.image.name if run.image is not None else "image"
            return {"name": f"{name}.asm", "sourceReference": 1, "origin": "what `chipbench dis` prints of the image"}
        return {"name": run.path.name, "path": run.path.as_uri() if self.client.has_uris else str(run.path)}

    # -- the game

    def open(self, arguments: Arguments) -> None:
        """Opens the game of `launch`. Raises `Refusal` if it has a fault."""
        launch = read_launch(arguments, self.program, self.client.has_uris)
        for told in misspelled(arguments):
            self.output(told + "\n", "important")
        if launch.program is None:
            check_program()
        run = Run(launch.source, launch.image, launch.keys, launch.settings, launch.program)
        try:
            fault = run.first_fault()
        except BaseException:
            run.close()
            raise
        if fault is not None:
            run.close()
            raise Refusal(f"{fault}; fix the fault, and launch the game again")
        self._end_move()
        if self._run is not None:
            self._run.close()
        self.launch, self._run, self.launched_by = launch, run, arguments
        old, self.points, self.variables = self.points, Breakpoints(run, self.output), Variables(run)
        if old is not None:
            self.points.take_over(old)

    def begin(self) -> None:
        """Stands at step 0, or runs to the first breakpoint."""
        assert self.launch is not None
        if self.launch.stops_on_entry:
            self.stopped("entry", "at the start")
        else:
            self.start("run", lambda after: self.run.forward(self.wanted(), after), -1)

    def wanted(self) -> list[Any]:
        is_debugged = self.launch is not None and self.launch.is_debugged
        return self.points.wanted() if self.points is not None and is_debugged else []

    # -- moves

    def start(self, title: str, begin: Begin, at: int, is_forward: bool = True, behind: int = 0) -> None:
        """Begins a move, which goes on between messages."""
        self.move = Move(title, begin, at, is_forward, self.request, begin(at), time.monotonic(), behind)

    def _go_on(self, move: Move) -> None:
        """One slice of a move."""
        try:
            step = next(move.task)
        except StopIteration as stop:
            found = stop.value
            self._end_move()
            self._attempt(lambda: self._arrive(move, found))
        except Exception as error:
            self._end_move()
            self._failed(error)
        else:
            if move.is_forward:
                move.at = max(move.at, step)
            self._tell_progress(move, step)

    def _attempt(self, action: Callable[[], None]) -> None:
        """Does something that no request waits for, and reports its failure as output."""
        try:
            action()
        except BrokenPipeError:
            raise
        except Exception as error:
            self._failed(error)

    def _failed(self, error: Exception) -> None:
        """Says why a move failed."""
        self.output(f"{self._sentence(error)}\n", "stderr")
        self.stopped("pause", "this has failed")

    def _end_move(self) -> None:
        move, self.move = self.move, None
        if move is not None:
            move.task.close()
            if move.progress is not None:
                self.writer.event("progressEnd", {"progressId": move.progress})

    def _tell_progress(self, move: Move, step: int) -> None:
        now = time.monotonic()
        if not self.client.shows_progress or now - move.began < SILENT_SECONDS or now - move.told < TOLD_SECONDS:
            return
        move.told = now
        if move.progress is None:
            move.progress = f"move {move.request}"
            body = {"progressId": move.progress, "title": move.title, "requestId": move.request, "cancellable": True}
            self.writer.event("progressStart", {**body, "percentage": 0})
        share = (LAST_STEP - step if not move.is_forward else step) * 100 // LAST_STEP
        self.writer.event("progressUpdate", {"progressId": move.progress, "message": f"step {step}", "percentage": share})

    def anew(self) -> None:
        """Goes on with a move from its present step, under the present breakpoints."""
        if self.move is not None:
            self.move.task.close()
            self.move.task = self.move.begin(self.move.at)

    def pause(self) -> None:
        """Stops a move at the step that it has come to; a move back stays where it began."""
        move = self.move
        if move is None:
            raise Refusal("the machine stands still already")
        self._end_move()
        if move.is_forward:
            self.run.go(max(move.at, 0))
        self.later(lambda: self.stopped("pause", f"paused at step {self.run.step}"))

    def _arrive(self, move: Move, found: Found) -> None:
        """Goes to the step that a move has found, and says why it ends there."""
        run = self.run
        if found.step is not None:
            run.step = min(found.step + move.behind, LAST_STEP)
            numbers = [number for number in found.numbers if number != STEPPED]
            self._hit(found, numbers)
        elif not move.is_forward:
            run.step = 0
            self.stopped("entry" if move.behind == 0 else "restart", "at the start: no step is before it")
        elif found.is_stopped:
            run.step = found.last
            self.stopped_at_fault()
        else:
            run.step = found.last
            self.output(f"no breakpoint up to step {found.last}, the last step that a run can have\n")
            self.stopped("pause", f"step {found.last} is the last one")

    def _hit(self, found: Found, numbers: list[int]) -> None:
        points: list[Breakpoint] = [point for number in numbers if (point := self.points and self.points.of(number))]
        if not points:
            self.stopped_after_step()
            return
        subject = next((point.subject for point in points if point.subject is not None), None)
        text = None
        if subject is not None:
            text = self.run.change_text(subject, found)
            self.output(text + "\n")
        self.stopped(REASONS[points[0].kind], text, [point.number for point in points])

    def stopped_after_step(self) -> None:
        """Says that the machine has made a step, or that it has stopped there."""
        if self.run.state().stopped is not None:
            self.stopped_at_fault()
        else:
            self.stopped("step")

    def stopped_at_fault(self) -> None:
        """Says that the machine has stopped. If no filter asks for this, the session ends with the run."""
        state = self.run.state()
        text = self.run.stop_text(state.stopped or "")
        if not self.stops_at_faults or (self.launch is not None and not self.launch.is_debugged):
            self.output(f"the machine stops: {self.run.where(state)}\n")
            self.terminated()
            return
        self.stopped("exception", text)

    def stopped(self, reason: str, text: str | None = None, numbers: list[int] | None = None) -> None:
        body: dict[str, Any] = {"reason": reason, "threadId": THREAD, "allThreadsStopped": True}
        if text:
            body |= {"description": text, "text": text}
        if numbers:
            body["hitBreakpointIds"] = numbers
        self.writer.event("stopped", body)

    def ended(self) -> None:
        """Ends the session as the client has asked."""
        self._was_asked_to_end = True
        # later requests are still answered
        self._is_ending.clear()
        self.terminated()

    def terminated(self) -> None:
        self._end_move()
        self.writer.event("terminated")

    def disconnect(self) -> None:
        self._end_move()
        self._is_ended = self._was_asked_to_end = True

    # -- edits

    def _look_at_file(self) -> None:
        """Takes over the file that the editor has saved, at the current step."""
        run = self.run
        old = list(run.game.bench.lines)
        try:
            told = run.take_edit()
        except Exception as error:
            # the error is reported once, though the file is looked at again and again
            if str(error) != self._file_error:
                self.output(f"the run keeps its lines, because the file can't be used: {error}\n", "stderr")
            self._file_error = str(error)
            return
        self._file_error = ""
        if told is None:
            return
        self.output(told)
        if old != run.game.bench.lines:
            self.edited(old)

    def edited(self, old: list[bytes]) -> None:
        """Tells the client which breakpoints an edit of the lines has moved."""
        new = self.run.game.bench.lines
        first, last = same_ends(old, new)

        def moved(line: int) -> int | None:
            return line + len(new) - len(old) if line > len(old) - last else None

        assert self.points is not None
        for point in self.points.move(moved):
            self.writer.event("breakpoint", {"reason": "changed", "breakpoint": self.breakpoint(point)})
        self.writer.event("loadedSource", {"reason": "changed", "source": self.source()})
        self.refresh()

    def refresh(self) -> None:
        """Has the client ask for the state again, at the same step."""
        if self.client.invalidates:
            self.writer.event("invalidated", {"areas": ["all"], "threadId": THREAD})
        else:
            self.stopped("step", "after an edit")

    def breakpoint(self, point: Breakpoint) -> dict[str, Any]:
        """A breakpoint as the protocol has it."""
        found: dict[str, Any] = {"id": point.number, "verified": point.wanted is not None}
        if point.problem:
            found["message"] = point.problem
        if point.line is not None:
            found |= {"source": self.source(), "line": self.line_out(point.line)}
        if point.address is not None:
            found["instructionReference"] = f"0x{point.address:04x}"
        return found

