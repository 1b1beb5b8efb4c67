"""Commands that go to another step."""

from __future__ import annotations

import bisect
import re

from chipbench import State

from . import advice
from .base import Commands
from .game import Breakpoint
from .search import LAST_STEP, Found, Search, Test, at_address, not_deeper, register_test
from .values import REGISTERS, Condition, Mistake, Subject, counted, register_value

# the low byte of the instruction that sets a timer: FX15 and FX18
SETTING_BYTES = {"DT": 0x15, "ST": 0x18}


def sets_timer(state: State, timer: str) -> bool:
    """Whether the instruction that comes next sets a timer. Otherwise only a tick changes it."""
    high, low = state.memory[state.pc : state.pc + 2]
    return high >> 4 == 0xF and low == SETTING_BYTES[timer]


class Moves(Commands):
    """step, back, goto, next, finish, until, watch, who; breakpoints."""

    def search(self) -> Search:
        return Search(self.game, self.console.report)

    def go(self, step: int, *told: str) -> None:
        """Goes to a step, and shows it; not past the step at which the machine stops."""
        old = self.game.state()
        if not 0 <= step <= LAST_STEP:
            raise Mistake(f"no step {step}: the steps are 0 to {LAST_STEP}")
        state = self.game.state(step)
        if state.stopped:
            step = bisect.bisect_left(range(step), True, key=lambda at: self.game.state(at).stopped is not None)
        self.game.step = step
        self.say(*told)
        self.show_place(old if abs(step - old.step) == 1 else None)

    def do_step(self, text: str) -> None:
        """step [N]

        Goes N steps forward, 1 by default.
        """
        below = re.fullmatch(r"-\s*(\d+)", text)
        if below is not None:
            raise Mistake(f"step only goes forward: back {below[1]} goes back")
        meant = advice.STEP_WORDS.get((text.split() or [""])[0].lower())
        if meant is not None and text.upper() not in self.game.symbols():
            raise Mistake(meant)
        self._check_is_running()
        self.go(self.game.step + self._count(text, "step [N]"))

    def do_back(self, text: str) -> None:
        """back [N]

        Goes N steps back, 1 by default.
        """
        self._check_is_behind_start()
        self.go(max(0, self.game.step - self._count(text, "back [N]")))

    def do_goto(self, text: str) -> None:
        """goto STEP

        Goes to a step, forward or back. goto 0 is the start.
        """
        if not text:
            raise Mistake("goto takes a step: goto 1000")
        if text.upper() in REGISTERS and text.upper() not in self.game.symbols():
            raise Mistake(advice.for_register(text.upper(), "step"))
        self.go(self.game.step_number(text))

    def do_next(self, text: str) -> None:
        """next [N]

        Goes N steps forward in this subroutine, 1 by default. A whole call counts as one step.
        """
        for _ in range(self._count(text, "next [N]")):
            self._check_is_running()
            old = self.game.state()
            state = self.game.state(self.game.step + 1)
            if len(state.call_stack) <= len(old.call_stack) or state.stopped:
                self.game.step += 1
            else:
                self._take(self.search().first(not_deeper(len(old.call_stack)), state.step), "the call doesn't return")
        self.show_place()

    def do_finish(self, text: str) -> None:
        """finish

        Goes forward until this subroutine has returned to its caller.
        """
        self.words_of(text, 0, "finish")
        self._take(self.search().first(self._is_outside(), self.game.step), "this subroutine doesn't return")
        self.show_place()

    def _is_outside(self) -> Test:
        """Whether a step is outside this subroutine. Raises `Mistake` if no subroutine is running."""
        depth = len(self.game.state().call_stack)
        if depth == 0:
            raise Mistake("no subroutine is running: the call stack is empty")
        return not_deeper(depth - 1)

    def do_until(self, text: str) -> None:
        """until PLACE | SUBJECT = NUMBER

        Goes to the next step at a place, or to the next at which a comparison becomes true. PLACE is a label, the number of a
        line, or an address such as #2a0. SUBJECT is a register (V0 to VF, I, PC, DT, ST), or a byte of the memory such as
        [BALL+1]. The signs are = <> < <= > >=; != means <> too.
        """
        if not text:
            raise Mistake("until takes a place or a comparison: until LOOP, until V3 = 5")
        place, *conditions = re.split(r"\sif\s+", text, maxsplit=1, flags=re.IGNORECASE)
        if conditions:
            raise Mistake(f"until takes no `if`: break {place.strip()} if {conditions[0]}, then continue")
        if self._went_to_condition(text):
            return
        meant = advice.with_sign(text)
        if meant is not None:
            raise Mistake(f"a comparison needs a sign: until {meant}")
        address, _ = self.game.place(text)
        self._take(self._first(at_address(address)), f"{text} isn't reached")
        self.show_place()

    def _went_to_condition(self, text: str) -> bool:
        """Goes to the step at which a comparison becomes true; False if the text isn't a comparison."""
        condition = self.game.values().condition(text)
        if condition is None:
            return False
        self._check_is_running()
        self._take(self.search().first_true(condition), f"{condition} doesn't become true")
        self.show_place()
        return True

    def do_watch(self, text: str) -> None:
        """watch SUBJECT

        Goes to the next step at which a register or a byte of the memory has another value, and says which step
        changed it. SUBJECT is V0 to VF, I, PC, DT, ST, or a byte such as [BALL+1].
        """
        if not text:
            raise Mistake("watch takes a register or a byte of the memory: watch V3, watch [#300]")
        _, *conditions = re.split(r"\sif\s+", text, maxsplit=1, flags=re.IGNORECASE)
        if conditions:
            raise Mistake(f"watch takes no `if`: until {conditions[0]} goes to where that becomes true")
        if self._went_to_condition(text):
            return
        subject = self.game.values().subject(text)
        self._check_is_running()
        self._take(self.search().first_change(subject), f"{subject.shown} doesn't change")
        self._tell_change(subject, self.game.step - 1)
        self.show_place()

    def _tell_change(self, subject: Subject, step: int) -> None:
        before, after = self.game.state(step), self.game.state(step + 1)
        digits = subject.digits
        is_ticked = subject.register in SETTING_BYTES and not sets_timer(before, subject.register)
        cause = f"the tick of step {step}" if is_ticked else self.where(before)
        self.say(f"{subject.shown} {subject.value(before):0{digits}x} -> {subject.value(after):0{digits}x} by {cause}")

    def do_who(self, text: str) -> None:
        """who SUBJECT

        Goes back to the last step that changed a register or a byte of the memory. SUBJECT is as for watch.
        """
        if not text:
            raise Mistake("who takes a register or a byte of the memory: who V3, who [#300]")
        subject = self.game.values().subject(text)
        found = self.search().last_change(subject)
        if found is None:
            raise Mistake(f"{subject.shown} hasn't changed since step 0")
        self.game.step = found
        self._tell_change(subject, found)

    # -- breakpoints

    def do_break(self, text: str) -> None:
        """break [PLACE [if SUBJECT = NUMBER]]

        Sets a breakpoint at a place, as for until. With `if` the run stops there only while a comparison of a register holds,
        as in break LOOP if V3 = V4. Both sides are read at each step. Without PLACE it lists the breakpoints.
        """
        if not text:
            self.say(*(f"breakpoint {point}" for point in self.game.breakpoints) if self.game.breakpoints else ["no breakpoints"])
            return
        self._set_breakpoint(text, False)

    def do_tbreak(self, text: str) -> None:
        """tbreak PLACE [if SUBJECT = NUMBER]

        Sets a breakpoint as break does, and removes it once the run stops there.
        """
        if not text:
            raise Mistake("tbreak takes a place: tbreak LOOP, tbreak LOOP if V3 = 5")
        self._set_breakpoint(text, True)

    def _set_breakpoint(self, text: str, is_temporary: bool) -> None:
        meant = advice.for_break(text)
        if meant is not None:
            raise Mistake(meant)
        place, *conditions = (part.strip() for part in re.split(r"\sif(?:\s|$)", text, maxsplit=1, flags=re.IGNORECASE))
        address, line = self.game.place(place)
        condition = "".join(conditions)
        if conditions:
            self._register_condition(condition)
        point = Breakpoint(place, line, condition, is_temporary)
        if point not in self.game.breakpoints:
            self.game.breakpoints.append(point)
        self.say(f"breakpoint {point}, {address:04x}")

    def _register_condition(self, text: str) -> Condition:
        condition = self.game.values().condition(text)
        if condition is None or condition.subject.register is None:
            meant = advice.with_sign(text)
            raise Mistake(f"`if` takes a comparison of a register: break LOOP if {meant or 'V3 = 5'}")
        return condition

    def do_clear(self, text: str) -> None:
        """clear [PLACE]

        Removes the breakpoints at a place, or all breakpoints.
        """
        if not text or (text.lower() == "all" and "ALL" not in self.game.symbols()):
            removed = list(map(str, self.game.breakpoints))
            self.game.breakpoints.clear()
            told = f"{counted(len(removed), 'breakpoint')} removed: {', '.join(removed)}"
            self.say(told if removed else "there is no breakpoint to remove")
            return
        left = [point for point in self.game.breakpoints if text not in (point.place, str(point))]
        if len(left) == len(self.game.breakpoints):
            address, _ = self.game.place(text)
            left = [point for point in left if self._address_of(point) != address]
        if len(left) == len(self.game.breakpoints):
            raise Mistake(f"there is no breakpoint at {text}")
        self.game.breakpoints = left
        self.say(f"no breakpoint at {text} any more")

    def _address_of(self, point: Breakpoint) -> int:
        try:
            return self.game.place(str(point.line) if point.line is not None else point.place)[0]
        except Mistake as mistake:
            raise Mistake(f"breakpoint {point}: {mistake}; clear {point.place} removes it") from None

    def _test_of(self, point: Breakpoint) -> Test:
        is_there = at_address(self._address_of(point))
        if not point.condition:
            return is_there
        holds = register_test(self._register_condition(point.condition))
        return lambda line: is_there(line) and holds(line)

    def _breakpoint_test(self) -> Test:
        tests = [self._test_of(point) for point in self.game.breakpoints]
        return lambda line: any(test(line) for test in tests)

    def _drop_temporary(self) -> None:
        """Removes the temporary breakpoints at which the run has stopped."""
        state = self.game.state()

        def is_met(point: Breakpoint) -> bool:
            if not point.is_temporary or self._address_of(point) != state.pc:
                return False
            condition = self._register_condition(point.condition) if point.condition else None
            return condition is None or condition.holds(condition.subject.value(state), lambda name: register_value(state, name))

        self.game.breakpoints = [point for point in self.game.breakpoints if not is_met(point)]

    def do_continue(self, text: str) -> None:
        """continue

        Goes to the next breakpoint, or to where the machine stops.
        """
        self.words_of(text, 0, "continue")
        self._check_is_running()
        self._take_or_stop(self._first(self._breakpoint_test()))

    def do_reverse(self, text: str) -> None:
        """reverse

        Goes back to the last breakpoint before, or to the start.
        """
        self.words_of(text, 0, "reverse")
        found = self.search().last(self._breakpoint_test(), self.game.step)
        self.go(found or 0, *([] if found is not None else ["no breakpoint is before this step: this is the start"]))
        self._drop_temporary()

    def do_reverse_next(self, text: str) -> None:
        """reverse-next

        Goes one step back in this subroutine. A whole call counts as one step.
        """
        self.words_of(text, 0, "reverse-next")
        self._check_is_behind_start()
        depth = len(self.game.state().call_stack)
        found = self.search().last(not_deeper(depth), self.game.step)
        self.go(found or 0)

    def do_reverse_finish(self, text: str) -> None:
        """reverse-finish

        Goes back to the call of this subroutine.
        """
        self.words_of(text, 0, "reverse-finish")
        found = self.search().last(self._is_outside(), self.game.step)
        self.go(found or 0)

    def do_blame(self, text: str) -> None:
        """blame

        Finds the press or the release that makes the machine stop, by halving the key events, and goes to its step. Without it
        and all later key events the machine runs past the step where it stops now.
        """
        self.words_of(text, 0, "blame")
        found = self.search().blamed()
        if found.stop is None:
            raise Mistake(f"the machine doesn't stop up to step {LAST_STEP}, so there is no stop to blame a key for")
        stopped = self.game.state(found.stop)
        cause = f"the machine stops for {self.stop_text(stopped.stopped or '')}, at step {found.stop}"
        if found.event is None:
            raise Mistake(f"no key is to blame: {cause}, also without any key")
        step, key = found.event
        what = f"the {'press' if found.is_press else 'release'} of key {key:X} at step {step}"
        blamed = f"{what} is to blame: with the key events up to this one the machine stops by then"
        self.go(step, f"{cause}; {blamed}, and with only the earlier ones it doesn't")

    def do_run(self, text: str) -> None:
        """run

        Goes to the first breakpoint of the run from step 0, or to where the machine stops.
        """
        self.words_of(text, 0, "run")
        self._take_or_stop(self.search().first(self._breakpoint_test(), -1))

    # -- helpers

    def _first(self, test: Test) -> Found:
        self._check_is_running()
        return self.search().first(test, self.game.step)

    def _take_or_stop(self, found: Found) -> None:
        """Goes to the step that was found, or to the earlier step at which the machine stopped."""
        if found.step is None and found.is_stopped:
            found = Found(found.last, found.last, True)
        self._take(found, "there is no breakpoint and no stop")
        self._drop_temporary()
        self.show_place()

    def _take(self, found: Found, failed: str) -> None:
        if found.step is None:
            self._refuse(found, failed)
        else:
            self.game.step = found.step

    def _refuse(self, found: Found, failed: str) -> None:
        """Says why a search has found nothing, and stays at the current step."""
        here = f"still at step {self.game.step}"
        if found.is_stopped:
            code = self.game.state(found.last).stopped or ""
            raise Mistake(f"{failed}: the machine stops for {self.stop_text(code)}, at step {found.last}; {here}")
        raise Mistake(f"{failed} up to step {found.last}; {here}")

    def _check_is_behind_start(self) -> None:
        if self.game.step == 0:
            raise Mistake("this is step 0, the start: no step is before it")

    def _check_is_running(self) -> State:
        state = self.game.state()
        if state.stopped:
            raise Mistake(f"the machine has stopped for {self.stop_text(state.stopped)}: back and goto still go to other steps")
        return state

    def _count(self, text: str, form: str) -> int:
        if not text:
            return 1
        number = self.game.step_number(text)
        if number == 0:
            raise Mistake(f"expected 1 step or more: {form}")
        return number
