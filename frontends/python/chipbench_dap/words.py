"""The commands of the debug console besides sums and conditions: find, who, goto, press, release, keys, screen, help."""

from __future__ import annotations

import re
from collections.abc import Callable

from chipbench_shell.search import LAST_STEP
from chipbench_shell.values import Mistake

from .expressions import Subject, read_condition, read_subject, read_sum
from .run import Run
from .search import Found, StateView, Task, Wanted

#: Carries out a search to its end, unless the request is cancelled.
Drain = Callable[[Task], Found]
KEY_EVENT = re.compile(r"(?:([A-Fa-f])|(\S+?))(?:\s+at\s+(.+))?")
LAST_KEY = 15
FORMS = {
    "find": ("find CONDITION", "the next step at which a condition becomes true"),
    "who": ("who SUBJECT", "the last step that changed a register, a byte such as [SCORE], or a pixel"),
    "goto": ("goto STEP", "goes to a step, forward or back"),
    "press": ("press KEY [at STEP]", "holds a key, 0 to 15 or A to F, from a step on, or from this one"),
    "release": ("release KEY [at STEP]", "lets go of a key from a step on, or from this one"),
    "keys": ("keys", "the key events"),
    "screen": ("screen", "the screen at this step"),
    "help": ("help", "these words"),
}


class Words:
    """The words of the console, on a run. Each returns the text of its answer, and whether the machine is at another step."""

    def __init__(self, run: Run, drain: Drain) -> None:
        self.run = run
        self._drain = drain

    def answer(self, text: str) -> tuple[str, bool] | None:
        """The answer to a typed text, and whether the state has changed; None if the text begins with none of the words, or with a
        name of the source."""
        word, _, rest = text.strip().partition(" ")
        if word not in FORMS or word.upper() in self.run.layout().symbols:
            return None
        rest = rest.strip()
        if not rest and " " in FORMS[word][0]:
            raise Mistake(f"{FORMS[word][0]}: {FORMS[word][1]}")
        moves = word in ("goto", "press", "release")
        answered: str = getattr(self, f"_{word}")(rest)
        return answered, moves

    def _find(self, text: str) -> str:
        condition = read_condition(text, self.run.layout().symbols)
        became = Subject(text, 1, lambda view: (int(condition.holds(view)),))
        found = self._drain(self.run.forward([Wanted(0, condition=condition, changed=became)], self.run.step))
        if found.step is not None:
            return self.run.place_text(found.step)
        end = ", the machine stops there" if found.is_stopped else ""
        return f"{text} doesn't become true up to step {found.last}{end}"

    def _who(self, text: str) -> str:
        subject = read_subject(text, self.run.layout().symbols)
        found = self._drain(self.run.backward([Wanted(0, changed=subject)], self.run.step))
        if found.step is None:
            return f"{subject.text} hasn't changed since step 0"
        return self.run.change_text(subject, found)

    def number(self, text: str) -> int:
        return read_sum(text, self.run.layout().symbols)(StateView(self.run.state()))

    def _goto(self, text: str) -> str:
        if self.run.layout().is_label(text.upper()):
            raise Mistake(f"{text} is a label, not a step: find PC = {text} has the next step there")
        self.run.go(self.number(text))
        return self.run.place_text(self.run.step)

    def _press(self, text: str) -> str:
        return self._key_event(text, True)

    def _release(self, text: str) -> str:
        return self._key_event(text, False)

    def _key_event(self, text: str, down: bool) -> str:
        found = KEY_EVENT.fullmatch(text)
        if found is None:
            raise Mistake(f"expected a key, and perhaps a step: {FORMS['press' if down else 'release'][0]}")
        key = int(found[1], 16) if found[1] else self.number(found[2])
        if not 0 <= key <= LAST_KEY:
            raise Mistake(f"no key {key}: the keys are 0 to 15, or 0 to 9 and A to F")
        step = self.number(found[3]) if found[3] else self.run.step
        if not 0 <= step <= LAST_STEP:
            raise Mistake(f"no step {step}: the steps are 0 to {LAST_STEP}")

        def edit() -> str:
            self.run.key_event(key, step, down)
            return f"is {'down' if down else 'up'} from step {step} on"

        return self.run.changed(edit, f"key {key:X}").rstrip("\n")

    def _keys(self, text: str) -> str:
        return self.run.game.key_lines().rstrip("\n") or "there is no key event"

    def _screen(self, text: str) -> str:
        return self.run.state().screen.draw()

    def _help(self, text: str) -> str:
        width = max(len(form) for form, _ in FORMS.values())
        rows = [f"{form.ljust(width)}  {what}" for form, what in FORMS.values()]
        return "\n".join([*rows, "Anything else is a sum or a condition, as in a property: V0 + 1, [SCORE], V3 = 5 and I <> 0"])

