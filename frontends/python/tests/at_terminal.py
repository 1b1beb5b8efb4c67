"""What the tests of the shell at a pseudo-terminal share: their sources, and a shell that is opened on one.

The states of `COUNTER` are worked by hand: its loop has six steps, and from step 4 + 6k on V0 is k + 1.
"""

from __future__ import annotations

import os
import shutil
import tempfile
from pathlib import Path

from programs import NeedsProgram
from terminal import Terminal, has_terminals

COUNTER = """; A counter.
LIMIT   EQU 5
START:  LD V0, 0
        LD I, BUF
LOOP:   CALL UP
        SE V0, LIMIT
        JP LOOP
        EXIT
UP:     ADD V0, 1
        LD [I], V0
        RET
BUF:    DB 0, 0
"""
DOT = """        LD I, DOT
        DRW V0, V1, 1
HALT:   JP HALT
DOT:    DB $11......
"""
# a byte that is written for ever, with the value that it has
WRITER = """        LD I, BUF
LOOP:   LD [I], V0
        JP LOOP
BUF:    DB 0
"""


class AtTerminal(NeedsProgram):
    def setUp(self) -> None:
        super().setUp()
        if not has_terminals():
            self.skipTest("this machine has no pseudo-terminals (/dev/pts)")
        self.folder = Path(tempfile.mkdtemp(prefix="chipbench-shell-test-"))
        self.addCleanup(shutil.rmtree, self.folder)
        self.file = self.folder / "game.asm"

    def opened(self, source: str = COUNTER, *options: str, **settings: object) -> Terminal:
        """A shell on a source that has shown its first prompt."""
        if source:
            self.file.write_text(source)
        terminal = Terminal(["game.asm", "--program", self.program, *options], self.folder, **settings)  # type: ignore[arg-type]
        self.addCleanup(terminal.close)
        self.banner = terminal.read_until("> ")
        return terminal

    def answers(self, terminal: Terminal, *pairs: tuple[str, str]) -> None:
        """Each command has its answer."""
        for command, wanted in pairs:
            with self.subTest(command):
                self.assertEqual(terminal.ask(command), wanted)

    def change_beside(self, text: str) -> None:
        """Writes the file as another editor does, so that its time is another one."""
        part = self.folder / "part"
        part.write_text(text)
        os.replace(part, self.file)
