"""The file for Vim's `:compiler chipbench`: what `:make` finds stands in the quickfix list. It is tried in Vim or Neovim."""

from __future__ import annotations

import json
import os
import shutil
import subprocess
import sys
import tempfile
import unittest
from pathlib import Path

sys.path.insert(0, str(Path(__file__).resolve().parent))

from programs import TOP, NeedsWords  # noqa: E402

RUNTIME = TOP / "frontends/editors/vim"
SOURCE = "\tLD V0, COLUMN\n\tCLS\n; é\n\tREM\nUNUSED EQU 5\n"


class Compiler(NeedsWords):
    def setUp(self) -> None:
        super().setUp()
        self.folder = Path(tempfile.mkdtemp(prefix="chipbench-vim-test-"))
        self.addCleanup(shutil.rmtree, self.folder)
        (self.folder / "bin").mkdir()
        (self.folder / "bin/chipbench").symlink_to(Path(self.program).resolve())

    def found(self, source: str, make: str) -> list[tuple[int, int, str]]:
        """The line, the column and the text of each entry that `:make` leaves, the same in each editor that is installed."""
        editors = [editor for editor in map(shutil.which, ("vim", "nvim")) if editor is not None]
        if not editors:
            self.skipTest("neither Vim nor Neovim is installed")
        (self.folder / "a game.asm").write_text(source)
        answers = [self.found_by(editor, make) for editor in editors]
        self.assertEqual(answers, [answers[0]] * len(editors))
        return answers[0]

    def found_by(self, editor: str, make: str) -> list[tuple[int, int, str]]:
        taken = "map(filter(getqflist(), 'v:val.valid'), '[v:val.lnum, v:val.col, v:val.text]')"
        commands = [
            f"set runtimepath^={RUNTIME}",
            "edit a\\ game.asm",
            "compiler chipbench",
            f"silent {make}",
            f"call writefile([json_encode({taken})], 'found')",
            "qall!",
        ]
        words = [editor, "-u", "NONE", "-i", "NONE", "-n", "-es", *(["--headless"] if editor.endswith("nvim") else ["-N"])]
        environment = {**os.environ, "PATH": f"{self.folder / 'bin'}:{os.environ['PATH']}", "HOME": str(self.folder)}
        script = [part for command in commands for part in ("-c", command)]
        subprocess.run([*words, *script], cwd=self.folder, env=environment, stdin=subprocess.DEVNULL, capture_output=True, timeout=120)
        return [tuple(entry) for entry in json.loads((self.folder / "found").read_text())]

    def test_faults(self) -> None:
        self.assertEqual(self.found(SOURCE, "make!"), [(1, 9, "F9: undefined name"), (4, 2, "F3: unknown word")])

    def test_a_warning_with_an_option(self) -> None:
        source = "LD V0, 1\nRND V1, 1\nHERE: JP HERE\n"
        self.assertEqual([entry[0] for entry in self.found(source, "make!")], [2])
        self.assertEqual(self.found(source, "make! --seed=7"), [])


if __name__ == "__main__":
    unittest.main()
