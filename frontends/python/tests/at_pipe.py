"""What the tests of the shell without a terminal share: a folder, and the shell on a script."""

from __future__ import annotations

import os
import shutil
import subprocess
import sys
import tempfile
from pathlib import Path

from programs import PYTHON, TOP, NeedsProgram

#: The PATH of who has installed the tools.
PATH = os.pathsep.join((str(TOP / "packaging"), os.environ.get("PATH", os.defpath)))


class AtPipe(NeedsProgram):
    def setUp(self) -> None:
        super().setUp()
        self.folder = Path(tempfile.mkdtemp(prefix="chipbench-shell-test-"))
        self.addCleanup(shutil.rmtree, self.folder)

    def shell(self, script: str, *arguments: str, path: str = PATH) -> tuple[int, str, str]:
        """The status, the output and the errors of the shell on a script."""
        command = [sys.executable, "-B", str(PYTHON / "chipbench_shell"), "--program", self.program, *arguments]
        environment = {**os.environ, "XDG_STATE_HOME": str(self.folder / "state"), "LC_ALL": "C.UTF-8", "PATH": path}
        done = subprocess.run(command, input=script, capture_output=True, text=True, cwd=self.folder, env=environment)
        return done.returncode, done.stdout, done.stderr
