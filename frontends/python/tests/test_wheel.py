"""The wheels of the module: what is in them, that pip installs them without a network, and that the program inside runs."""

from __future__ import annotations

import base64
import csv
import hashlib
import importlib.util
import io
import os
import platform
import shutil
import subprocess
import sys
import tarfile
import tempfile
import unittest
import zipfile
from pathlib import Path

sys.path.insert(0, str(Path(__file__).resolve().parent))

from programs import PYTHON, TOP  # noqa: E402

import build_backend  # noqa: E402

RELEASE = TOP / "release"
IS_LINUX = sys.platform == "linux" and platform.machine() == "x86_64"
#: What a user types after an installation, and what it prints: V0 counts up from 5, once in two steps.
TRIAL = "import chipbench; print(chipbench.find_program()); print(chipbench.Bench('LD V0, 5\\nLOOP: ADD V0, 1\\nJP LOOP').at(3).v[0])"


class Wheels(unittest.TestCase):
    def setUp(self) -> None:
        self.folder = Path(tempfile.mkdtemp(prefix="chipbench-wheel-test-"))
        self.addCleanup(shutil.rmtree, self.folder)

    def made(self, *options: str) -> Path:
        """A wheel with a program inside."""
        done = subprocess.run([TOP / "packaging/wheel", *options, self.folder], capture_output=True, text=True, check=True)
        return Path(done.stdout.strip())

    def names(self, wheel: Path) -> set[str]:
        with zipfile.ZipFile(wheel) as archive:
            return set(archive.namelist())

    def installed(self, what: Path) -> Path:
        """A folder into which pip has installed something, without an index."""
        if importlib.util.find_spec("pip") is None:
            self.skipTest("this Python has no pip")
        target = self.folder / "installed"
        words = [sys.executable, "-m", "pip", "install", "--quiet", "--no-index", "--no-warn-script-location", "--root-user-action=ignore"]
        environment = {**os.environ, "PIP_DISABLE_PIP_VERSION_CHECK": "1", "PYTHONDONTWRITEBYTECODE": "1"}
        subprocess.run([*words, "--target", target, what], check=True, capture_output=True, env=environment)
        return target

    def tried(self, target: Path, **environment: str) -> list[str]:
        kept = {name: value for name, value in os.environ.items() if name != "CHIPBENCH"}
        words = [sys.executable, "-B", "-c", TRIAL]
        done = subprocess.run(words, cwd=self.folder, env={**kept, "PYTHONPATH": str(target), **environment}, capture_output=True, text=True)
        self.assertEqual((done.returncode, done.stderr), (0, ""))
        return done.stdout.splitlines()

    def test_the_record_has_each_file(self) -> None:
        name = build_backend.build_wheel(str(self.folder))
        with zipfile.ZipFile(self.folder / name) as archive:
            record = next(entry for entry in archive.namelist() if entry.endswith(".dist-info/RECORD"))
            rows = list(csv.reader(io.StringIO(archive.read(record).decode())))
            self.assertEqual({row[0] for row in rows}, set(archive.namelist()))
            for place, digest, size in rows:
                if place != record:
                    content = archive.read(place)
                    wanted = base64.urlsafe_b64encode(hashlib.sha256(content).digest()).rstrip(b"=").decode()
                    self.assertEqual((digest, int(size)), (f"sha256={wanted}", len(content)), place)

    def test_what_is_in_it(self) -> None:
        names = self.names(self.folder / build_backend.build_wheel(str(self.folder)))
        wanted = {"chipbench/__init__.py", "chipbench/py.typed", "chipbench_files.py", "chipbench_shell/shell.py", "chipbench_lsp/tables.json"}
        self.assertLessEqual(wanted, names)
        self.assertEqual([name for name in names if "__pycache__" in name or "tests" in name or name.startswith(("build_", "generate_"))], [])
        self.assertIn(f"chipbench-{build_backend.version()}.dist-info/licenses/LICENSE", names)

    def test_the_same_files_give_the_same_bytes(self) -> None:
        first = (self.folder / build_backend.build_wheel(str(self.folder))).read_bytes()
        second = (self.folder / build_backend.build_wheel(str(self.folder))).read_bytes()
        self.assertEqual(first, second)

    def test_a_source_archive_makes_the_same_wheel(self) -> None:
        wheel = (self.folder / build_backend.build_wheel(str(self.folder))).read_bytes()
        name = build_backend.build_sdist(str(self.folder))
        with tarfile.open(self.folder / name) as archive:
            archive.extractall(self.folder, **({"filter": "data"} if hasattr(tarfile, "data_filter") else {}))
        unpacked = self.folder / name.removesuffix(".tar.gz")
        again = self.folder / "again"
        again.mkdir()
        script = f"import build_backend; print(build_backend.build_wheel({str(again)!r}))"
        done = subprocess.run([sys.executable, "-B", "-c", script], cwd=unpacked, capture_output=True, text=True, check=True)
        self.assertEqual((again / done.stdout.strip()).read_bytes(), wheel)

    def test_the_folder_is_installed_without_an_index(self) -> None:
        target = self.installed(PYTHON)
        self.assertEqual(self.tried(target, CHIPBENCH=str(RELEASE / "chipbench"))[1:] if IS_LINUX else ["6"], ["6"])
        self.assertEqual(sorted(path.name for path in (target / "bin").iterdir()), ["chipbench-dap", "chipbench-lsp", "chipbench-shell", "chipbench-steps"])

    @unittest.skipUnless(IS_LINUX, "the program of release/ is for Linux on x86-64")
    def test_a_wheel_with_the_program_inside(self) -> None:
        wheel = self.made()
        self.assertRegex(wheel.name, r"^chipbench-[0-9.]+-py3-none-manylinux_2_[0-9]+_x86_64\.whl$")
        target = self.installed(wheel)
        self.assertEqual(self.tried(target), [str(target / "chipbench/bin/chipbench"), "6"])
        done = subprocess.run([target / "bin/chipbench", "--version"], env={**os.environ, "PYTHONPATH": str(target)}, capture_output=True, text=True)
        self.assertEqual((done.returncode, done.stdout.split()[0]), (0, "chipbench"))

    def test_a_wheel_whose_program_runs_by_node(self) -> None:
        wheel = self.made("--node")
        self.assertRegex(wheel.name, r"^chipbench-[0-9.]+-py3-none-any\.whl$")
        target = self.installed(wheel)
        if shutil.which("node") is None:
            self.skipTest("node is not on the PATH")
        self.assertEqual(self.tried(target), [str(target / "chipbench/wasm/chipbench.mjs"), "6"])

    def test_a_wheel_for_node_where_node_is_missing(self) -> None:
        target = self.installed(self.made("--node"))
        environment = {"PYTHONPATH": str(target), "PATH": "/nowhere"}
        done = subprocess.run([sys.executable, "-B", "-c", TRIAL], cwd=self.folder, env=environment, capture_output=True, text=True)
        told = "the program in this package needs node 20 or later on the PATH; or set $CHIPBENCH"
        self.assertEqual(done.stderr.splitlines()[-1], f"chipbench.ChipbenchError: {told}")

    def test_what_is_asked_wrongly(self) -> None:
        done = subprocess.run([TOP / "packaging/wheel", "--nod", self.folder], capture_output=True, text=True)
        self.assertEqual((done.returncode, "packaging/wheel --node FOLDER" in done.stderr), (2, True))


if __name__ == "__main__":
    unittest.main()
