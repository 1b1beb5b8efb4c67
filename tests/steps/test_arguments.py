"""What chipbench-steps refuses, and what it leaves where it fails."""
import os
import signal
import subprocess
import time
import unittest

from common import HANG_SECONDS, PROGRAM, STEPS, run, steps, work


def take_interrupts():
    """What a shell begins in the background ignores them."""
    signal.signal(signal.SIGINT, signal.SIG_DFL)


class TestArguments(unittest.TestCase):
    def refused(self, status, expected, *words):
        printed = steps(*words, status=status)
        self.assertIn(expected, printed)
        self.assertNotIn("Traceback", printed)

    def test_faulty_arguments(self):
        out = work() / "refused"
        self.refused(2, "no row DXYX", "--instruction", "DXYX", out)
        self.refused(2, "--count is a number from 1 to 10000, and not 0", "--count", "0", out)
        self.refused(2, "--count is a number from 1 to 10000, and not 10001", "--count", "10001", out)
        self.refused(2, "--seed is a number", "--seed", "-1", out)
        self.refused(2, "--seed is a number", "--seed", str(2**64), out)
        self.refused(2, "--programs is a number", "--programs", "1001", out)
        self.refused(2, "'other'", "--profile", "other", out)
        self.refused(2, "shift", "--quirks", "shift=vz", out)
        self.refused(2, "--format is json, flat or both, and not xml", "--format", "xml", out)
        self.refused(2, "OUT")
        self.assertFalse(out.exists())

    def test_what_cannot_be_written_or_run(self):
        file = work() / "file"
        file.write_text("kept")
        self.refused(3, "cannot write", "--count", "1", file)
        self.assertEqual(file.read_text(), "kept")
        printed = run(STEPS, "--program", work() / "none", work() / "refused", status=3)
        self.assertIn("cannot run", printed)
        self.assertFalse((work() / "refused").exists())

    def test_an_interrupted_run_leaves_no_index(self):
        out = work() / "interrupted"
        steps("--count", "1", "--instruction", "6XKK", out)
        words = [STEPS, "--program", PROGRAM, "--count", "10000", out]
        running = subprocess.Popen(words, stderr=subprocess.PIPE, text=True, preexec_fn=take_interrupts)
        self.addCleanup(running.kill)
        while (out / "index.json").exists() and running.poll() is None:
            time.sleep(0.01)
        os.kill(running.pid, signal.SIGINT)
        _, errors = running.communicate(timeout=HANG_SECONDS)
        self.assertEqual((running.returncode, errors), (130, "chipbench-steps: interrupted: the files in OUT are not complete\n"))
        self.assertEqual([name for name in os.listdir(out) if name.endswith((".part", "index.json"))], [])


class TestFolder(unittest.TestCase):
    """A second run into a folder with files."""

    def made(self, name, *words):
        place = work() / name
        self.assertEqual(steps("--count", "1", *words, place), "")
        return place

    def bytes_of(self, place):
        return {path.relative_to(place): path.read_bytes() for path in sorted(place.rglob("*")) if path.is_file()}

    def refused(self, place, expected, *words):
        """Nothing of the folder changes."""
        before = self.bytes_of(place)
        printed = steps("--count", "1", *words, place, status=2)
        self.assertRegex(printed, expected)
        self.assertIn("name another folder, or replace the files by --force", printed)
        self.assertEqual(self.bytes_of(place), before)

    def test_files_of_another_machine_are_refused(self):
        for form in ("json", "flat"):
            place = self.made(f"machine-{form}", "--instruction", "6XKK", "--profile", "vip", "--format", form)
            self.refused(place, r"6XKK\.\w+ names format 1 and profile vip, and this run writes format 1 and profile schip: ", "--instruction", "DXYN")
            self.refused(place, "profile vip,shift=vx: ", "--instruction", "6XKK", "--profile", "vip", "--quirks", "shift=vx")
        place = self.made("machine-programs", "--instruction", "6XKK", "--programs", "1")
        (place / "6XKK.json").unlink()
        self.refused(place, r"programs\.json names format 1 and profile schip", "--instruction", "6XKK", "--profile", "vip")

    def test_files_of_another_format_are_refused(self):
        place = self.made("format", "--instruction", "6XKK")
        (place / "6XKK.json").write_text((place / "6XKK.json").read_text().replace('"format":1', '"format":9'))
        self.refused(place, "names format 9 and profile schip", "--instruction", "6XKK")
        (place / "6XKK.json").write_text("[]")
        self.refused(place, "names no format", "--instruction", "6XKK")

    def test_force_replaces_them(self):
        place = self.made("force", "--instruction", "6XKK,8XY4", "--profile", "vip", "--programs", "1", "--format", "both")
        printed = steps("--count", "1", "--force", "--instruction", "6XKK", place)
        self.assertEqual(printed, "chipbench-steps: removed files of an earlier run: 6XKK.txt, 8XY4.json, 8XY4.txt and 4 more\n")
        self.assertEqual(self.bytes_of(place), self.bytes_of(self.made("forced", "--instruction", "6XKK")))

    def test_what_is_not_written_any_more_is_removed(self):
        place = self.made("fewer-rows", "--instruction", "6XKK,DXYN", "--programs", "3")
        (place / "mine.txt").write_text("kept")
        (place / "programs" / "mine.ch8").write_text("kept")
        printed = steps("--count", "1", "--instruction", "6XKK", "--programs", "1", place)
        expected = "DXYN.json, programs/2.ch8, programs/2.keys and 2 more"
        self.assertEqual(printed, f"chipbench-steps: removed files of an earlier run: {expected}\n")
        left = {str(path) for path in self.bytes_of(place)}
        programs = {"programs.json", "programs/1.ch8", "programs/1.keys", "programs/mine.ch8"}
        self.assertEqual(left, {"6XKK.json", "index.json", "mine.txt", *programs})

    def test_the_same_machine_is_written_again(self):
        place = self.made("again-there", "--instruction", "6XKK")
        before = self.bytes_of(place)
        self.assertEqual(self.bytes_of(self.made("again-there", "--instruction", "6XKK")), before)
