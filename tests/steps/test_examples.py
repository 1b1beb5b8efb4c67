"""The example emulators agree with each case, word and program, and the runners in each language find a planted bug."""
import re
import shutil
import unittest

from common import ARCHIVE, EXAMPLE, IS_ALL, PROFILES, PROGRAM, TOP, archive, compiler, folder, index, programs, python, run, steps, work
from languages import GO, JAVASCRIPT, RUST

ROWS = ("6XKK", "7XKK", "8XY4", "CXKK")
# rows that the emulators of four instructions don't know, and the part of which a runner has to say that it differs
PARTS = {"00E0": "screen", "00FD": "stop", "00FE": "high", "2NNN": "stack|pc", "ANNN": "i", "FX55": "memory", "FX75": "flags"}
MOST_LINES = 79
RUNNERS = sorted(EXAMPLE.glob("run_*"))
FLAG_LAST = "        v[x] = result & 255\n        if flag is not None:\n            v[15] = flag\n"
FLAG_FIRST = "        if flag is not None:\n            v[15] = flag\n        v[x] = result & 255\n"


def example_with(name, old, new):
    """A copy of the example in Python with another text in the place of one."""
    made = work() / name
    if not made.exists():
        shutil.copytree(EXAMPLE, made)
        text = (made / "emulator.py").read_text(encoding="utf-8")
        if text.count(old) != 1:
            raise AssertionError(f"emulator.py has {text.count(old)} times {old!r}")
        (made / "emulator.py").write_text(text.replace(old, new), encoding="utf-8")
    return made


class TestPython(unittest.TestCase):
    def test_agrees_with_each_case_word_and_program(self):
        for profile in PROFILES:
            counted = {"steps": sum(listed["cases"] for listed in index(profile)["files"]), "words": index(profile)["words"]["runs"],
                       "programs": len(programs(profile))}
            for (what, count), called in zip(counted.items(), ("cases", "runs of words", "programs")):
                if what != "words" or IS_ALL or profile == PROFILES[0]:
                    printed = python(EXAMPLE / f"run_{what}.py", folder(profile))
                    self.assertEqual(printed, f"{profile}: 0 of {count} {called} differ\n")

    def test_says_the_first_difference_of_an_instruction(self):
        """The document of the example shows the first lines."""
        wrong = example_with("flag-first", FLAG_LAST, FLAG_FIRST)
        lines = python(wrong / "run_steps.py", folder("schip"), status=1).splitlines()
        self.assertEqual([line.split()[0] for line in lines[:-1]], ["8XY4", "8XY5", "8XY6", "8XY7", "8XYE"])
        document = (EXAMPLE / "README.md").read_text(encoding="utf-8")
        for line in lines[:2]:
            self.assertIn(f"    {line}\n", document)

    def test_a_file_is_refused(self):
        file = folder("schip") / "8XY4.txt"
        for what in ("steps", "words", "programs"):
            printed = python(EXAMPLE / f"run_{what}.py", file, status=1)
            self.assertEqual(printed, f"{file}: expected a folder, such as schip\n")

    def test_another_format_is_refused(self):
        other = work() / "other-format"
        shutil.copytree(folder("schip"), other)
        for name in ("index.json", "words.json"):
            text = (other / name).read_text(encoding="utf-8")
            (other / name).write_text(re.sub('"format": ?1', '"format": 2', text), encoding="utf-8")
        for what in ("steps", "words", "programs"):
            self.assertIn("another format", python(EXAMPLE / f"run_{what}.py", other, status=1))

    def test_names_a_wrong_word(self):
        wrong = example_with("each-5XYN", "case 0x5 if n == 0:", "case 0x5:")
        lines = python(wrong / "run_words.py", folder("schip"), status=1).splitlines()
        self.assertEqual((lines[0], lines[-1]), ("word 5001 is not an instruction", "schip: 256 of 4312 runs of words differ"))


class TestTrace(unittest.TestCase):
    def against(self, profile, program, traced, status=0):
        """What the program's command prints of a trace."""
        first, *words = program["command"].split()
        self.assertEqual(first, "chipbench")
        return run(PROGRAM, *words, "--against", traced, status=status, cwd=folder(profile))

    def traced(self, example, profile, number):
        found = work() / f"{example.name}-{profile}-{number}.trace"
        found.write_text(python(example / "run_programs.py", folder(profile), "--trace", number))
        return found

    def test_that_of_the_example_is_that_of_the_program(self):
        for profile in PROFILES:
            for number, program in enumerate(programs(profile), 1):
                self.assertEqual(self.against(profile, program, self.traced(EXAMPLE, profile, number)), "")

    def test_names_the_step_of_a_bug(self):
        """docs/EMULATORS.md shows the lines."""
        wrong = example_with("flag-first", FLAG_LAST, FLAG_FIRST)
        printed = python(wrong / "run_programs.py", folder("schip"), status=1)
        self.assertRegex(printed, r"^program 1 at step \d+: \w+ is \w+, and has to be \w+ ")
        first, *_, ours, theirs = self.against("schip", programs("schip")[0], self.traced(wrong, "schip", 1), status=1).splitlines()
        document = (TOP / "docs" / "EMULATORS.md").read_text(encoding="utf-8")
        self.assertIn(f"    {first}\n    ..\n    {ours}\n    {theirs}\n", document)


class TestRunners(unittest.TestCase):
    """Each finds that 8XY4 writes the flag before the sum, in an emulator of four instructions."""

    def setUp(self):
        self.files = work() / "languages"
        if not self.files.exists():
            steps("--instruction", ",".join([*ROWS, *PARTS]), "--count", 30, "--format", "flat", self.files)

    def paths(self, *rows):
        return [self.files / f"{row}.txt" for row in rows or ROWS]

    def other_format(self):
        """A file whose lines name another format."""
        made = work() / "other-format.txt"
        lines = (self.files / "6XKK.txt").read_text(encoding="utf-8").splitlines(keepends=True)
        made.write_text("".join(lines[:1] + [line.replace("step 1 ", "step 2 ") for line in lines[1:]]), encoding="utf-8")
        return made

    def finds_the_bug(self, printed):
        self.assertRegex(printed, r"^8XY4 case \d+: V(F|0 to VF)?\b.*\n")
        self.assertEqual(printed.count(" case "), 1)

    def names_the_parts(self, printed):
        lines = [line.split(" ", 3) for line in printed.splitlines() if " case " in line]
        self.assertEqual([line[0] for line in lines], list(PARTS))
        for row, _, number, found in lines:
            self.assertRegex(found.lower(), rf"\b({PARTS[row]})\b", f"{row} {number}")

    def test_each_is_short(self):
        self.assertEqual([path.name for path in RUNNERS if len(path.read_text().splitlines()) > MOST_LINES], [])

    def test_there_is_one_for_each_language(self):
        found = {path.suffix for path in RUNNERS if path.name.startswith("run_steps.")}
        self.assertEqual(found, {".c", ".go", ".mjs", ".py", ".rs"})

    @unittest.skipUnless(compiler(), "needs a C compiler")
    def test_c(self):
        right, wrong = work() / "run_steps", work() / "run_steps_wrong"
        text = (EXAMPLE / "emulator.c").read_text(encoding="utf-8")
        last = "    machine->v[x] = result;\n    if (flag >= 0) machine->v[15] = flag;\n"
        self.assertIn(last, text)
        (work() / "wrong.c").write_text(text.replace(last, "".join(reversed(last.splitlines(keepends=True)))))
        strict = [compiler(), "-std=c99", "-pedantic", "-Wall", "-Wextra", "-Werror", f"-I{EXAMPLE}"]
        self.assertEqual(run(*strict, "-o", right, EXAMPLE / "run_steps.c", EXAMPLE / "emulator.c"), "")
        self.assertEqual(run(*strict, "-o", wrong, EXAMPLE / "run_steps.c", work() / "wrong.c"), "")
        self.assertEqual(run(right, *self.paths()), "0 of 120 cases differ\n")
        self.finds_the_bug(run(wrong, *self.paths(), status=1))
        self.assertIn("another format", run(right, self.other_format(), status=2))

    @unittest.skipUnless(compiler(), "needs a C compiler")
    def test_c_without_a_case(self):
        """A run that reads nothing is no pass."""
        files = {"steps": "8XY4.txt", "words": "words.txt", "programs": "programs.txt"}
        for what, name in files.items():
            built = work() / f"empty_{what}"
            run(compiler(), "-std=c99", "-o", built, EXAMPLE / f"run_{what}.c", EXAMPLE / "emulator.c")
            read = {"steps": "case", "words": "words", "programs": "program"}[what]
            told = f"no {read} read; give a file such as schip/{name}\n"
            self.assertEqual(run(built, folder("schip"), status=2), told)
            for other in {*files.values()} - {name}:
                self.assertIn(run(built, folder("schip") / other, status=2), (told, "another format\n"))
            if what != "words":
                self.assertEqual(run(built, status=2), told)
            self.assertRegex(run(built, folder("schip") / name), "^0 of ")

    @unittest.skipUnless(compiler() and ARCHIVE.is_file(), "needs a C compiler, and release/chipbench-steps.tar.xz")
    def test_c_agrees_with_the_archive(self):
        """Under each profile, with each case, word and program, by the sources in the archive."""
        runners = archive() / "emulator"
        for what in ("steps", "words", "programs"):
            run(compiler(), "-std=c99", "-O1", "-o", work() / f"c_{what}", runners / f"run_{what}.c", runners / "emulator.c")
        for profile in sorted(path.parent for path in archive().glob("*/index.json")):
            self.assertEqual(run(work() / "c_steps", *sorted(profile.glob("[0-9A-FS]*.txt"))), "0 of 4500 cases differ\n")
            self.assertRegex(run(work() / "c_words", profile / "words.txt"), r"^0 of \d+ runs of words differ\n$")
            self.assertEqual(run(work() / "c_programs", profile / "programs.txt"), "0 of 20 programs differ\n")

    @unittest.skipUnless(shutil.which("node"), "needs node")
    def test_javascript(self):
        (self.files / "machine.mjs").write_text(JAVASCRIPT)
        tried = ["node", EXAMPLE / "run_steps.mjs", self.files / "machine.mjs"]
        self.finds_the_bug(run(*tried, *self.paths(), status=1))
        self.assertIn("another format", run(*tried, self.other_format(), status=1))
        self.assertEqual(run(*tried, *self.paths("6XKK", "7XKK", "CXKK")), "")
        self.names_the_parts(run(*tried, *self.paths(*PARTS), status=1))

    @unittest.skipUnless(shutil.which("rustc"), "needs rustc")
    def test_rust(self):
        shutil.copy(EXAMPLE / "run_steps.rs", self.files)
        (self.files / "machine.rs").write_text(RUST)
        self.assertEqual(run("rustc", "--edition", "2021", "-o", "rust_steps", "run_steps.rs", cwd=self.files), "")
        self.finds_the_bug(run(self.files / "rust_steps", *self.paths(), status=1))
        self.assertEqual(run(self.files / "rust_steps", *self.paths("6XKK", "7XKK", "CXKK")), "")
        self.names_the_parts(run(self.files / "rust_steps", *self.paths(*PARTS), status=1))
        self.assertIn("another format", run(self.files / "rust_steps", self.other_format(), status=101))

    @unittest.skipUnless(shutil.which("go"), "needs go")
    def test_go(self):
        shutil.copy(EXAMPLE / "run_steps.go", self.files)
        (self.files / "machine.go").write_text(GO)
        tried = ["go", "run", "run_steps.go", "machine.go"]
        self.finds_the_bug(run(*tried, *self.paths(), status=1, cwd=self.files))
        self.names_the_parts(run(*tried, *self.paths(*PARTS), status=1, cwd=self.files))
        for other in (self.other_format(), work() / "missing.txt"):
            self.assertIn("another format", run(*tried, other, status=1, cwd=self.files))

    def test_each_reads_the_parts_of_a_state_in_their_order(self):
        """By its text, also where Go isn't installed."""
        expected = ["pc", "i", "dt", "st", "high", "v", "flags", "stack", "memory", "screen"]
        for name, begin in (("run_steps.c", "static void read_state("), ("run_steps.go", ") state("), ("run_steps.rs", "fn read_state(")):
            text = (EXAMPLE / name).read_text(encoding="utf-8")
            body = text[text.index(begin) :]
            body = body[: body.index("\n}\n")]
            # a name counts where it stands last: Go's stack is emptied before
            found = re.findall(r"machine(?:->|\.)(\w+)", body.lower())
            last = dict((part, at) for at, part in enumerate(found) if part != "depth")
            self.assertEqual(sorted(last, key=last.get), expected, name)


class TestToJson(unittest.TestCase):
    def test_makes_the_same_bytes_as_the_program(self):
        made = work() / "to-json"
        made.mkdir()
        for path in [*folder("vip").glob("*.txt"), folder("vip") / "index.json"]:
            shutil.copy(path, made)
        python(EXAMPLE / "to_json.py", made)
        for path in made.glob("*.json"):
            self.assertEqual(path.read_bytes(), (folder("vip") / path.name).read_bytes(), path.name)
        self.assertEqual(len(list(made.glob("*.json"))), 47)
