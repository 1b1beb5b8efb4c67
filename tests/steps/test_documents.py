"""The table of docs/EMULATORS.md."""
import json
import re
import sys
import unittest

from common import ARCHIVE, EXAMPLE, TOP, archive, cases, compiler, folder, run, work

sys.path.insert(0, str(TOP / "frontends" / "python"))

from chipbench_steps.kinds import COMMON  # noqa: E402
from chipbench_steps.rows import rows  # noqa: E402

DOCUMENT = (TOP / "docs/EMULATORS.md").read_text(encoding="utf-8")


def counted(kinds):
    """The kinds of a row with the number of their cases; those of place and timers, which most rows have, as one."""
    own = [f"{len(kind.variants)} {kind.about}" for kind in kinds if kind not in COMMON]
    common = sum(len(kind.variants) for kind in kinds if kind in COMMON)
    return "; ".join([*own, f"{common} place and timers"] if common else own)


def table():
    """The lines of the table of cases: rows with the same kinds share one."""
    groups = {}
    for row in rows():
        groups.setdefault(tuple(map(id, row.kinds)), []).append(row)
    for alike in groups.values():
        names = ", ".join(f"`{row.name}`" for row in alike)
        yield f"| {names} | {sum(len(kind.variants) for kind in alike[0].kinds)} | {counted(alike[0].kinds)} |"


class TestTable(unittest.TestCase):
    def test_the_document_has_the_kinds_of_each_row(self):
        found = re.findall(r"^\| `\w+`(?:, `\w+`)* \| \d+ \|.*$", DOCUMENT, re.M)
        self.assertEqual(found, list(table()))

    def test_a_hundred_cases_have_all_kinds_but_of_random_bytes(self):
        for row in rows():
            if row.name != "CXKK":
                self.assertLess(len(row.order()), 100, row.name)


class TestExamples(unittest.TestCase):
    """What the document shows is what the files have."""

    def test_the_case(self):
        shown = re.search(r'^    (\{"format": 1.*\n(?:    .*\n)+)', DOCUMENT, re.M).group(1)
        pattern = ".*".join(re.escape(re.sub(r"\s+", "", part)) for part in shown.split(".. "))
        case = re.sub(r"\s+", "", json.dumps(cases("schip", "8XY4")[23]))
        self.assertRegex(case, f"^{pattern}$")

    def test_the_line_of_the_flat_form(self):
        shown = re.search(r"^    (step 1 schip .*\n(?:      .*\n)+)", DOCUMENT, re.M).group(1)
        lines = (folder("schip") / "8XY4.txt").read_text().splitlines()
        self.assertEqual(" ".join(shown.split()), lines[23])

    def test_the_words(self):
        lines = (folder("schip") / "words.txt").read_text().splitlines()
        self.assertIn("".join(f"    {line}\n" for line in lines[:2]), DOCUMENT)

    def test_the_digits(self):
        """Those of the example, which agrees with the sums of the memory."""
        found = re.search(r"counts them:\n\n((?:    [0-9a-f]+\n)+)", DOCUMENT).group(1)
        table = re.search(r"DIGITS\[180\] = \{(.*?)\}", (EXAMPLE / "emulator.c").read_text(), re.S).group(1)
        self.assertEqual(bytes.fromhex(found), bytes(int(byte, 16) for byte in re.findall("0x[0-9a-f]{2}", table)))

    @unittest.skipUnless(compiler() and ARCHIVE.is_file(), "needs a C compiler, and release/chipbench-steps.tar.xz")
    def test_the_first_instruction(self):
        """The commands as they are typed, with the C compiler that there is."""
        shown = DOCUMENT[DOCUMENT.index("## The first instruction") : DOCUMENT.index("## The files")]
        commands = re.findall(r"^    (.*)$", shown, re.M)
        self.assertEqual(commands[:2], ["tar xf chipbench-steps.tar.xz", "cd chipbench-steps"])
        typed = " && ".join(commands[2:]).replace("cc ", f"{compiler()} ", 1)
        self.assertIn(f"`{run('sh', '-c', typed, cwd=archive()).strip()}`", shown)
        self.assertTrue((work() / "chipbench-steps" / "out").exists())

    @unittest.skipUnless(ARCHIVE.is_file(), "needs release/chipbench-steps.tar.xz")
    def test_the_files_of_the_archive(self):
        table = DOCUMENT[DOCUMENT.index("## The files") :]
        found = {path.name for path in (archive() / "vip").iterdir()} | {f"programs/{name}" for name in ("1.ch8", "1.keys")}
        named = {name for row in re.findall(r"^\| (`.*?) \|", table[: table.index("`python3")], re.M) for name in re.findall(r"`([\w/.]+)`", row)}
        self.assertEqual(named - found, set())
        self.assertEqual(len([name for name in found if re.fullmatch(r"[0-9A-F]\w{3}\.txt", name)]), 43)
        profiles = re.search(r"a folder for each \[profile\].*?: (.*?)\. Begin", DOCUMENT, re.S).group(1)
        self.assertEqual(sorted(re.findall(r"`([\w-]+)`", profiles)), sorted(path.parent.name for path in archive().glob("*/index.json")))
