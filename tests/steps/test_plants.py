"""The planted bugs: each is found as the table says, by the runners in C and the archive in release/."""
import tempfile
import unittest

from common import ARCHIVE, IS_ALL, archive, compiler
from plant_table import TABLE, Runners, counts, differences, lines_of, source_with
from plants import PLANTS

# how many of the bugs are tried where not all are: each so many
EACH = 24
# decoders that take words of no row for one of the table
DECODERS = {
    ("00CN", "each 0XCN"), ("EX9E", "each EXNE"), ("EXA1", "each EXN1"), ("FX33", "each FXN3"), ("FX07", "each FXN7"),
    ("FX29", "each FXN9"), ("FX1E", "each FXNE"), ("F000", "nothing happens, as for XO-CHIP"), ("00E0", "0230 too"),
}
WRONG_JUMPS = ("V0 under each profile", "Vx under each profile", "the other way")
# for each profile, whether JP V0 adds V0
JUMPS_BY_V0 = {"schip": False, "vip": True, "chip48": False, "schip10": False, "schip-modern": False, "octo": True}


def cells(line):
    """The part and what is wrong, and what finds it: steps, words, programs."""
    name, *found = (cell.strip() for cell in line.split("|"))
    return tuple(name.split(None, 1)), found


class TestTable(unittest.TestCase):
    def setUp(self):
        self.text = TABLE.read_text(encoding="utf-8")
        self.lines = lines_of(self.text)

    def test_each_bug_changes_one_text_and_has_a_line(self):
        self.assertGreaterEqual(len(PLANTS), 150)
        self.assertEqual([cells(line)[0] for line in self.lines], [(plant.part, plant.what) for plant in PLANTS])
        self.assertEqual(len({source_with(plant, plant.file) for plant in PLANTS}), len(PLANTS))

    def test_something_finds_each_that_can_be_seen(self):
        unseen = [(plant.part, plant.what) for plant in PLANTS if plant.unseen]
        self.assertEqual([cells(line)[0] for line in self.lines if all(cell.startswith("-") for cell in cells(line)[1])], unseen)
        self.assertEqual(len(unseen), 1)

    def test_the_lines_above_count_right(self):
        numbers = " ".join(line for line in self.text.splitlines() if line.startswith("#"))
        found = counts(self.lines)
        self.assertIn(f"{found['steps']} bugs are found by steps, {found['words']} by words, {found['programs']} by programs", numbers)
        self.assertGreater(2 * found["both"], found["steps"])
        self.assertGreaterEqual(found["alone"], 15)

    def test_words_find_each_decoder(self):
        found = {name: what for name, what in map(cells, self.lines) if name in DECODERS}
        self.assertEqual((len(found), {tuple(what[:2]) for what in found.values()}), (len(DECODERS), {("S2", "words")}))


@unittest.skipUnless(compiler() and ARCHIVE.is_file(), "needs a C compiler, and release/chipbench-steps.tar.xz")
class TestFound(unittest.TestCase):
    def test_as_the_table_says(self):
        with tempfile.TemporaryDirectory() as place:
            self.assertEqual(differences(place, archive(), PLANTS if IS_ALL else PLANTS[::EACH]), [])

    def test_programs_find_a_wrong_jump_under_each_profile(self):
        """The bug that does nothing under a profile isn't one there."""
        with tempfile.TemporaryDirectory() as place:
            runners = Runners(place, archive())
            self.assertEqual(set(runners.profiles), JUMPS_BY_V0.keys())
            for what in WRONG_JUMPS:
                runners.library(next(plant for plant in PLANTS if (plant.part, plant.what) == ("BNNN", what)))
                for profile, by_v0 in JUMPS_BY_V0.items():
                    lines, _ = runners.run("run_programs", [archive() / profile / "programs.txt"])
                    is_bug = what == "the other way" or by_v0 == what.startswith("Vx")
                    self.assertEqual(len(lines) > 1, is_bug, f"{what}: {profile}")
