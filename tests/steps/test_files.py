"""The files: which there are, that another emulator agrees with each case, and that the same seed gives the same bytes."""
import copy
import filecmp
import json
import re
import unittest

from common import ARCHIVE, COUNT, IS_ALL, PROFILES, PROGRAM, TOP, all_cases, archive, cases, folder, index, programs, run, steps, work
from replay import QUIRKS, differing, emulator
from schema import Schema


class TestFiles(unittest.TestCase):
    def test_a_file_for_each_row_of_the_table(self):
        machine = (TOP / "docs/MACHINE.md").read_text(encoding="utf-8")
        table = machine[machine.index("## Instructions") : machine.index("## Profiles and quirks")]
        rows = re.findall(r"^\| `(\w{4})` \|", table, re.M)
        for profile in PROFILES:
            self.assertEqual([listed["row"] for listed in index(profile)["files"]], [*rows, "S2", "S3"])
            for listed in index(profile)["files"]:
                found = cases(profile, listed["row"])
                self.assertEqual((len(found), sum(listed["kinds"].values())), (listed["cases"], COUNT))
                names = [f"{listed['row']} {number}" for number in range(1, COUNT + 1)]
                self.assertEqual([case["name"] for case in found], names)

    def test_the_index_names_program_logic_profile_and_seed(self):
        printed = run(PROGRAM, "--version").strip()
        for profile in PROFILES:
            listed = index(profile)
            self.assertEqual(f"{listed['program']} (logic {listed['logic']})", printed)
            self.assertEqual((listed["format"], listed["profile"], listed["seed"]), (1, profile, 0))

    def test_each_case_and_program_names_its_profile_and_format(self):
        for profile in PROFILES:
            found = {(record["format"], record["profile"]) for record in [*all_cases(profile), *programs(profile)]}
            words = json.loads((folder(profile) / "words.json").read_text())
            self.assertEqual(found | {(words["format"], words["profile"])}, {(1, profile)})
            lines = [line.split() for path in folder(profile).glob("*.txt") for line in path.open()]
            self.assertEqual({tuple(line[1:3]) for line in lines if line[0] in ("step", "words", "program")}, {("1", profile)})
            self.assertEqual({line[0] for line in lines}, {"step", "words", "program", "key", "state"})

    def test_another_emulator_agrees_with_each_case(self):
        differ = [(profile, case["name"], found) for profile in PROFILES for case in all_cases(profile)
                  if (found := differing(case, profile))]
        self.assertEqual(differ, [])

    def test_each_stop_is_there_where_the_table_has_it(self):
        expected = {"00FD": "S1", "2NNN": "S4", "00EE": "S5", "DXYN": "S6", "FX33": "S6", "FX55": "S6", "FX65": "S6",
                    "FX75": "S7", "FX85": "S7", "S2": "S2", "S3": "S3"}
        for listed in index("schip")["files"]:
            stops = {case["stops"] for case in cases("schip", listed["row"])} - {None}
            self.assertEqual(stops, {expected[listed["row"]]} if listed["row"] in expected else set(), listed["row"])

    def test_what_the_vip_lacks_stops_there(self):
        for row in ("00CN", "00FB", "00FC", "00FD", "00FE", "00FF", "FX30", "FX75", "FX85"):
            self.assertEqual({case["stops"] for case in cases("vip", row)}, {"S2"})

    def test_words_are_those_of_the_row(self):
        for profile in PROFILES:
            for case in all_cases(profile):
                row, initial = case["name"].split()[0], case["initial"]
                if len(row) == 4:
                    memory = dict(initial["memory"])
                    word = f"{memory[initial['pc']]:02X}{memory[initial['pc'] + 1]:02X}"
                    self.assertRegex(word, re.sub("[XYNK]", "[0-9A-F]", row), case["name"])


class TestWords(unittest.TestCase):
    def test_the_verdicts_are_those_of_the_table_of_instructions(self):
        """By the document alone, and by another emulator: a word has a row where its digits are those of the row's pattern."""
        machine = (TOP / "docs/MACHINE.md").read_text(encoding="utf-8")
        table = machine[machine.index("## Instructions") : machine.index("## Profiles and quirks")]
        rows = [(row, re.compile(re.sub("[XYNK]", "[0-9A-F]", row))) for row in re.findall(r"^\| `(\w{4})` \|", table, re.M)]
        lacking = set(re.findall(r"^\| `(\w{4})` \|.*not an instruction, S2", machine, re.M))
        self.assertEqual(len(lacking), 9)
        for profile in PROFILES:
            verdicts = {}
            for first, last, row in json.loads((folder(profile) / "words.json").read_text())["words"]:
                verdicts |= dict.fromkeys(range(first, last + 1), row)
            expected = {word: next((row for row, pattern in rows if pattern.fullmatch(f"{word:04X}")), None) for word in range(65536)}
            if profile == "vip":
                expected = {word: None if row in lacking else row for word, row in expected.items()}
            self.assertEqual(verdicts, expected)
            self.assertEqual([word for word in range(65536) if self.stops(word, profile) != (verdicts[word] is None)], [])

    def stops(self, word, profile):
        """Whether the emulator of tests/trace knows no such word. It doesn't tell stops apart, so that those that have another
        reason are asked for by their rows."""
        machine = emulator.Machine(word.to_bytes(2, "big"), QUIRKS[profile], b"\0", None)
        machine.stack = [0x200]
        if word == 0x00FD and machine.has_super or word & 0xF0FF in (0xF075, 0xF085) and machine.has_super:
            return False
        machine.step(0, False)
        return machine.stopped

    def test_a_word_of_no_row_is_there_for_each_digit_that_a_decoder_may_ignore(self):
        """Of each row whose other digits are free, S2 has a word that differs in one fixed digit."""
        words = {dict(case["initial"]["memory"])[case["initial"]["pc"]] << 8 | dict(case["initial"]["memory"])[case["initial"]["pc"] + 1]
                 for case in json.loads((self.many() / "S2.json").read_text())}
        for mask, like in ((0xF0F0, 0x00C0), (0xF00F, 0xE00E), (0xF00F, 0xE001), (0xF00F, 0xF003), (0xF00F, 0xF007), (0xF00F, 0xF009),
                           (0xF00F, 0xF00E), (0xFFFF, 0xF000), (0xFFFF, 0x0230)):
            self.assertTrue(any(word & mask == like for word in words), f"{like:04x}")
        self.assertGreater(len({word >> 12 for word in words}), 5)

    def many(self):
        """S2.json with as many cases as chipbench-steps writes by default."""
        made = work() / "many"
        if not made.exists():
            steps("--instruction", "S2", made)
        return made


class TestPrograms(unittest.TestCase):
    def test_they_come_to_each_stop_and_to_the_last_step(self):
        for profile, stops in (("schip", "S1 S2 S3 S4 S5 S6 S7"), ("vip", "S2 S3 S4 S5 S6")):
            last = [program["states"][-1] for program in programs(profile)]
            self.assertEqual({state["text"] for state in last}, {"run", *stops.split()})
            self.assertEqual({state["step"] for state in last}, {2000})
            for program in programs(profile):
                reached = [state["step"] for state in program["states"]]
                self.assertLessEqual(max(second - first for first, second in zip(reached, reached[1:-1])), 100)

    def test_they_go_where_emulators_differ(self):
        """An odd pc, the last word, the last bytes, F000 that is skipped over, a jump by another V0 than Vx, and waits for keys."""
        for profile in PROFILES:
            found = set()
            for program in programs(profile):
                found |= self.met(program, profile)
            self.assertEqual(found, {"odd", "last", "f000", "jump", "wait", "taken", "edge"})

    def met(self, program, profile):
        """What a run of the program meets, by the emulator of tests/trace."""
        machine = emulator.Machine(bytes.fromhex(program["image"]), QUIRKS[profile], bytes.fromhex(program["tape"]), None)
        found, events, keys, waited = set(), {}, 0, False
        for step, key, is_down in program["keys"]:
            events.setdefault(step, []).append((key, is_down))
        for step in range(2000):
            for key, is_down in events.get(step, []):
                keys = keys | 1 << key if is_down else keys & ~(1 << key)
            pc = machine.pc
            if pc > 4094:
                break
            word = int.from_bytes(machine.memory[pc : pc + 2], "big")
            found |= {name for name, holds in (
                ("odd", pc % 2), ("last", pc == 4094), ("wait", word & 0xF0FF == 0xF00A and not keys),
                ("taken", waited and keys), ("jump", word >> 12 == 11 and machine.v[0] != machine.v[word >> 8 & 15]),
                ("edge", machine.i + (word & 15 if word >> 12 == 13 else (word >> 8 & 15) + 1) == 4096
                 and (word >> 12 == 13 or word & 0xF0FF == 0xF065))) if holds}
            waited = word & 0xF0FF == 0xF00A and not keys
            machine.step(keys, (step + 1) % program["rate"] == 0)
            if machine.pc == pc + 4 and bytes(machine.memory[pc + 2 : pc + 4]) == b"\xf0\0":
                found.add("f000")
            if machine.stopped:
                break
        return found


class TestSchema(unittest.TestCase):
    def setUp(self):
        self.schema = Schema(json.loads((TOP / "docs/steps.schema.json").read_text(encoding="utf-8")))

    def test_each_file_is_valid(self):
        for profile in PROFILES:
            for listed in index(profile)["files"]:
                self.assertEqual(list(self.schema.faults(cases(profile, listed["row"]))), [], listed["row"])

    def test_words_and_programs_are_valid(self):
        for name in ("words", "programs"):
            rule = self.schema.referred(f"#/$defs/{name}")
            for profile in PROFILES:
                content = json.loads((folder(profile) / f"{name}.json").read_text())
                self.assertEqual(list(self.schema.faults(content, rule)), [], name)

    def test_broken_cases_are_not_valid(self):
        def broken(change):
            case = copy.deepcopy(cases("schip", "DXYN")[0])
            change(case)
            return list(self.schema.faults([case]))

        self.assertEqual(broken(lambda case: None), [])
        for change in (
            lambda case: case.pop("stops"),
            lambda case: case.pop("profile"),
            lambda case: case.update(format=2),
            lambda case: case["initial"].pop("tick"),
            lambda case: case["initial"]["v"].append(0),
            lambda case: case["initial"].update(pc=-1),
            lambda case: case["initial"].update(dt=256),
            lambda case: case["initial"].update(high=0),
            lambda case: case["initial"]["memory"].append([4096, 0]),
            lambda case: case["initial"]["memory"].append([1, 2, 3]),
            lambda case: case["final"].update(screen=[[0, "F" * 32]]),
            lambda case: case["final"].update(keys=[]),
            lambda case: case.update(stops="S8"),
            lambda case: case.update(name="DXYN 0"),
        ):
            self.assertNotEqual(broken(change), [])


class TestSameBytes(unittest.TestCase):
    def made(self, name, *words):
        steps(*words, work() / name)
        return work() / name

    def test_same_seed_same_bytes(self):
        again = self.made("again", "--count", COUNT, "--instruction", "dxyn,CXKK,8XY4")
        for row in ("DXYN", "CXKK", "8XY4"):
            self.assertTrue(filecmp.cmp(again / f"{row}.json", folder("schip") / f"{row}.json", shallow=False), row)

    def test_more_cases_change_none(self):
        fewer = self.made("fewer", "--count", 5, "--instruction", "FX55")
        self.assertEqual(json.loads((fewer / "FX55.json").read_text()), cases("schip", "FX55")[:5])

    def test_profiles_have_the_same_states(self):
        for first, second in zip(all_cases("schip"), all_cases("vip"), strict=True):
            self.assertEqual(first["text"], second["text"], first["name"])
            of_registers = () if first["name"].startswith("DXYN") else ("v",)
            for name in ("pc", "i", "dt", "st", "stack", "keys", "random", "tick", *of_registers):
                self.assertEqual(first["initial"][name], second["initial"][name], first["name"])

    def test_another_seed_gives_others(self):
        other = self.made("other", "--seed", 2**64 - 1, "--count", COUNT, "--instruction", "8XY4")
        self.assertEqual(json.loads((other / "index.json").read_text())["seed"], 2**64 - 1)
        self.assertNotEqual(json.loads((other / "8XY4.json").read_text()), cases("schip", "8XY4"))

    def test_mixtures_are_asked_of_the_machine(self):
        """Another emulator agrees with cases of a mixture that no profile has."""
        mixture = "vip,shift=vx,edges=wrap,fx1e=flag"
        made = self.made("mixture", "--profile", "vip", "--quirks", "shift=vx,edges=wrap,fx1e=flag", "--count", 40, "--instruction", "8XY6,DXYN,FX1E,00E0")
        QUIRKS[mixture] = QUIRKS["vip"] | {"shift": "vx", "edges": "wrap", "fx1e": "flag"}
        self.assertEqual(json.loads((made / "index.json").read_text())["profile"], mixture)
        for row in ("8XY6", "DXYN", "FX1E", "00E0"):
            found = json.loads((made / f"{row}.json").read_text())
            self.assertEqual({case["profile"] for case in found}, {mixture})
            self.assertEqual([(case["name"], parts) for case in found if (parts := differing(case, mixture))], [])

    @unittest.skipUnless(ARCHIVE.is_file(), "needs release/chipbench-steps.tar.xz")
    def test_the_archive_has_what_the_program_answers(self):
        """Some rows and programs of each profile, or all."""
        rows = () if IS_ALL else ("--instruction", "S2,00FE,8XY6", "--count", 5)
        for profile in sorted(path.parent.name for path in archive().glob("*/index.json")):
            made = self.made(f"archive-{profile}", "--profile", profile, "--format", "flat", "--programs", 20 if IS_ALL else 3, *rows)
            for path in made.rglob("*.*"):
                old = archive() / profile / path.relative_to(made)
                if path.suffix in (".txt", ".ch8", ".keys"):
                    self.assertTrue(old.read_bytes().startswith(path.read_bytes()), path)

    def test_programs_are_the_same_again(self):
        again = self.made("again-programs", "--count", 1, "--instruction", "00E0", "--programs", 2)
        for name in ("programs/1.ch8", "programs/2.ch8", "programs/1.keys", "programs/2.keys"):
            self.assertTrue(filecmp.cmp(again / name, folder("schip") / name, shallow=False), name)
