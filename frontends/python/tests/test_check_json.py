"""`check --json` beside what `check` prints as text, on each faulty source of the tests."""

from __future__ import annotations

import json
import os
import re
import subprocess
import sys
import tempfile
import unittest
from pathlib import Path
from typing import Any

sys.path.insert(0, str(Path(__file__).resolve().parent))

from programs import EXAMPLES, TOP, NeedsWords  # noqa: E402

HEAD = re.compile(rb"(.*):([0-9]+):([0-9]+): ([FWPO][0-9]+): (.*)", re.DOTALL)
MEMBERS = ["line", "column", "end", "code", "message", "help", "file"]


def blocks(path: Path, word: str) -> list[bytes]:
    """What stands in a file of cases between each line that is this word and the next line `end`."""
    found = []
    lines: list[bytes] | None = None
    for line in path.read_bytes().split(b"\n"):
        if lines is None:
            lines = [] if line == word.encode() else None
        elif line == b"end":
            found.append(b"".join(line + b"\n" for line in lines))
            lines = None
        else:
            lines.append(line)
    return found


def sources() -> list[bytes]:
    """The sources of the tests and the examples, each once."""
    tests = TOP / "tests"
    found = [block for path in sorted(tests.glob("arguments/check/*.test")) for block in blocks(path, "stdin")]
    found += [block for path in sorted(tests.glob("sessions/**/*.test")) for block in blocks(path, "source")]
    found += [path.read_bytes() for path in sorted(EXAMPLES.glob("*.asm"))]
    return list(dict.fromkeys(found))


def read_text(printed: bytes, name: bytes) -> list[dict[str, Any]]:
    """What the text says: a head, the line, the marks, and lines of help. Of a source that doesn't open no line is quoted."""
    found: list[dict[str, Any]] = []
    rows = printed.split(b"\n")
    assert rows.pop() == b""
    while rows:
        head = HEAD.fullmatch(rows.pop(0))
        assert head is not None and head[1] == name, printed
        if head[4] in (b"O1", b"O2"):
            marks = b"^"
        else:
            _, marks = rows.pop(0), rows.pop(0).lstrip()
        help_lines = []
        while rows and rows[0].startswith((b"help: ", b"note: ")):
            help_lines.append(rows.pop(0).removeprefix(b"help: "))
        found.append({
            "line": int(head[2]),
            "column": int(head[3]),
            "end": int(head[3]) + len(marks),
            "code": head[4].decode(),
            "message": head[5].decode(errors="replace"),
            "help": [text.decode(errors="replace") for text in help_lines],
            "file": name.decode(errors="replace"),
        })
    return found


class CheckAsJson(NeedsWords):
    def printed(self, *words: str | bytes, source: bytes = b"", folder: str | None = None) -> tuple[int, bytes]:
        ran = subprocess.run([self.program, "check", *words], input=source, capture_output=True, cwd=folder)
        self.assertEqual(ran.stderr, b"")
        return ran.returncode, ran.stdout

    def objects(self, printed: bytes) -> list[dict[str, Any]]:
        """The objects, each on a line of its own, without a blank outside strings and with no member twice."""
        found = []
        for line in printed.decode().split("\n")[:-1]:
            pairs = json.loads(line, object_pairs_hook=list)
            self.assertEqual([name for name, value in pairs], MEMBERS)
            found.append(dict(pairs))
            self.assertEqual(json.dumps(found[-1], separators=(",", ":"), ensure_ascii=False), line)
        self.assertTrue(printed == b"" or printed.endswith(b"\n"))
        return found

    def compare(self, source: bytes, *words: str, name: bytes = b"-", folder: str | None = None) -> int:
        """Compares both ways to print a source, and says how many objects there are."""
        text_status, text = self.printed(*words, source=source, folder=folder)
        status, printed = self.printed("--json", *words, source=source, folder=folder)
        self.assertEqual(status, text_status)
        found = self.objects(printed)
        said = read_text(text, name)
        self.assertEqual(len(found), len(said), source)
        for one, other in zip(found, said):
            # one caret stands where the place has no bytes, too
            if one["end"] == one["column"]:
                one["end"] += 1
            self.assertEqual(one, other, source)
        return len(found)

    def test_each_source_of_the_tests(self) -> None:
        counts = [self.compare(source, "-") for source in sources()]
        self.assertGreater(sum(counts), 60)

    def test_the_place_of_each_object_has_its_bytes(self) -> None:
        source = b'; \xc3\xa9\n\tLD V0, none ; \xc3\xa9\nDA "\xc3\xa9\xc3\xa9", 1\nJP\n'
        found = self.objects(self.printed("--json", "-", source=source)[1])
        lines = source.split(b"\n")
        marked = [(one["code"], lines[one["line"] - 1][one["column"] - 1:one["end"] - 1]) for one in found]
        self.assertEqual(marked, [("F9", b"none"), ("F4", '"éé", 1'.encode()), ("F4", b"")])

    def test_a_source_that_does_not_open(self) -> None:
        for source, place in ((b"CLS\n;" + b"x" * 200, (2, 201, 202, "O1")), (b"\n" * 4001, (4001, 1, 1, "O2"))):
            self.assertEqual(self.compare(source, "-"), 1)
            one = self.objects(self.printed("--json", "-", source=source)[1])[0]
            self.assertEqual((one["line"], one["column"], one["end"], one["code"]), place)

    def test_each_object_names_its_file(self) -> None:
        with tempfile.TemporaryDirectory() as folder:
            for name, source in (("a.asm", b"JP\nJP\n"), ("b.asm", b";" * 201), ("c.asm", b"CLS\n"), ("d.asm", b"LD V0, none\n")):
                Path(folder, name).write_bytes(source)
            status, printed = self.printed("--json", "a.asm", "b.asm", "c.asm", "d.asm", folder=folder)
            found = [(one["file"], one["line"], one["code"]) for one in self.objects(printed)]
            self.assertEqual((status, found), (1, [("a.asm", 1, "F4"), ("a.asm", 2, "F4"), ("b.asm", 1, "O1"), ("d.asm", 1, "F9")]))

    def test_names_of_files_are_escaped(self) -> None:
        for name in ('a "quote".asm', "a\\b.asm", "tab\there.asm", "two\nlines.asm", "\x01\x1f\x7f.asm", "é😀.asm"):
            with tempfile.TemporaryDirectory() as folder:
                # the bytes of the name, since Python may know names of ASCII alone
                with open(os.path.join(os.fsencode(folder), name.encode()), "wb") as source:
                    source.write(b"LD V0, none\n")
                status, printed = self.printed("--json", name.encode(), folder=folder)
                self.assertEqual((status, [one["file"] for one in self.objects_of_any_escape(printed)]), (1, [name]))

    def objects_of_any_escape(self, printed: bytes) -> list[dict[str, Any]]:
        """The objects, where a control byte may be written in any of JSON's ways; none stands as it is."""
        self.assertNotRegex(printed.removesuffix(b"\n"), rb"[\x00-\x1f]")
        return [json.loads(line) for line in printed.decode().split("\n")[:-1]]

    def test_a_control_byte_is_four_digits(self) -> None:
        with tempfile.TemporaryDirectory() as folder:
            Path(folder, "a\x1fb.asm").write_bytes(b"JP\n")
            printed = self.printed("--json", "a\x1fb.asm", folder=folder)[1]
            self.assertIn(b'"file":"a\\u001fb.asm"', printed)


if __name__ == "__main__":
    unittest.main()
