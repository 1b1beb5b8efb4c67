"""The archive of release/: the same files give the same bytes, and a .zip has the same files."""
import importlib.machinery
import importlib.util
import io
import lzma
import tarfile
import unittest
import zipfile

from common import ARCHIVE, EXAMPLE, TOP, archive, run, work

PACKER = TOP / "packaging" / "steps-archive"
loader = importlib.machinery.SourceFileLoader("steps_archive", str(PACKER))
packer = importlib.util.module_from_spec(importlib.util.spec_from_loader("steps_archive", loader))
loader.exec_module(packer)


@unittest.skipUnless(ARCHIVE.is_file(), "needs release/chipbench-steps.tar.xz")
class TestArchive(unittest.TestCase):
    def made(self, name):
        path = work() / name
        if not path.exists():
            self.assertEqual(run(PACKER, path, "--from", ARCHIVE), "")
        return path

    def test_the_same_files_give_the_same_bytes(self):
        """Of the archive before it is compressed, since another version of the library may compress otherwise."""
        content = lzma.decompress(ARCHIVE.read_bytes())
        self.assertTrue(packer.tar_of(packer.files_of(ARCHIVE)) == content)
        with tarfile.open(fileobj=io.BytesIO(content)) as found:
            entries = found.getmembers()
        self.assertEqual({(entry.uid, entry.gid, entry.mtime, entry.mode, entry.uname) for entry in entries}, {(0, 0, 0, 0o644, "")})

    def test_a_zip_has_the_same_files(self):
        first = self.made("first.zip")
        self.assertEqual(first.read_bytes(), self.made("second.zip").read_bytes())
        with zipfile.ZipFile(first) as found:
            content = {name: found.read(name) for name in found.namelist()}
        expected = {path.relative_to(work()).as_posix(): path.read_bytes() for path in archive().rglob("*") if path.is_file()}
        self.assertEqual({name: content[name] for name in expected if name in content}, {name: expected[name] for name in content})

    def test_it_stays_where_another_version_of_the_program_wrote_the_same(self):
        made = self.made("stays.zip")
        with zipfile.ZipFile(made) as found:
            content = {name: found.read(name).replace(b'"program": "chipbench', b'"program": "chipbench 0.') for name in found.namelist()}
        with zipfile.ZipFile(made, "w") as changed:
            for name, part in content.items():
                changed.writestr(name, part)
        before = made.read_bytes()
        run(PACKER, made, "--from", ARCHIVE)
        self.assertEqual(made.read_bytes(), before)
        with zipfile.ZipFile(made, "w") as changed:
            changed.writestr("chipbench-steps/README.txt", "other")
        run(PACKER, made, "--from", ARCHIVE)
        self.assertEqual(made.read_bytes(), self.made("first.zip").read_bytes())

    def test_it_has_the_page_the_schema_and_the_emulators(self):
        self.assertEqual((archive() / "steps.schema.json").read_bytes(), (TOP / "docs" / "steps.schema.json").read_bytes())
        sources = {path.name for path in EXAMPLE.iterdir() if path.is_file() and path.suffix != ".md"}
        self.assertEqual({path.name for path in (archive() / "emulator").iterdir() if path.is_file()}, sources)
        page = (archive() / "README.txt").read_text(encoding="utf-8")
        self.assertTrue(page.startswith("# Tests for emulators\n"))
        self.assertNotIn("](", page)
