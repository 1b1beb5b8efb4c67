"""The quick tests: no network, no root, seconds."""
import base64
import email.utils
import fnmatch
import hashlib
import html
import json
import os
import pathlib
import re
import shutil
import subprocess
import sys
import tarfile
import tempfile
import unittest
import zipfile
import zlib
from xml.etree import ElementTree

from common import DOCUMENTS, STAND_IN, TOP, Page, answers_initialize, contents, dead_links, entries, image_of
from common import is_repository, named_documents, package, program, run, version

# The folders whose every file is either installed or left out by name.
LISTED_FOLDERS = ("docs", "examples", "frontends")
RECORD = "share/chipbench/INSTALLED"
# The kit's own libraries; parts of them follow works of others.
KIT_LIBRARIES = {"core", "io", "libc", "os", "std", "std_alloc", "std_collections", "std_heap", "std_io"}
PORTED_PARTS = {"core::dec2flt::": "fast-float2", "core::fmt::unicode::": "Unicode-data", "core::char::": "Unicode-data"}


def given():
    return program() or STAND_IN


def omitted():
    """The files and folders that the list leaves out."""
    lines = (TOP / "packaging/files").read_text(encoding="utf-8").splitlines()
    return [line.split()[1] for line in lines if line.startswith("omit ")]


def noted_names():
    """The works that packaging/copyright names."""
    text = (TOP / "packaging/copyright").read_text(encoding="utf-8")
    return {name for line in re.findall(r"^Files: (.*)", text, re.M) for name in line.split()} - {"*"}


def ported_crates(crate):
    """The crates of the kit that a crate of the repository stands on."""
    lines = (TOP / "crates.txt").read_text(encoding="utf-8").splitlines()
    rows = [line.partition(":") for line in lines if line and not line.startswith("#")]
    below = {name.split()[0]: rest.split() for name, _, rest in rows}
    found, waiting = set(), [crate]
    while waiting:
        name = waiting.pop()
        if name not in found:
            found.add(name)
            waiting += below.get(name, [])
    return found - set(below)


class TestList(unittest.TestCase):
    def test_every_file_is_installed_or_omitted(self):
        if not is_repository():
            self.skipTest("git does not know the commit")
        tracked = run("git", "-C", TOP, "ls-files", "--", *LISTED_FOLDERS).decode().split()
        listed = {entry.source for layout in ("plain", "debian") for entry in entries(layout)}
        left_out = omitted()
        missing = [
            path
            for path in tracked
            if path not in listed and not any(fnmatch.fnmatch(path, name) or path.startswith(name + "/") for name in left_out)
        ]
        self.assertEqual(missing, [])

    def test_no_file_is_listed_twice(self):
        for layout in ("plain", "debian"):
            targets = [entry.target for entry in entries(layout)]
            self.assertEqual(len(targets), len(set(targets)))

    def test_layouts_differ_in_places_alone(self):
        plain, debian = ({entry.source for entry in entries(layout) if entry.kind != "link"} for layout in ("plain", "debian"))
        self.assertEqual(plain, debian)

    def test_changelog_begins_with_the_version(self):
        first = (TOP / "packaging/changelog").read_text(encoding="utf-8").splitlines()[0]
        self.assertEqual(re.match(r"chipbench \((.*?)\) ", first).group(1), version())

    def check_manual(self, name, *command):
        """The manual page of a launcher has each option of its help."""
        manual = (TOP / f"packaging/{name}.1").read_text(encoding="utf-8").replace("\\-", "-")
        printed = run(sys.executable, "-B", *command, "--help").decode()
        for option in set(re.findall(r"--[a-z-]+", printed)):
            self.assertRegex(manual, rf"(?m)^\.B .*{option}\b")

    def test_manual_of_the_page_has_its_options(self):
        self.check_manual("chipbench-page", TOP / "frontends/page/bridge.py")

    def test_manual_of_the_shell_has_its_options(self):
        self.check_manual("chipbench-shell", TOP / "frontends/python/chipbench_shell")

    def test_manual_of_the_debug_adapter_has_its_options(self):
        self.check_manual("chipbench-dap", TOP / "frontends/python/chipbench_dap")

    def test_manual_of_the_steps_has_their_options(self):
        self.check_manual("chipbench-steps", TOP / "frontends/python/chipbench_steps")


class TestNotices(unittest.TestCase):
    """The licences of all that is linked with the program, or in its modules, and where their text goes."""

    def setUp(self):
        self.folder = pathlib.Path(tempfile.mkdtemp(prefix="chipbench-package-tests-"))
        self.addCleanup(shutil.rmtree, self.folder)
        self.notices = (TOP / "THIRD-PARTY").read_text(encoding="utf-8")

    def module(self, name):
        module = TOP / "release" / name
        if not module.is_file():
            self.skipTest(f"there is no release/{name}")
        return module

    def test_licence_is_that_of_the_repository(self):
        licence = (TOP / "LICENSE").read_text(encoding="utf-8").split("\n\n", 2)[2]
        self.assertIn(licence, self.notices)

    def test_copyright_names_the_crates(self):
        self.assertEqual((ported_crates("chipbench") | ported_crates("chip_web")) - KIT_LIBRARIES - noted_names(), set())

    def test_copyright_names_what_the_program_is_linked_with(self):
        if shutil.which("readelf") is None:
            self.skipTest("no command readelf")
        table = run("readelf", "--syms", "--wide", self.module("chipbench")).decode().splitlines()
        symbols = [fields[7] for fields in map(str.split, table) if len(fields) > 7 and fields[3] == "FUNC" and "::" in fields[7]]
        crates = {symbol.split("::")[0] for symbol in symbols}
        self.assertIn("clap", crates)
        self.assertEqual({crate for crate in crates if not crate.startswith("chip")} - KIT_LIBRARIES - noted_names(), set())
        within = {name for part, name in PORTED_PARTS.items() if any(symbol.startswith(part) for symbol in symbols)}
        self.assertEqual(within - noted_names(), set())

    def test_notices_name_each_work_with_its_holder(self):
        for name in noted_names():
            self.assertRegex(self.notices, rf"(?m)^(?:\S+, )?{name}\b.*\n    Copyright \(c\) \S")

    @unittest.skipIf(shutil.which("esbuild") is None, "no command esbuild")
    def test_notices_in_the_page(self):
        self.module("session.wasm"), self.module("chipbench.wasm")
        run(TOP / "frontends/web/page", self.folder / "page.html", TOP / "release")
        page = (self.folder / "page.html").read_text(encoding="utf-8")
        self.assertEqual(html.unescape(re.search(r'<pre id="licences-text"[^>]*>([^<]*)</pre>', page)[1]), self.notices)

    @unittest.skipIf(shutil.which("esbuild") is None, "no command esbuild")
    def test_modules_in_the_page(self):
        """The page has the bytes of both modules, in the size that it may have; so does the one for who hosts it."""
        self.module("session.wasm"), self.module("chipbench.wasm")
        run(TOP / "frontends/web/page", self.folder / "page.html", TOP / "release")
        run(TOP / "packaging/hosted-page", self.folder / "hosted.html")
        for name, most in (("page.html", 2_110_000), ("hosted.html", 1_400_000)):
            content = (self.folder / name).read_bytes()
            self.assertLessEqual(len(content), most)
            blocks = {found[1]: (found[2], found[3]) for found in re.finditer(r'<script type="application/[\w-]+" id="([\w-]+)"([^>]*)>([^<]*)</script>', content.decode())}
            bytes_of = {letter: byte for byte, letter in enumerate(json.loads(blocks["texts"][1])["alphabet"])}
            for block, file in (("session-module", "session.wasm"), ("chipbench-module", "chipbench.wasm")):
                form, text = blocks[block]
                found = zlib.decompress(base64.b64decode(text)) if "deflated" in form else bytes(map(bytes_of.get, text))
                self.assertEqual(found, self.module(file).read_bytes())

    def test_notices_in_an_exported_game(self):
        run(TOP / "frontends/web/game", TOP / "examples/bounce.asm", self.folder / "game.html", "--module", self.module("session.wasm"))
        game = (self.folder / "game.html").read_text(encoding="utf-8")
        self.assertEqual(html.unescape(re.search(r"<summary>Licences</summary><pre>([^<]*)</pre>", game)[1]), self.notices)

    def test_notices_in_the_package_for_node(self):
        run(TOP / "packaging/node-package", self.module("chipbench.wasm"), self.folder / "node.tgz")
        with tarfile.open(self.folder / "node.tgz") as archive:
            self.assertEqual(archive.extractfile("package/THIRD-PARTY").read().decode(), self.notices)
            names = set(json.load(archive.extractfile("package/package.json"))["files"])
            self.assertEqual({f"package/{name}" for name in names | {"package.json"}}, set(archive.getnames()) - {"package"})

    def test_notices_of_an_installed_page(self):
        run(TOP / "packaging/chipbench-install", self.folder / "prefix", "--program", given())
        share = self.folder / "prefix/share/chipbench"
        ask = "import html, served; print(served.served_files()['THIRD-PARTY'].read_text() in html.unescape(served.content_of('game.html', {})[1].decode()))"
        done = run(sys.executable, "-B", "-c", ask, env={"PYTHONPATH": str(share / "page")}, cwd="/")
        self.assertEqual(done.decode(), "True\n")


class TestRelease(unittest.TestCase):
    """The released program beside a copy of the sources: what the gate refuses, and what ./chipbench runs."""

    def setUp(self):
        if not (TOP / "release").is_dir():
            self.skipTest("there is no release/")
        self.top = pathlib.Path(tempfile.mkdtemp(prefix="chipbench-package-tests-"))
        self.addCleanup(shutil.rmtree, self.top)
        for folder in ("crates", "docs", "examples", "frontends/page", "frontends/python/chipbench_steps", "frontends/web", "packaging", "release"):
            shutil.copytree(TOP / folder, self.top / folder, ignore=shutil.ignore_patterns("out", "__pycache__"))
        for file in ("chipbench", "crates.txt", "HANDLES", "THIRD-PARTY"):
            shutil.copy(TOP / file, self.top)

    def check(self, status):
        return run(self.top / "packaging/release", "--check", status=status).decode()

    def change(self, name):
        """Turns the last bit of a file's last byte."""
        place = self.top / name
        content = place.read_bytes()
        place.write_bytes(content[:-1] + bytes([content[-1] ^ 1]))

    def test_is_of_these_sources(self):
        self.assertIn("1 passed, 0 failed", self.check(0))
        shutil.rmtree(self.top / "release")
        self.assertIn("1 passed, 0 failed", self.check(0))

    def test_a_changed_byte_is_refused(self):
        for name in ("chipbench", *self.modules(), *self.steps()):
            with self.subTest(name):
                self.change(f"release/{name}")
                self.assertIn("0 passed, 1 failed", self.check(1))
                self.change(f"release/{name}")
        self.assertIn("1 passed, 0 failed", self.check(0))

    def test_a_changed_source_is_refused(self):
        of_modules = ("frontends/web/heap.c", "frontends/web/carrier.mjs", "frontends/page/static/main.mjs", "examples/bounce.asm", "docs/MACHINE.md")
        of_steps = ("frontends/python/chipbench_steps/rows.py", "examples/emulator/run_steps.c", "docs/EMULATORS.md") if self.steps() else ()
        for name in ("crates/chip_pages/src/pages.rt", "crates/chip_web/src/lib.rt", *(of_modules if self.modules() else ()), *of_steps):
            with self.subTest(name):
                self.change(name)
                self.assertIn("0 passed, 1 failed", self.check(1))
                self.change(name)
        self.assertIn("1 passed, 0 failed", self.check(0))

    def modules(self):
        """The files of release/ that are WebAssembly or made of it."""
        return [name for name in ("session.wasm", "chipbench.wasm", "chipbench.html") if (self.top / "release" / name).exists()]

    def steps(self):
        """The archive of tests for emulators, where release/ has it."""
        return [path.name for path in (self.top / "release").glob("chipbench-steps.tar.xz")]

    def test_a_file_that_is_missing_is_refused(self):
        for name in (*self.modules(), *self.steps()):
            (self.top / "release" / name).rename(self.top / "away")
            self.assertIn("0 passed, 1 failed", self.check(1))
            (self.top / "away").rename(self.top / "release" / name)

    def build(self, **noted):
        """Has modules as frontends/web/build makes them: the released ones, and the note on them, but for what is given."""
        if not self.modules():
            self.skipTest("release/ has no modules")
        folder = self.top / "frontends/web/out"
        folder.mkdir()
        known = dict(line.split(": ", 1) for line in (self.top / "release/FROM").read_text(encoding="utf-8").splitlines()) | noted
        lines = [f"{name}: {known[name]}\n" for name in ("kit", "binaryen", "module-sources", "session.wasm", "chipbench.wasm")]
        (folder / "FROM").write_text("".join(lines), encoding="utf-8")
        for name in ("session.wasm", "chipbench.wasm"):
            shutil.copy(self.top / "release" / name, folder)

    def test_modules_that_are_built_to_other_bytes_are_refused(self):
        self.build()
        self.assertIn("the modules have the bytes that were proved and built here", self.check(0))
        self.change("frontends/web/out/session.wasm")
        self.assertIn("0 passed, 1 failed", self.check(1))

    def test_modules_of_another_binaryen_are_not_compared(self):
        self.build(binaryen="wasm-opt version 1")
        self.change("frontends/web/out/session.wasm")
        self.assertIn("weren't compared", self.check(0))

    def esbuild(self, version):
        """A folder of commands in which esbuild has another version."""
        tools = self.top / "esbuild-tools"
        tools.mkdir()
        (tools / "esbuild").write_text(f"#!/bin/sh\necho {version}\n", encoding="utf-8")
        (tools / "esbuild").chmod(0o755)
        return {**os.environ, "PATH": f"{tools}:{os.environ['PATH']}"}

    def test_a_page_of_another_esbuild_is_not_compared(self):
        if not self.modules():
            self.skipTest("release/ has no page")
        env = self.esbuild("9.9.9")
        self.assertIn("made it, and this is 9.9.9", run(self.top / "packaging/release", "--check", env=env).decode())
        self.change("frontends/page/static/style.css")
        said = run(self.top / "packaging/release", "--check", env=env, status=1).decode()
        self.assertIn("the page is of other sources", said)

    def test_a_page_that_is_built_to_other_bytes_is_refused(self):
        if not self.modules() or shutil.which("esbuild") is None:
            self.skipTest("release/ has no page, or there is no esbuild")
        note, page = self.top / "release/FROM", self.top / "release/chipbench.html"
        before = hashlib.sha256(page.read_bytes()).hexdigest()
        self.change("release/chipbench.html")
        note.write_text(note.read_text(encoding="utf-8").replace(before, hashlib.sha256(page.read_bytes()).hexdigest()), encoding="utf-8")
        self.assertIn("the page has other bytes", self.check(1))

    def test_without_esbuild_the_page_names_the_package(self):
        tools = self.top / "no-tools"
        tools.mkdir()
        done = subprocess.run([sys.executable, self.top / "frontends/web/page", self.top / "made.html"], env={"PATH": str(tools)}, capture_output=True, text=True)
        self.assertEqual((done.returncode, done.stderr), (1, "frontends/web: Debian's package esbuild isn't installed: apt-get install esbuild\n"))

    def first(self, **options):
        """The first run of ./chipbench without the toolchain, and what it said."""
        tools = self.top / "tools"
        tools.mkdir(exist_ok=True)
        for name in ("sh", "dirname", "readlink", "find", "sort", "xargs", "sha256sum", "sed", "mkdir", "install", "mv", "rm", "tail"):
            if not (tools / name).exists():
                (tools / name).symlink_to(shutil.which(name))
        done = subprocess.run([self.top / "chipbench", "--version"], env={"PATH": str(tools)}, capture_output=True, text=True, **options)
        return done.returncode, version() in done.stdout, done.stderr.count("\n")

    def test_a_fresh_clone_runs_it_and_says_so_once(self):
        self.assertEqual([self.first(), self.first()], [(0, True, 1), (0, True, 0)])
        self.assertEqual(run(self.top / "packaging/program").decode(), "released\n")

    def test_another_source_needs_the_toolchain(self):
        self.change("crates/chip_pages/src/pages.rt")
        self.assertEqual(self.first()[0], 127)

    def test_a_program_of_which_nothing_is_known_is_not_installed(self):
        self.first()
        self.change("crates/chipbench/out/chipbench")
        self.assertEqual(run(self.top / "packaging/program").decode(), "unknown\n")
        run(self.top / "packaging/find-program", status=1)


class TestInstall(unittest.TestCase):
    """An installation in a folder that has files of its own."""

    def setUp(self):
        self.folder = pathlib.Path(tempfile.mkdtemp(prefix="chipbench-package-tests-"))
        self.addCleanup(shutil.rmtree, self.folder)
        self.prefix = self.folder / "a prefix"
        (self.prefix / "share/man/man1").mkdir(parents=True)
        (self.prefix / "share/man/man1/other.1").write_text("other\n")
        (self.prefix / "empty").mkdir()
        self.before = contents(self.prefix)

    def install(self, *more, **options):
        return run(TOP / "packaging/chipbench-install", self.prefix, *more, **options)

    def installed(self):
        self.install("--program", given())
        return set(contents(self.prefix)) - set(self.before)

    def test_installs_what_is_listed_and_removes_it(self):
        targets = {entry.target for entry in entries("plain")}
        for _ in range(2):
            found = {path for path in self.installed() if not (self.prefix / path).is_dir()}
            self.assertEqual(found, targets | {RECORD})
        self.install("--uninstall")
        self.assertEqual(contents(self.prefix), self.before)
        self.install("--uninstall", status=1)

    def test_removes_what_python_made(self):
        self.installed()
        run(sys.executable, "-m", "compileall", "-q", self.prefix / "share/chipbench")
        self.install("--uninstall")
        self.assertEqual(contents(self.prefix), self.before)

    def test_keeps_files_of_others_in_its_folders(self):
        self.installed()
        own = self.prefix / "share/chipbench/editors/own.txt"
        own.write_text("own\n")
        self.install("--uninstall")
        self.assertEqual(own.read_text(encoding="utf-8"), "own\n")

    def test_a_new_prefix_is_removed_too(self):
        prefix = self.folder / "new"
        run(TOP / "packaging/chipbench-install", prefix, "--program", given())
        run(TOP / "packaging/chipbench-install", prefix, "--uninstall")
        self.assertFalse(prefix.exists())

    def test_modes(self):
        self.install("--program", given(), umask=0o077)
        for entry in entries("plain"):
            mode = (self.prefix / entry.target).stat().st_mode & 0o777
            self.assertEqual(mode, 0o755 if entry.kind in ("program", "script") else 0o644, entry)

    def test_faulty_arguments(self):
        for arguments in ([], ["--what"], ["a", "b"], ["a", "--program"]):
            run(TOP / "packaging/chipbench-install", *arguments, status=2)
        run(TOP / "packaging/chipbench-install", self.prefix, "--program", self.folder / "none", status=2)
        self.assertEqual(contents(self.prefix), self.before)

    def test_named_documents_are_there(self):
        prefix = self.folder / "with-a-dash"
        run(TOP / "packaging/chipbench-install", prefix, "--program", given())
        for manual in sorted((prefix / "share/man/man1").iterdir()):
            names = named_documents(manual.read_text(encoding="utf-8"))
            self.assertEqual([name for name in names if not os.path.isabs(name) or not os.path.isfile(name)], [], manual)
            self.assertNotEqual(names, [], manual)
        if program() is None:
            return
        printed = run(prefix / "bin/chipbench", "debug", "--help").decode()
        documents = prefix / DOCUMENTS / "docs"
        self.assertEqual([name for name in named_documents(printed) if not (documents / pathlib.Path(name).name).is_file()], [])

    def test_links_of_documents_are_there(self):
        self.installed()
        self.assertEqual(dead_links(self.prefix), [])


class TestReadmeOfEditors(unittest.TestCase):
    """The commands that link the extension for VS Code, as the README of the editors has them, each in a home of its own."""

    def setUp(self):
        self.folder = pathlib.Path(tempfile.mkdtemp(prefix="chipbench-package-tests-"))
        self.addCleanup(shutil.rmtree, self.folder)
        text = (TOP / "frontends/editors/README.md").read_text(encoding="utf-8")
        self.folders = re.findall(r"(?m)^    (EDITORS=.*?) +# (.*)$", text)
        self.commands = re.findall(r"(?m)^    ((?:mkdir|ln) .*)$", text)

    def link(self, which, top):
        """Runs the commands in a folder, twice, and gives the extension's settings as the link leads to them."""
        home = self.folder / "home"
        lines = [*(line for line, name in self.folders if name.startswith(which)), *self.commands, *self.commands]
        run("sh", "-euc", "\n".join(lines), cwd=top, env={"PATH": os.environ["PATH"], "HOME": str(home)})
        return json.loads((home / ".vscode/extensions/chipbench/package.json").read_text(encoding="utf-8"))["name"]

    def test_of_a_clone(self):
        self.assertEqual(self.link("a clone", TOP), "chipbench")

    def test_of_the_archive_and_an_installation(self):
        for which, prefix in (("the archive", self.folder / "archive"), ("packaging/chipbench-install", self.folder / "home/.local")):
            with self.subTest(which):
                run(TOP / "packaging/chipbench-install", prefix, "--program", given())
                self.assertEqual(self.link(which, prefix), "chipbench")
                shutil.rmtree(prefix)

    def test_of_the_debian_package(self):
        [line] = [line for line, name in self.folders if name.startswith("the Debian package")]
        targets = {f"/usr/{entry.target}" for entry in entries("debian")}
        self.assertIn(f"{line.removeprefix('EDITORS=')}/vscode/package.json", targets)


class TestLaunchers(unittest.TestCase):
    """The launchers of an installation and of the repository, by way of links."""

    @classmethod
    def setUpClass(cls):
        if program() is None:
            raise unittest.SkipTest("no program is built")
        cls.folder = pathlib.Path(tempfile.mkdtemp(prefix="chipbench-package-tests-"))
        cls.addClassCleanup(shutil.rmtree, cls.folder)
        run(TOP / "packaging/chipbench-install", cls.folder / "prefix", "--program", program())

    def link(self, target):
        """A link to a link: the first is relative."""
        folder = pathlib.Path(tempfile.mkdtemp(dir=self.folder))
        first, last = folder / "first", folder / "links/last"
        first.symlink_to(os.path.relpath(target, folder))
        last.parent.mkdir()
        last.symlink_to(first)
        return last

    def test_program_assembles(self):
        image = self.folder / "bounce.ch8"
        run(self.link(self.folder / "prefix/bin/chipbench"), "asm", TOP / "examples/bounce.asm", image)
        self.assertEqual(image.read_bytes(), image_of("bounce"))

    def test_page_answers(self):
        launcher = self.link(self.folder / "prefix/bin/chipbench-page")
        with Page(launcher, TOP / "examples/bounce.asm", cwd="/") as page:
            page.check(self)

    def test_page_of_the_repository_answers(self):
        launcher = self.link(TOP / "packaging/chipbench-page")
        with Page(launcher, cwd="/") as page:
            page.check(self)

    def test_language_server_answers(self):
        answers_initialize(self, self.link(self.folder / "prefix/bin/chipbench-lsp"))

    def test_steps_are_written_and_agree(self):
        made, examples = self.folder / "steps", self.folder / "prefix" / DOCUMENTS / "examples"
        run(self.link(self.folder / "prefix/bin/chipbench-steps"), "--count", "2", "--programs", "1", made, cwd="/")
        printed = [run(sys.executable, "-B", examples / f"emulator/run_{what}.py", made).decode() for what in ("steps", "programs")]
        self.assertEqual(printed, ["schip: 0 of 90 cases differ\n", "schip: 0 of 1 programs differ\n"])

    def test_shell_answers(self):
        """The installed shell takes the program that was installed with it."""
        environment = {name: value for name, value in os.environ.items() if name != "CHIPBENCH"}
        shell = [self.link(self.folder / "prefix/bin/chipbench-shell"), "--quiet", TOP / "examples/bounce.asm"]
        done = subprocess.run(shell, input=b"image\n", capture_output=True, cwd="/", env=environment)
        self.assertEqual((done.returncode, done.stdout.decode().strip()), (0, image_of("bounce").hex()))

    def test_page_says_that_python_is_missing(self):
        tools = self.folder / "tools"
        tools.mkdir()
        for name in ("sh", "dirname", "readlink"):
            (tools / name).symlink_to(shutil.which(name))
        done = subprocess.run([self.folder / "prefix/bin/chipbench-page"], env={"PATH": str(tools)}, capture_output=True)
        self.assertEqual((done.returncode, b"python3" in done.stderr), (127, True))


def set_writable(top, is_writable):
    """Lets everybody write below a folder, or nobody."""
    for place, folders, files in os.walk(top):
        for path in [place, *(os.path.join(place, name) for name in folders + files)]:
            mode = os.lstat(path).st_mode
            if not os.path.islink(path):
                os.chmod(path, mode | 0o200 if is_writable else mode & ~0o222)


class TestMakingPackages(unittest.TestCase):
    """chipbench-package in an unpacked download, which nobody may write, below a repository of something else."""

    @classmethod
    def setUpClass(cls):
        missing = [tool for tool in ("dpkg-deb", "strip", "readelf", "git") if shutil.which(tool) is None]
        if missing:
            raise unittest.SkipTest(f"no command {missing[0]}")
        cls.folder = pathlib.Path(tempfile.mkdtemp(prefix="chipbench-package-tests-"))
        cls.addClassCleanup(shutil.rmtree, cls.folder)
        cls.folder.chmod(0o755)
        run("git", "init", "--quiet", cls.folder)
        (cls.folder / "home").mkdir()
        (cls.folder / "home").chmod(0o777)
        run("git", "-C", cls.folder, "-c", "user.name=a", "-c", "user.email=a@b", "commit", "--quiet", "--allow-empty", "--message", "other")
        cls.top = cls.folder / "download"
        shutil.copytree(TOP, cls.top, symlinks=True, ignore=shutil.ignore_patterns(".git", "out", "__pycache__"))
        shutil.copy(given(), cls.folder / "program")
        set_writable(cls.top, False)
        cls.addClassCleanup(set_writable, cls.top, True)

    def make(self, *more, **options):
        """How chipbench-package ends for a user who isn't root, and what it says."""
        user = {"user": 65534, "group": 65534, "extra_groups": []} if os.geteuid() == 0 else {}
        environment = {"PATH": os.environ["PATH"], "HOME": str(self.folder / "home"), **options}
        command = [self.top / "packaging/chipbench-package", "--program", self.folder / "program", *more]
        done = subprocess.run(command, env=environment, stdin=subprocess.DEVNULL, capture_output=True, text=True, timeout=600, **user)
        return done.returncode, done.stdout, done.stderr

    def tools_without(self, *names):
        """A folder for the PATH with all commands but some."""
        tools = pathlib.Path(tempfile.mkdtemp(dir=self.folder))
        tools.chmod(0o755)
        for folder in map(pathlib.Path, reversed(os.environ["PATH"].split(os.pathsep))):
            # a user who isn't root can't enter each folder
            is_open = folder.is_dir() and all(place.stat().st_mode & 0o001 for place in (folder, *folder.parents))
            for path in folder.glob("*") if is_open else ():
                if path.name not in names:
                    (tools / path.name).unlink(missing_ok=True)
                    (tools / path.name).symlink_to(path)
        return str(tools)

    def test_the_commit_of_a_clone_of_another_user(self):
        if os.geteuid() != 0:
            self.skipTest("only root makes a clone of another user")
        clone = self.folder / "clone"
        (clone / "packaging").mkdir(parents=True)
        commit = pathlib.Path(shutil.copy(TOP / "packaging/commit", clone / "packaging"))
        run("git", "init", "--quiet", clone)
        run("git", "-C", clone, "add", ".")
        run("git", "-C", clone, "-c", "user.name=a", "-c", "user.email=a@b", "commit", "--quiet", "--message", "first")
        named = run("git", "-C", clone, "rev-parse", "HEAD")
        stranger = {"user": 65534, "group": 65534, "extra_groups": [], "env": {"PATH": os.environ["PATH"], "HOME": str(self.folder / "home")}}
        self.assertEqual(run(commit, **stranger), named)
        run(commit, "--changed", status=1, **stranger)
        commit.write_text(commit.read_text(encoding="utf-8") + "# changed\n", encoding="utf-8")
        run(commit, "--changed", "packaging", status=0, **stranger)
        run(commit, "--changed", "crates", status=1, **stranger)

    def test_a_missing_command_is_named_with_its_package(self):
        tools = self.tools_without("strip")
        refused = (1, "", "chipbench-package: not on the PATH: strip. On Debian run: sudo apt install binutils\n")
        self.assertEqual(self.make(PATH=tools), refused)
        tools = self.tools_without("dpkg-deb", "gzip", "strip", "readelf")
        named = "not on the PATH: strip, readelf, dpkg-deb, gzip. On Debian run: sudo apt install binutils dpkg gzip\n"
        self.assertEqual(self.make(PATH=tools), (1, "", f"chipbench-package: {named}"))

    def test_a_folder_that_cannot_be_written_is_named_first(self):
        status, _, said = self.make()
        self.assertEqual((status, said.count("\n")), (1, 1))
        self.assertIn(f"{self.top} can't be written", said)
        self.assertIn("--to FOLDER", said)
        status, _, said = self.make("--to", self.folder / "program")
        self.assertEqual((status, "is not a folder" in said), (1, True))

    def test_a_file_that_is_not_there_is_named(self):
        for option in ("program", "module"):
            name = self.folder / "no folder" / option
            status, _, said = self.make(f"--{option}", name, "--to", self.folder / "home/none")
            self.assertEqual((status, said), (1, f"chipbench-package: there is no {option} {name}: name a file by --{option} FILE\n"))
        for arguments in (["--what"], ["--to"], ["more"]):
            self.assertEqual(self.make(*arguments)[0], 2)

    def test_packages_of_a_download(self):
        made = self.folder / "home/made"
        status, printed, said = self.make("--to", made)
        if "needs the C library" in said:
            self.skipTest(f"no program is built, and {STAND_IN} needs a later C library")
        self.assertEqual((status, said), (0, ""))
        self.assertIn("commit: unknown\n", printed)
        top = f"chipbench-{version()}-x86_64-linux"
        with tarfile.open(made / f"{top}.tar.gz") as archive:
            files = {member.name for member in archive.getmembers() if not member.isdir()}
            times = {member.mtime for member in archive.getmembers()}
        self.assertEqual(files, {f"{top}/{entry.target}" for entry in entries("plain")})
        date = re.search(r"(?m)^ -- .*>  (.*)$", (TOP / "packaging/changelog").read_text(encoding="utf-8"))[1]
        self.assertEqual(times, {int(email.utils.parsedate_to_datetime(date).timestamp())})
        self.assertTrue((made / f"chipbench_{version()}_amd64.deb").is_file())

    def test_an_installation_of_a_download_names_no_commit_of_another_repository(self):
        prefix = self.folder / "prefix"
        run(self.top / "packaging/chipbench-install", prefix, "--program", self.folder / "program")
        self.assertIn("commit: unknown\n", (prefix / DOCUMENTS / "BUILD").read_text(encoding="utf-8"))


class TestPackages(unittest.TestCase):
    """The packages of the commit, made twice."""

    @classmethod
    def setUpClass(cls):
        missing = [tool for tool in ("dpkg-deb", "strip", "readelf") if shutil.which(tool) is None]
        if missing or not is_repository():
            raise unittest.SkipTest(f"no command {missing[0]}" if missing else "git does not know the commit")
        cls.folder = pathlib.Path(tempfile.mkdtemp(prefix="chipbench-package-tests-"))
        cls.addClassCleanup(shutil.rmtree, cls.folder)
        try:
            cls.printed = package(cls.folder / "one", given())
        except AssertionError as error:
            if program() is None and "needs the C library" in str(error):
                raise unittest.SkipTest(f"no program is built, and {STAND_IN} needs a later C library") from None
            raise

    def archive(self):
        return tarfile.open(self.folder / f"one/chipbench-{version()}-x86_64-linux.tar.gz")

    def test_the_same_bytes_twice(self):
        there = self.folder / "elsewhere"
        there.mkdir()
        environment = {**os.environ, "TMPDIR": str(there), "TZ": "Asia/Tokyo", "LC_ALL": "C.UTF-8", "SOURCE_DATE_EPOCH": "1"}
        package(self.folder / "two", given(), umask=0o077, env=environment, cwd=there)
        self.assertEqual(contents(self.folder / "one"), contents(self.folder / "two"))

    def test_checksums(self):
        names = set(contents(self.folder / "one"))
        packages = {f"chipbench_{version()}_amd64.deb", f"chipbench-{version()}-x86_64-linux.tar.gz", f"chipbench-{version()}.vsix"}
        if (pathlib.Path(TOP) / "release/chipbench.wasm").exists():
            packages.add(f"chipbench-{version()}-node.tgz")
        self.assertEqual(names, {*packages, "SHA256SUMS"})
        checked = run("sha256sum", "--check", "SHA256SUMS", cwd=self.folder / "one").decode()
        self.assertEqual(sorted(checked.splitlines()), sorted(f"{name}: OK" for name in packages))

    def test_the_extension_has_what_its_manifest_names(self):
        with zipfile.ZipFile(self.folder / f"one/chipbench-{version()}.vsix") as archive:
            archive.extractall(self.folder / "extension")
            names = set(archive.namelist())
        manifest = ElementTree.parse(self.folder / "extension/extension.vsixmanifest").getroot()
        paths = {element.get("Path") for element in manifest.iter() if element.get("Path")}
        self.assertEqual(paths - names, set())
        made = json.loads((self.folder / "extension/extension/package.json").read_text(encoding="utf-8"))
        self.assertEqual(made["version"], version() + ".0")
        self.assertEqual({f"extension/{made[name].removeprefix('./')}" for name in ("main", "icon")} - names, set())
        kinds = (self.folder / "extension/[Content_Types].xml").read_text(encoding="utf-8")
        for name in names - {"[Content_Types].xml"}:
            self.assertIn(f'"{pathlib.Path(name).suffix or "/" + name}"', kinds)

    def test_the_extension_has_its_programs(self):
        with zipfile.ZipFile(self.folder / f"one/chipbench-{version()}.vsix") as archive:
            archive.extractall(self.folder / "unpacked")
        python = self.folder / "unpacked/extension/chipbench/python"
        answers_initialize(self, sys.executable, "-B", python / "chipbench_lsp")
        request = b'{"seq":1,"type":"request","command":"initialize","arguments":{"adapterID":"chipbench"}}'
        message = b"Content-Length: %d\r\n\r\n%s" % (len(request), request)
        done = subprocess.run([sys.executable, "-B", python / "chipbench_dap"], input=message, capture_output=True, timeout=60)
        self.assertIn(b"supportsStepBack", done.stdout, done.stderr)

    def test_entries_of_the_archive(self):
        time = int(run("git", "-C", TOP, "log", "-1", "--format=%ct"))
        top = f"chipbench-{version()}-x86_64-linux"
        with self.archive() as archive:
            members = archive.getmembers()
        owners = {(member.mtime, member.uid, member.gid, member.uname, member.gname) for member in members}
        self.assertEqual(owners, {(time, 0, 0, "", "")})
        self.assertEqual({member.mode for member in members}, {0o755, 0o644})
        files = {member.name for member in members if not member.isdir()}
        self.assertEqual(files, {f"{top}/{entry.target}" for entry in entries("plain")})

    def test_entries_of_the_debian_package(self):
        listed = run("dpkg-deb", "--fsys-tarfile", self.folder / f"one/chipbench_{version()}_amd64.deb")
        (self.folder / "data.tar").write_bytes(listed)
        with tarfile.open(self.folder / "data.tar") as archive:
            members = archive.getmembers()
        self.assertEqual({(member.uid, member.gid) for member in members}, {(0, 0)})
        files = {member.name for member in members if not member.isdir()}
        compressed = re.compile(r"share/man/|share/doc/chipbench/changelog$")
        targets = {entry.target + (".gz" if compressed.match(entry.target) else "") for entry in entries("debian")}
        self.assertEqual(files, {f"./usr/{target}" for target in targets})

    def test_links_of_documents_of_the_debian_package(self):
        run("dpkg-deb", "--extract", self.folder / f"one/chipbench_{version()}_amd64.deb", self.folder / "extracted")
        self.assertEqual(dead_links(self.folder / "extracted"), [])

    def test_control_names_each_profile(self):
        control = run("dpkg-deb", "--field", self.folder / f"one/chipbench_{version()}_amd64.deb", "Description").decode()
        table = re.search(r"(?m)^\| Quirk \|(.*)\|$", (TOP / "docs/MACHINE.md").read_text(encoding="utf-8"))[1]
        self.assertEqual(re.findall(r"`([\w-]+)`", table), re.findall(r"\(((?!chipbench)[a-z0-9-]+)\)", control))

    def test_note(self):
        commit = run("git", "-C", TOP, "rev-parse", "HEAD").decode().strip()
        with self.archive() as archive:
            top = f"chipbench-{version()}-x86_64-linux"
            note = archive.extractfile(f"{top}/{DOCUMENTS}/BUILD").read().decode()
        self.assertIn(f"commit: {commit}\n", note)
        self.assertIn("handed over", note)
        self.assertIn(f"commit: {commit}\n", self.printed)

    def test_a_program_with_other_libraries_is_refused(self):
        needed = run("readelf", "-d", sys.executable).decode().count("(NEEDED)")
        if needed < 2:
            self.skipTest("no program with other libraries is known here")
        run(TOP / "packaging/chipbench-package", "--program", sys.executable, "--to", self.folder / "three", status=1)
        self.assertFalse((self.folder / "three").exists())
