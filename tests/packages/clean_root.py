"""The packages in a clean Debian: its root is made by debootstrap, and entered by chroot."""
import os
import pathlib
import re
import shutil
import sys
import tempfile
import unittest

import common
from common import DOCUMENTS, Page, answers_initialize, entries, image_of, named_documents, package, run, version

MIRROR = "http://deb.debian.org/debian"
TOOLS = {"debootstrap": "debootstrap", "lintian": "lintian"}
# What shows the manual pages, the completions, the page and the module.
BESIDE = ("python3", "man-db", "bash-completion", "zsh", "fish")
USER = "player"
PACKAGES = "root-packages"
# Where dpkg, apt and the manual's index keep what they know. All else has to be as it was before.
KEPT_BY_SYSTEM = ("var/lib/dpkg", "var/lib/apt", "var/log", "var/cache")
LONG = 1800
COMPLETIONS = (
    "/usr/share/bash-completion/completions/chipbench",
    "/usr/share/zsh/vendor-completions/_chipbench",
    "/usr/share/fish/vendor_completions.d/chipbench.fish",
)
MODULE_TRIAL = 'import chipbench; print(chipbench.Bench("CLS").image.hex())'

_folder = None
_base = None
_packages = None


def say(text):
    print(f"package-tests: {text}", file=sys.stderr, flush=True)


def install(*tools):
    """Installs those of these tools that are missing."""
    missing = [TOOLS[tool] for tool in tools if shutil.which(tool) is None]
    if missing:
        say(f"installing {' '.join(missing)}")
        run("apt-get", "update", timeout=LONG)
        run("apt-get", "install", "-y", "--no-install-recommends", *missing, timeout=LONG)


def bootstrap(suite, folder, packages=()):
    """Makes a root of this release of Debian, with its smallest system and some packages."""
    say(f"debootstrap makes a root of {suite}, which takes minutes")
    included = [f"--include={','.join(packages)}"] if packages else []
    run("debootstrap", "--variant=minbase", *included, suite, folder, MIRROR, timeout=LONG)


def in_root(path, *command, user=None):
    """The command in a root, as the user or as root."""
    identity = [f"--userspec={user}:{user}"] if user else []
    home = f"/home/{user}" if user else "/root"
    environment = [f"HOME={home}", "PATH=/usr/sbin:/usr/bin:/sbin:/bin", "LC_ALL=C.UTF-8", "TERM=dumb"]
    environment += ["DEBIAN_FRONTEND=noninteractive", "MANPAGER=cat"]
    return ["chroot", *identity, str(path), "env", "-i", *environment, *map(str, command)]


def prepare(suite, base, keep):
    """Makes the packages and the root that the tests copy."""
    global _folder, _base, _packages
    if os.geteuid() != 0:
        sys.exit("package-tests: the whole needs root, for chroot; --quick doesn't")
    install(*TOOLS)
    _folder = tempfile.TemporaryDirectory(prefix="chipbench-clean-")
    _packages = pathlib.Path(keep).resolve() if keep else pathlib.Path(_folder.name, "packages")
    package(_packages, common.chosen(), timeout=LONG)
    _base = pathlib.Path(base).resolve() if base else pathlib.Path(_folder.name, "base")
    if not base:
        bootstrap(suite, _base)


def debian_package():
    return f"chipbench_{version()}_amd64.deb"


def archive_name():
    return f"chipbench-{version()}-x86_64-linux"


class Root:
    """A root of its own, with the packages and a user."""

    def __init__(self, name, source):
        self.path = pathlib.Path(_folder.name, name)
        run("cp", "-a", "--reflink=auto", source, self.path, timeout=LONG)
        shutil.copy("/etc/resolv.conf", self.path / "etc/resolv.conf")
        shutil.copytree(_packages, self.path / "tmp" / PACKAGES, dirs_exist_ok=True)
        if not (self.path / "home" / USER).exists():
            self.run("useradd", "--create-home", "--shell", "/bin/bash", USER)

    def command(self, *command, user=None):
        """The command in this root, as the user or as root."""
        return in_root(self.path, *command, user=user)

    def run(self, *command, user=None, **options):
        return run(*self.command(*command, user=user), **options).decode()

    def shell(self, text, user=USER, **options):
        """Runs a line of the shell in the user's home."""
        return self.run("bash", "-c", f"cd && {text}", user=user, **options)

    def apt(self, *command):
        return self.run("apt-get", "-o", "APT::Sandbox::User=root", *command, timeout=LONG)

    def files(self):
        """Each path but those of the system's own records, with what tells a change."""
        found = {}
        for place, folders, names in os.walk(self.path):
            below = os.path.relpath(place, self.path)
            folders[:] = [name for name in folders if os.path.normpath(f"{below}/{name}") not in KEPT_BY_SYSTEM]
            for name in folders + names:
                stat = os.lstat(os.path.join(place, name))
                state = () if name in folders else (stat.st_size, stat.st_mtime_ns)
                found[os.path.normpath(f"{below}/{name}")] = (stat.st_mode, *state)
        return found

    def remove(self):
        shutil.rmtree(self.path, ignore_errors=True)


def assembles(test, root, program, examples):
    """The main job: the image of an example is that of its transcript."""
    root.shell(f"{program} asm {examples}/bounce.asm bounce.ch8", user=USER)
    test.assertEqual((root.path / "home" / USER / "bounce.ch8").read_bytes(), image_of("bounce"))
    root.shell(f"rm bounce.ch8 && {program} debug {examples}/bounce.asm < {examples}/bounce.script | cmp - {examples}/bounce.out")


class TestLintian(unittest.TestCase):
    def test_no_error_and_no_warning(self):
        found = run("lintian", "--allow-root", "--fail-on", "none", _packages / debian_package(), timeout=LONG)
        self.assertEqual([line for line in found.decode().splitlines() if line[:2] in ("E:", "W:")], [])


class TestBareRoot(unittest.TestCase):
    """A root with the C library and no Python."""

    def setUp(self):
        self.root = Root("bare", _base)
        self.addCleanup(self.root.remove)

    def test_the_program_needs_the_c_library_alone(self):
        before = self.root.files()
        self.root.run("dpkg", "--install", f"/tmp/{PACKAGES}/{debian_package()}")
        assembles(self, self.root, "chipbench", f"/usr/{DOCUMENTS}/examples")
        self.root.shell("chipbench-page --no-open", status=127)
        self.root.run("dpkg", "--purge", "chipbench")
        self.assertEqual(self.root.files(), before)


class TestRootWithPython(unittest.TestCase):
    """A root with what the page, the manual pages, the completions and the module need."""

    @classmethod
    def setUpClass(cls):
        cls.root = Root("beside", _base)
        cls.addClassCleanup(cls.root.remove)
        say(f"installing {' '.join(BESIDE)} there")
        cls.root.apt("update")
        cls.root.apt("install", "-y", "--no-install-recommends", *BESIDE)
        cls.root.shell("fish -c true")
        cls.before = cls.root.files()
        cls.root.apt("install", "-y", "--no-install-recommends", f"/tmp/{PACKAGES}/{debian_package()}")

    @classmethod
    def tearDownClass(cls):
        """The last test of this class: the removal leaves nothing."""
        cls.root.apt("purge", "-y", "chipbench")
        after = cls.root.files()
        left = sorted(path for path in after if path not in cls.before)
        gone = sorted(path for path in cls.before if path not in after)
        changed = sorted(path for path in after if path in cls.before and after[path] != cls.before[path])
        assert (left, gone, changed) == ([], [], []), (left, gone, changed)

    def test_assembles(self):
        assembles(self, self.root, "chipbench", f"/usr/{DOCUMENTS}/examples")

    def test_page_answers(self):
        command = self.root.command("chipbench-page", f"/usr/{DOCUMENTS}/examples/bounce.asm", user=USER)
        with Page(*command) as page:
            page.check(self)

    def test_manual_pages(self):
        for entry in entries("debian"):
            if entry.kind != "manual":
                continue
            name = pathlib.Path(entry.target).stem
            shown = self.root.shell(f"man {name}")
            self.assertIn(name, shown)
            documents = named_documents(self.root.shell(f"zcat $(man -w {name})"))
            self.assertNotEqual(documents, [])
            for document in documents:
                self.root.run("test", "-s", document)

    def test_each_command_is_told(self):
        """Each command of the program stands in its manual page, in the completions and in the document on its words."""
        commands = re.findall(r"(?m)^  ([a-z]+)  ", self.root.shell("chipbench --help").split("Commands:")[1])
        self.assertIn("trace", commands)
        manual = self.root.shell("zcat /usr/share/man/man1/chipbench.1.gz")
        formats = self.root.shell(f"cat /usr/{DOCUMENTS}/docs/FORMATS.md")
        completions = [self.root.shell(f"cat {place}") for place in COMPLETIONS]
        for command in set(commands) - {"help"}:
            self.assertIn(f".B {command}\n", manual)
            self.assertIn(f"`{command}", formats)
            for completion in completions:
                self.assertRegex(completion, rf"\b{command}\b")

    def test_named_documents_of_the_help_are_there(self):
        for document in named_documents(self.root.shell("chipbench debug --help")):
            self.root.run("test", "-s", f"/usr/{DOCUMENTS}/docs/{pathlib.Path(document).name}")

    def test_completion_of_bash(self):
        load = "{ _comp_load chipbench || _completion_loader chipbench; } 2>/dev/null"
        for words, wanted in (("as", "asm"), ("tr", "trace"), ("trace --ag", "--against")):
            ask = f'COMP_WORDS=(chipbench {words}) COMP_CWORD={len(words.split())}; _chipbench; echo "${{COMPREPLY[@]}}"'
            shown = self.root.shell(f". /usr/share/bash-completion/bash_completion; {load}; {ask}")
            self.assertEqual(shown.split(), [wanted])

    def test_completion_of_zsh(self):
        ask = "autoload -U compinit; compinit -u -D; print $_comps[chipbench]; autoload +X _chipbench && print loaded"
        self.assertEqual(self.root.shell(f"zsh -fc '{ask}'").split(), ["_chipbench", "loaded"])

    def test_completion_of_fish(self):
        for words, wanted in (("as", "asm"), ("tr", "trace"), ("trace --ag", "--against")):
            shown = self.root.shell(f"fish -c 'complete -C \"chipbench {words}\"'")
            self.assertEqual([line.split("\t")[0] for line in shown.splitlines()], [wanted])

    def test_python_module(self):
        self.assertEqual(self.root.shell(f"python3 -c '{MODULE_TRIAL}'").strip(), "00e0")
        # what root's Python keeps of the module has to go with it
        self.root.run("python3", "-c", "import chipbench")

    def test_language_server(self):
        # what root's Python keeps of the server's modules has to go with them
        for user in (USER, None):
            answers_initialize(self, *self.root.command("chipbench-lsp", user=user))

    def test_extension_for_vscode_is_linked_as_its_document_says(self):
        text = self.root.shell(f"cat /usr/{DOCUMENTS}/frontends/editors/README.md")
        [folder] = re.findall(r"(?m)^    (EDITORS=\S+) +# the Debian package$", text)
        commands = re.findall(r"(?m)^    ((?:mkdir|ln) .*)$", text)
        self.root.shell("\n".join([folder, *commands, "test -s ~/.vscode/extensions/chipbench/package.json", "rm -r ~/.vscode"]))

    def test_notices_are_those_of_the_repository(self):
        notices = (common.TOP / "THIRD-PARTY").read_text(encoding="utf-8")
        ask = "import html, served; text = served.served_files()['THIRD-PARTY'].read_text(encoding='utf-8'); print(text)"
        ask += "; assert text in html.unescape(served.content_of('game.html', {})[1].decode())"
        shown = self.root.shell(f'PYTHONPATH=/usr/share/chipbench/page python3 -B -c "{ask}"')
        self.assertEqual(shown, notices + "\n")

    def test_steps(self):
        self.root.shell("chipbench-steps --count 1 --instruction DXYN steps && test -s steps/DXYN.json && rm -r steps")


class TestEmulators(unittest.TestCase):
    """The tests for emulators in a root that has a C compiler, and no Python."""

    def test_an_emulator_in_c_is_tried(self):
        archive = common.TOP / "release" / "chipbench-steps.tar.xz"
        if not archive.is_file():
            self.skipTest("release/ has no tests for emulators")
        root = Root("emulators", _base)
        self.addCleanup(root.remove)
        root.apt("update")
        root.apt("install", "-y", "--no-install-recommends", "gcc", "libc6-dev", "xz-utils")
        shutil.copy(archive, root.path / "home" / USER)
        self.assertEqual(root.shell("command -v python3 || echo none"), "none\n")
        root.shell("tar xf chipbench-steps.tar.xz")
        compiled = "for what in steps words programs; do cc -std=c99 -o run_$what emulator/run_$what.c emulator/emulator.c; done"
        tried = "for files in */index.json; do in=${files%/*}; ./run_steps $in/*.txt; ./run_words $in/words.txt; ./run_programs $in/programs.txt; done"
        printed = root.shell(f"cd chipbench-steps && {compiled} && {tried}").splitlines()
        self.assertEqual(len(printed), 18)
        self.assertEqual([line for line in printed if not line.startswith("0 of ")], [])


class TestArchive(unittest.TestCase):
    """The archive in an empty folder of a user."""

    @classmethod
    def setUpClass(cls):
        cls.root = Root("archive", _base)
        cls.addClassCleanup(cls.root.remove)
        cls.root.apt("update")
        cls.root.apt("install", "-y", "--no-install-recommends", "python3", "man-db")
        cls.before = cls.root.files()
        cls.root.shell(f"mkdir empty && tar -xzf /tmp/{PACKAGES}/{archive_name()}.tar.gz -C empty")
        cls.top = f"/home/{USER}/empty/{archive_name()}"
        cls.root.shell(f"mkdir bin && ln -s {cls.top}/bin/* bin/")

    @classmethod
    def tearDownClass(cls):
        cls.root.shell("rm -r empty bin")
        assert cls.root.files() == cls.before

    def test_assembles(self):
        assembles(self, self.root, f"{self.top}/bin/chipbench", f"{self.top}/{DOCUMENTS}/examples")

    def test_page_answers_through_a_link(self):
        with Page(*self.root.command(f"/home/{USER}/bin/chipbench-page", user=USER)) as page:
            page.check(self)

    def test_manual_page(self):
        self.assertIn("chipbench", self.root.shell(f"man {self.top}/share/man/man1/chipbench.1"))
        for document in named_documents(self.root.shell(f"cat {self.top}/share/man/man1/chipbench.1")):
            self.root.run("test", "-s", f"{self.top}/{document}")

    def test_python_module(self):
        shown = self.root.shell(f"PYTHONPATH={self.top}/share/chipbench/python python3 -B -c '{MODULE_TRIAL}'")
        self.assertEqual(shown.strip(), "00e0")

    def test_language_server(self):
        answers_initialize(self, *self.root.command(f"/home/{USER}/bin/chipbench-lsp", user=USER))
