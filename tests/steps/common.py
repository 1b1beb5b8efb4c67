"""The files that the tests of chipbench-steps look at: some cases of each row under two profiles, made once, and those of the
archive in release/, which has all profiles."""
import concurrent.futures
import functools
import json
import os
import pathlib
import shutil
import subprocess
import sys
import tarfile
import tempfile

TOP = pathlib.Path(__file__).resolve().parents[2]
sys.path.insert(0, str(TOP / "tests"))

from runner.programs import HANG_SECONDS  # noqa: E402

STEPS = TOP / "packaging" / "chipbench-steps"
EXAMPLE = TOP / "examples" / "emulator"
BUILT = TOP / "crates" / "chipbench" / "out" / "chipbench"
PROGRAM = pathlib.Path(os.environ.get("CHIPBENCH") or BUILT).absolute()
ARCHIVE = TOP / "release" / "chipbench-steps.tar.xz"
PROFILES = ("schip", "vip")
IS_ALL = bool(os.environ.get("STEPS_ALL"))
COUNT = 100 if IS_ALL else 30
# one of each kind
PROGRAMS = 10


def compiler():
    """The C compiler, or None."""
    return shutil.which("cc") or shutil.which("gcc")


def run(*words, status=0, **options):
    """Runs a command that has to end with a status, and returns what it printed."""
    done = subprocess.run([str(word) for word in words], capture_output=True, text=True, timeout=HANG_SECONDS, **options)
    if done.returncode != status:
        raise AssertionError(f"{words}: status {done.returncode}, not {status}\n{done.stdout}{done.stderr}")
    return done.stdout + done.stderr


def steps(*words, status=0):
    """Runs chipbench-steps with the program that is tested."""
    return run(STEPS, "--program", PROGRAM, *words, status=status)


@functools.cache
def work():
    """A folder of these tests, which `end` removes."""
    return pathlib.Path(tempfile.mkdtemp(prefix="chipbench-steps-tests-"))


def end():
    shutil.rmtree(work(), ignore_errors=True)


def folder(profile):
    return folders()[profile]


@functools.cache
def folders():
    """The folder of each profile, with the files of all rows and some programs."""
    made = {profile: work() / profile for profile in PROFILES}
    with concurrent.futures.ThreadPoolExecutor() as both:
        options = ("--count", COUNT, "--programs", PROGRAMS, "--format", "both")
        list(both.map(lambda name: steps("--profile", name, *options, made[name]), PROFILES))
    return made


@functools.cache
def archive():
    """The folder of the archive in release/."""
    with tarfile.open(ARCHIVE) as found:
        found.extractall(work(), filter="data") if hasattr(tarfile, "data_filter") else found.extractall(work())
    return work() / "chipbench-steps"


@functools.cache
def index(profile):
    return json.loads((folder(profile) / "index.json").read_text())


@functools.cache
def cases(profile, row):
    return json.loads((folder(profile) / f"{row}.json").read_text())


def all_cases(profile):
    for listed in index(profile)["files"]:
        yield from cases(profile, listed["row"])


@functools.cache
def programs(profile):
    return json.loads((folder(profile) / "programs.json").read_text())


def python(*words, **options):
    return run(sys.executable, "-B", *words, **options)
