"""The page in a real browser: what an author does, and what the program itself says of it."""

from __future__ import annotations

import argparse
import shutil
import signal
import sys
import time
import traceback
from pathlib import Path

from browser_files import FileTests
from browser_kept import KeptTests
from browser_layout import LayoutTests
from browser_page import PROVED, TOP
from browser_play import PlayTests
from browser_random import RandomTests
from browser_run import RunTests
from browser_shape import ShapeTests
from browser_source import SourceTests
from browser_speed import SpeedTests
from browser_stale import StaleTests
from browser_typing import TypingTests
from browser_way import WayTests
from chromium import Chromium
from driver import Browser
from firefox import Firefox

BROWSERS = {"chromium": Chromium, "firefox": Firefox}


# Tests of files on the bridge, of its windows, its arguments and its end: the page in one file has none of these.
OF_THE_BRIDGE = {
    f"test_{name}"
    for name in (
        "reload", "save", "open_takes_the_title", "an_image", "save_as", "text_before_a_save", "a_file_that_changes_on_the_disk", "a_file_that_cannot_be_saved",
        "a_full_disk", "a_hundred_connections", "an_address_without_its_last_slash", "faulty_arguments", "the_file_that_a_browser_is_given", "texts_of_two_windows",
        "a_bridge_that_is_gone", "a_file_is_followed", "a_name_without_an_end",
        "a_text_of_another_folder_is_not_written_here", "a_file_that_is_deleted",
        "the_text_before_is_told_once", "notices_go",
    )
}  # fmt: skip


# Tests of what the page in one file alone has.
OF_ONE_FILE = {"test_files_without_a_bridge", "test_a_file_handle_is_kept"}


class Tests(SourceTests, TypingTests, RunTests, FileTests, ShapeTests, LayoutTests, PlayTests, SpeedTests, StaleTests, KeptTests, WayTests, RandomTests):
    """Each method whose name begins with `test_` is one test."""


def part_of(text: str) -> tuple[int, int]:
    first, step = map(int, text.split("/"))
    if not 1 <= first <= step:
        raise ValueError(text)
    return first, step


def main(arguments: list[str]) -> int:
    parser = argparse.ArgumentParser(prog="frontends/page/tests/browser")
    parser.add_argument("--program", default=str(PROVED), help="the chipbench to run (default: the proved one)")
    parser.add_argument("--browser", choices=sorted(BROWSERS), default="chromium", help="the browser (default: chromium)")
    parser.add_argument("--page", type=Path, default=TOP / "frontends/page", metavar="PATH", help="the folder of another page, or the page in one file, from disk")
    parser.add_argument("--patience", type=float, default=1.0, metavar="N", help="wait N times longer, on a busy machine (default: 1)")
    parser.add_argument("--pictures", type=Path, help="a folder for pictures to look at")
    parser.add_argument("--documents", type=Path, metavar="FOLDER", help="make the pictures of the examples there, and no test")
    parser.add_argument("--but", action="append", default=[], metavar="NAME", help="a part of the names of tests that aren't run")
    parser.add_argument("--part", type=part_of, default=(1, 1), metavar="K/N", help="every Nth test, from the Kth on")
    parser.add_argument("names", nargs="*", help="parts of the names of the tests to run (default: all)")
    words = parser.parse_args(arguments)
    if not Path(words.program).exists():
        print(f"frontends/page/tests/browser: there is no {words.program}: build it, or name one with --program", file=sys.stderr)
        return 2
    if words.pictures is not None:
        words.pictures.mkdir(parents=True, exist_ok=True)
    Browser.patience = words.patience
    # whoever stops the tests, as `timeout` does, has the browser end too
    signal.signal(signal.SIGTERM, lambda *_: sys.exit(143))
    tests = Tests(BROWSERS[words.browser](), words.program, words.page, words.pictures)
    try:
        if words.documents is not None:
            tests.make_documents(words.documents)
            return 0
        names = [name for name in dir(tests) if name.startswith("test_")]
        chosen = [name for name in names if not words.names or any(part in name for part in words.names)]
        left_out = OF_THE_BRIDGE if tests.is_one_file else OF_ONE_FILE
        chosen = [name for name in chosen if name not in left_out and not any(part in name for part in words.but)]
        first, step = words.part
        chosen = chosen[first - 1 :: step]
        results = [ran(tests, name) for name in chosen]
    finally:
        tests.browser.close()
        shutil.rmtree(tests.folder, ignore_errors=True)
    print(f"{results.count(True)} passed, {results.count(False)} failed")
    return 0 if all(results) else 1


def ran(tests: Tests, name: str) -> bool:
    """Runs a test in a folder of its own, and says how it went."""
    shutil.rmtree(tests.folder, ignore_errors=True)
    tests.folder.mkdir()
    began = time.monotonic()
    told = name.removeprefix("test_").replace("_", " ")
    try:
        getattr(tests, name)()
    except Exception:
        traceback.print_exc(limit=3)
        print(f"{told}: failed", flush=True)
        return False
    print(f"{told}: passed in {time.monotonic() - began:.1f} s", flush=True)
    return True


if __name__ == "__main__":
    sys.exit(main(sys.argv[1:]))
