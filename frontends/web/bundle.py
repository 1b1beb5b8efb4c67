"""Modules of the page as one script each, by Debian's package esbuild. The same modules and version give the same bytes."""

import os
import re
import shutil
import subprocess
import sys
import tempfile

HERE = os.path.dirname(os.path.abspath(__file__))
STATIC = os.path.join(os.path.dirname(HERE), "page", "static")
HOW = ["--minify", "--charset=utf8", "--log-level=warning"]


def version():
    """The version of esbuild, or nothing where it isn't installed."""
    if shutil.which("esbuild") is None:
        return ""
    return subprocess.run(["esbuild", "--version"], capture_output=True, text=True, check=True).stdout.strip()


def made(words, folder, text):
    """What esbuild makes of a text in a folder."""
    if not version():
        sys.exit("frontends/web: Debian's package esbuild isn't installed: apt-get install esbuild")
    done = subprocess.run(["esbuild", *HOW, *words], cwd=folder, input=text, capture_output=True, text=True, encoding="utf-8")
    if done.returncode != 0 or done.stderr:
        sys.exit(f"{done.stderr}frontends/web: esbuild made no script")
    if re.search("</script|</style|<!--", done.stdout, re.I):
        sys.exit("frontends/web: a module has a text that ends a script of HTML")
    return done.stdout.strip()


def script(entries, form):
    """These modules, one after another, and all that they import, as a script of a form: `esm` for one that waits, else `iife`. All
    modules of the page and of this folder lie in one folder then, as the bridge serves them."""
    with tempfile.TemporaryDirectory(prefix="chipbench-page-") as work:
        for folder in (STATIC, HERE):
            for name in os.listdir(folder):
                if name.endswith(".mjs"):
                    shutil.copy(os.path.join(folder, name), work)
        return made(["--bundle", f"--format={form}"], work, "".join(f"import './{name}';\n" for name in entries))


def style(name):
    """A style sheet of the page."""
    with open(os.path.join(STATIC, name), encoding="utf-8") as file:
        return made(["--loader=css"], STATIC, file.read())
