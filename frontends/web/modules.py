"""The WebAssembly modules: from the LLVM code that the kit makes of a crate to a module whose memory has 32 bits.

Of the steps only the first is the kit's own. `retarget` makes its code, which is for x86-64, code for WebAssembly with 64 bits: both
have pointers of 64 bits, and the code has no assembly. The kit's clang and lld compile and link it with the heap and what else the
module needs. Debian's binaryen lowers its memory to 32 bits, so that it runs wherever WebAssembly runs.
"""

import importlib.machinery
import importlib.util
import os
import re
import shutil
import subprocess
import tempfile

HERE = os.path.dirname(os.path.abspath(__file__))
TOP = os.path.dirname(os.path.dirname(HERE))
LAYOUT = "e-m:e-p:64:64-p10:8:8-p20:8:8-i64:64-i128:128-n32:64-S128-ni:1:10:20"
TARGET = "wasm64-unknown-unknown"
X86_TARGET = "--target=x86_64-unknown-linux-gnu"
# attributes of functions for x86-64 alone
X86_ALONE = re.compile(r' "(?:probe-stack|stack-probe-size|target-cpu|frame-pointer)"="[^"]*"| sanitize_address')
FEATURES = ["memory64", "bulk-memory", "sign-ext", "nontrapping-float-to-int", "mutable-globals", "multivalue"]
STACK_BYTES = 1 << 20
PARTS_BYTES = 16 << 20

# The std's equality of two slices of bytes with the same length, which equality.c takes the place of.
STD_EQUAL = "@\"core::cmp::slices::groups_equal::<i8,31'core::cmp::numbers::U8PartialEq{}>\"("
WORDS_EQUAL = "@bytes_equal("
WORDS_EQUAL_DECLARED = "declare zeroext i1 @bytes_equal(ptr, i64, ptr, i64)\n"

# what each module exports, and the crate that it is made of
SESSION = ("chip_web", ["session_open", "session_answer", "session_read", "session_close"])
PROGRAM = ("chipbench", ["main"])
# what the program may ask of a system
SYSTEM = [f"--allow-undefined-file={HERE}/system.txt"]
# for the host: memory for what it passes
HOST_EXPORTS = ["host_alloc", "host_free"]

# The kit compiles a small module of its own, too.
KEEPING_CLANG = """#!/bin/sh
if [ -f module.bc ] && [ "$(stat -c %s module.bc)" -gt 100000 ]; then cp module.bc {work}/module.bc; fi
exec {clang} "$@"
"""


def kit():
    """The folder of the kit."""
    rt = shutil.which("rt")
    if rt is None:
        raise SystemExit("frontends/web/build: the toolchain's command rt isn't on the PATH")
    return os.path.dirname(os.path.dirname(os.path.realpath(rt)))


def unproved_tools():
    """tools/unproved, as a module of Python."""
    loader = importlib.machinery.SourceFileLoader("unproved", f"{TOP}/tools/unproved")
    module = importlib.util.module_from_spec(importlib.util.spec_from_loader("unproved", loader))
    loader.exec_module(module)
    return module


def exported(line, crate, names):
    """A line of a module in which the functions of an unproved crate have the names of exports."""
    for name in names:
        inner = f'@"{crate}::{name}"'
        if inner in line:
            line = line.replace(inner, f"@{name}")
            if line.startswith("define"):
                line = line.replace("define internal", "define", 1)
    return line


def retarget(source, target, change=lambda line: line):
    """Writes a module for x86-64 as one for WebAssembly, each line changed first. Slices of bytes are compared by words there; the number
    of calls that do so is returned."""
    replaced = 0
    with open(source, encoding="utf-8") as lines, open(target, "w", encoding="utf-8") as out:
        for line in lines:
            if line.startswith("target datalayout"):
                line = f'target datalayout = "{LAYOUT}"\n'
            elif line.startswith("target triple"):
                line = f'target triple = "{TARGET}"\n'
            else:
                line = change(line)
                if line.startswith("attributes #"):
                    line = X86_ALONE.sub("", line)
                elif STD_EQUAL in line and " call " in line:
                    line = line.replace(STD_EQUAL, WORDS_EQUAL)
                    replaced += 1
            out.write(line)
        out.write(WORDS_EQUAL_DECLARED)
    return replaced


def compile_module(module, out, exports, change=lambda line: line):
    """Makes a WebAssembly module of an LLVM module for x86-64."""
    with tempfile.TemporaryDirectory(prefix="chipbench-web-") as work:
        text = ["-S", "-emit-llvm", "-O0", "-Xclang", "-disable-llvm-passes", "-x", "ir"]
        subprocess.run([f"{kit()}/toolchain/bin/clang", X86_TARGET, *text, module, "-o", f"{work}/x86.ll"], check=True)
        if retarget(f"{work}/x86.ll", f"{work}/module.ll", change) == 0 and exports == PROGRAM[1]:
            raise SystemExit("frontends/web/build: the std compares slices of bytes in another way than STD_EQUAL in modules.py says")
        files = [f"{work}/module.ll", f"{HERE}/calls.ll", *(f"{HERE}/{name}.c" for name in ("heap", "wide", "equality", "processor"))]
        link(work, objects_of(files, work), [*exports, *HOST_EXPORTS], SYSTEM if exports == PROGRAM[1] else [])
        lower(f"{work}/wide.wasm", out)


def objects_of(files, work):
    """Compiles files of C and of LLVM for WebAssembly."""
    how = [f"--target={TARGET}", "-mcpu=lime1", "-O3", "-ffunction-sections", "-fdata-sections", "-Wno-override-module", "-c"]
    objects = []
    for number, file in enumerate(files):
        objects.append(f"{work}/{number}.o")
        kind = ["-ffreestanding", "-fno-builtin", "-Wall", "-x", "c"] if file.endswith(".c") else ["-x", "ir"]
        subprocess.run([f"{kit()}/toolchain/bin/clang", *how, *kind, file, "-o", objects[-1]], check=True)
    return objects


def link(work, objects, exports, more):
    """Links objects to work/wide.wasm. The stack comes first, so that one that overflows is a trap and overwrites nothing."""
    if not os.path.exists(f"{work}/wasm-ld"):
        os.symlink(f"{kit()}/toolchain/bin/clang", f"{work}/wasm-ld")
    what = [f"--export={name}" for name in exports]
    how = ["-mwasm64", "--no-entry", "--gc-sections", "--stack-first", "-z", f"stack-size={STACK_BYTES}", "--strip-all", "-O3"]
    subprocess.run([f"{work}/wasm-ld", *how, *what, *more, "-o", f"{work}/wide.wasm", *objects], check=True)


def parts(out):
    """The heap, the wide numbers and the equality of bytes alone, for tests, in a memory that may not grow far."""
    calls = re.findall(r"^(?:void|wide|signed_wide) \*?(\w+)\(half", open(f"{HERE}/tests/wide_calls.c", encoding="utf-8").read(), re.M)
    with tempfile.TemporaryDirectory(prefix="chipbench-web-") as work:
        objects = objects_of([*(f"{HERE}/{name}.c" for name in ("heap", "wide", "equality")), f"{HERE}/tests/wide_calls.c"], work)
        link(work, objects, ["malloc", "free", "realloc", "bytes_equal", "__heap_base", *calls], [f"--max-memory={PARTS_BYTES}"])
        lower(f"{work}/wide.wasm", out)


def lower(wide, out):
    """Lowers a module's memory to 32 bits."""
    features = [f"--enable-{name}" for name in FEATURES]
    subprocess.run(["wasm-opt", "--memory64-lowering", "-O3", *features, wide, "-o", out], check=True)


def unproved_program(out):
    """The whole program of code that isn't proved, as tools/unproved makes it."""
    tools = unproved_tools()
    found = tools.hints()
    with tempfile.TemporaryDirectory(prefix="chipbench-web-") as work:
        compile_module(tools.module_of(kit(), work), out, PROGRAM[1], lambda line: tools.without_checks(line, found))


def copied_tree(work):
    """The crates in a folder of their own, so that what is built of them stays as it is."""
    tree = f"{work}/tree"
    shutil.copytree(f"{TOP}/crates", f"{tree}/crates", ignore=shutil.ignore_patterns("out"))
    for name in ("crates.txt", "HANDLES"):
        shutil.copy(f"{TOP}/{name}", tree)
    return tree


def unproved_session(out):
    """The session of code that isn't proved. `rt try` builds tests, so a test there calls each export."""
    crate, exports = SESSION
    tools = unproved_tools()
    found = tools.hints()
    with tempfile.TemporaryDirectory(prefix="chipbench-web-") as work:
        folder = f"{copied_tree(work)}/crates/{crate}"
        with open(f"{HERE}/exports-test.txt", encoding="utf-8") as test, open(f"{folder}/src/lib.rt", "a", encoding="utf-8") as library:
            library.write(test.read())
        module = tools.module_of(kit(), work, folder, ("--test",))
        compile_module(module, out, exports, lambda line: exported(tools.without_checks(line, found), crate, exports))


def toolchain_that_keeps(work):
    """The kit's toolchain, but for a clang that keeps the module that it is given last, in the working folder."""
    tools = unproved_tools()
    there, copy = f"{kit()}/toolchain", f"{work}/toolchain"
    tools.link_all(there, copy, ["bin"])
    tools.link_all(f"{there}/bin", f"{copy}/bin", ["clang"])
    with open(f"{copy}/bin/clang", "w", encoding="utf-8") as file:
        file.write(KEEPING_CLANG.format(work=work, clang=f"{there}/bin/clang"))
    os.chmod(f"{copy}/bin/clang", 0o755)
    return copy


def proved_libraries(work):
    """The top of a tree of these sources whose libraries are those that `rt ci` proved: this one, where that is noted. Else `rt ci` runs
    on a copy, and proves what no earlier run on this machine has proved."""
    noted = subprocess.run([f"{TOP}/packaging/program", "--libraries"], capture_output=True, text=True)
    if noted.stdout.strip() == "proved":
        return TOP
    tree = copied_tree(work)
    ran = subprocess.run(["rt", "ci"], cwd=tree, stdin=subprocess.DEVNULL, capture_output=True, text=True)
    if ran.returncode != 0:
        raise SystemExit(f"{ran.stdout}{ran.stderr}frontends/web/build: rt ci doesn't pass")
    return tree


def words_of(crate, tree):
    """The words with which rattle takes a crate over the libraries of a tree, as the kit's own rt makes them."""
    loader = importlib.machinery.SourceFileLoader("rtlib", f"{kit()}/bin/rtlib.py")
    rtlib = importlib.util.module_from_spec(importlib.util.spec_from_loader("rtlib", loader))
    loader.exec_module(rtlib)
    return rtlib.Crate(f"{tree}/crates/{crate}", tree, {}).words(["--jobs", "2"], keeps=False)


def proved(crate, exports, tree, out):
    """A module of a crate, which is proved here over the libraries of a tree."""
    with tempfile.TemporaryDirectory(prefix="chipbench-web-") as work:
        build = [f"{kit()}/bin/rattle", "build", *words_of(crate, tree), "--backend", "llvm", "--toolchain", toolchain_that_keeps(work)]
        ran = subprocess.run([*build, "-o", f"{work}/made"], cwd=f"{tree}/crates/{crate}", stdin=subprocess.DEVNULL, capture_output=True, text=True)
        if ran.returncode != 0 or not os.path.exists(f"{work}/module.bc"):
            raise SystemExit(f"{ran.stdout}{ran.stderr}frontends/web/build: {crate} was not proved and built")
        compile_module(f"{work}/module.bc", out, exports)


def optimizer_version():
    """The version of binaryen, or nothing where it isn't installed."""
    if shutil.which("wasm-opt") is None:
        return ""
    return subprocess.run(["wasm-opt", "--version"], capture_output=True, text=True, check=True).stdout.strip()


def session(out, tree):
    """The session, of proved code over the libraries of a tree, or with no tree of code that isn't proved."""
    if tree is None:
        unproved_session(out)
    else:
        proved(*SESSION, tree, out)


def program(out, tree):
    """The whole program, of proved code over the libraries of a tree, or with no tree of code that isn't proved."""
    if tree is None:
        unproved_program(out)
    else:
        proved(*PROGRAM, tree, out)
