"""Libraries in C that a program is run with (LD_PRELOAD), in the place of functions of the C library."""
import functools
import pathlib
import shutil
import subprocess
import tempfile


@functools.cache
def library(text):
    """The file of a library of this text and its folder, which goes when Python ends; nothing where there is no compiler."""
    compiler = shutil.which("cc") or shutil.which("gcc")
    if not compiler:
        return None
    folder = tempfile.TemporaryDirectory(prefix="chipbench-failing-")
    source = pathlib.Path(folder.name, "failing.c")
    source.write_text(text)
    made = source.with_suffix(".so")
    ran = subprocess.run([compiler, "-shared", "-fPIC", "-o", made, source, "-ldl"], capture_output=True, check=False)
    return (made, folder) if ran.returncode == 0 else None
