"""Makes the wheel of this folder for pip, without other packages and without the network.

pip calls `build_wheel`, `build_sdist` and `build_editable`; packaging/wheel calls `write_wheel`, to put the program inside. The same
files give the same bytes. pyproject.toml has the names; the version is that of packaging/version, or of PKG-INFO in a source archive.
"""

from __future__ import annotations

import base64
import gzip
import hashlib
import io
import json
import os
import re
import subprocess
import tarfile
import time
import zipfile
from collections.abc import Iterable, Mapping
from pathlib import Path
from typing import Any

HERE = Path(__file__).resolve().parent
TOP = HERE.parents[1]
NAME = "chipbench"
PURE = "py3-none-any"
EXECUTABLE, PLAIN = 0o755, 0o644
# a zip has no time before this one
FIRST_TIME = 315532800
#: The files of a source archive besides the modules.
BESIDE = ("pyproject.toml", "build_backend.py", "README.md")
LICENCES = ("LICENSE", "THIRD-PARTY")
# a key of pyproject.toml with a text, or with a list of texts on one line, which JSON reads too
ENTRY = re.compile(r'^([\w-]+) = ("[^"]*"|\[.*\])$')

#: The files of a wheel: for each name its bytes and its mode.
Files = dict[str, tuple[bytes, int]]


def table(name: str) -> dict[str, Any]:
    """A table of pyproject.toml. Python has a reader of TOML only from 3.11 on."""
    found: dict[str, Any] = {}
    current = ""
    for line in (HERE / "pyproject.toml").read_text(encoding="utf-8").splitlines():
        if line.startswith("["):
            current = line.strip("[]")
        entry = ENTRY.match(line)
        if entry is not None and current == name:
            found[entry[1]] = json.loads(entry[2])
    return found


def version() -> str:
    """The version of the program that these files belong to."""
    archived = HERE / "PKG-INFO"
    if archived.is_file():
        return archived.read_text(encoding="utf-8").partition("\nVersion: ")[2].partition("\n")[0]
    ran = subprocess.run([TOP / "packaging/version"], capture_output=True, text=True, check=True)
    return ran.stdout.strip()


def metadata() -> bytes:
    project = table("project")
    lines = ["Metadata-Version: 2.1", f"Name: {NAME}", f"Version: {version()}", f"Summary: {project['description']}"]
    lines += [f"License: {project['license']}", f"Keywords: {','.join(project['keywords'])}"]
    lines += [f"Classifier: {one}" for one in project["classifiers"]]
    lines += [f"Requires-Python: {project['requires-python']}", "Description-Content-Type: text/markdown"]
    description = (HERE / str(project["readme"])).read_text(encoding="utf-8")
    return ("\n".join(lines) + "\n\n" + description).encode()


def scripts(has_program: bool) -> bytes:
    """The commands. `chipbench` is one of them if the program is inside."""
    named = table("project.scripts") | ({"chipbench": "chipbench.commands:program"} if has_program else {})
    lines = [f"{name} = {place}\n" for name, place in sorted(named.items())]
    return ("[console_scripts]\n" + "".join(lines)).encode()


def modules() -> Files:
    """The packages and modules of this folder."""
    places = [path for path in HERE.glob("chipbench*.py")]
    for package in HERE.glob("chipbench*/__init__.py"):
        places += [path for path in package.parent.rglob("*") if path.is_file() and "__pycache__" not in path.parts]
    return {path.relative_to(HERE).as_posix(): (path.read_bytes(), PLAIN) for path in places}


def licences() -> Files:
    places = [folder / name for name in LICENCES for folder in (HERE, TOP) if (folder / name).is_file()]
    return {path.name: (path.read_bytes(), PLAIN) for path in reversed(places)}


def write_wheel(folder: Path, files: Files, tag: str = PURE, has_program: bool = False) -> str:
    """Writes a wheel of these files with its own information, and returns its name."""
    stem = f"{NAME}-{version()}"
    information = f"{stem}.dist-info"
    purity = "true" if tag == PURE and not has_program else "false"
    wheel = f"Wheel-Version: 1.0\nGenerator: chipbench\nRoot-Is-Purelib: {purity}\nTag: {tag}\n"
    own = {
        "METADATA": metadata(),
        "WHEEL": wheel.encode(),
        "entry_points.txt": scripts(has_program),
        **{f"licenses/{name}": content for name, (content, _) in licences().items()},
    }
    whole = files | {f"{information}/{name}": (content, PLAIN) for name, content in own.items()}
    whole[f"{information}/RECORD"] = record(whole, f"{information}/RECORD"), PLAIN
    name = f"{stem}-{tag}.whl"
    part = folder / f".{name}.part"
    with zipfile.ZipFile(part, "w", zipfile.ZIP_DEFLATED) as archive:
        for place in sorted(whole, key=lambda place: (place.startswith(information), place)):
            content, mode = whole[place]
            entry = zipfile.ZipInfo(place, time.gmtime(moment())[:6])
            entry.external_attr = (0o100000 | mode) << 16
            entry.compress_type = zipfile.ZIP_DEFLATED
            archive.writestr(entry, content)
    part.replace(folder / name)
    return name


def record(files: Files, own: str) -> bytes:
    """The names with checksums and sizes. The name of this list itself has neither."""
    rows = []
    for place, (content, _) in sorted(files.items()):
        digest = base64.urlsafe_b64encode(hashlib.sha256(content).digest()).rstrip(b"=").decode()
        rows.append(f"{place},sha256={digest},{len(content)}\n")
    return ("".join(rows) + f"{own},,\n").encode()


def moment() -> int:
    """The time that the files of an archive have."""
    return max(FIRST_TIME, int(os.environ.get("SOURCE_DATE_EPOCH", "0")))


# -- the functions that pip calls


def get_requires_for_build_wheel(config_settings: Mapping[str, Any] | None = None) -> list[str]:
    return []


get_requires_for_build_sdist = get_requires_for_build_editable = get_requires_for_build_wheel


def build_wheel(
    wheel_directory: str, config_settings: Mapping[str, Any] | None = None, metadata_directory: str | None = None
) -> str:
    return write_wheel(Path(wheel_directory), modules())


def build_editable(
    wheel_directory: str, config_settings: Mapping[str, Any] | None = None, metadata_directory: str | None = None
) -> str:
    """A wheel that leads to this folder."""
    return write_wheel(Path(wheel_directory), {f"{NAME}.pth": (f"{HERE}\n".encode(), PLAIN)})


def build_sdist(sdist_directory: str, config_settings: Mapping[str, Any] | None = None) -> str:
    stem = f"{NAME}-{version()}"
    files = modules() | licences() | {name: ((HERE / name).read_bytes(), PLAIN) for name in BESIDE}
    files["PKG-INFO"] = metadata(), PLAIN
    name = f"{stem}.tar.gz"
    (Path(sdist_directory) / name).write_bytes(gzip.compress(archive_of(stem, files.items()), mtime=0))
    return name


def archive_of(stem: str, files: Iterable[tuple[str, tuple[bytes, int]]]) -> bytes:
    whole = io.BytesIO()
    with tarfile.open(fileobj=whole, mode="w", format=tarfile.PAX_FORMAT) as archive:
        for place, (content, mode) in sorted(files):
            entry = tarfile.TarInfo(f"{stem}/{place}")
            entry.size, entry.mode, entry.mtime = len(content), mode, moment()
            archive.addfile(entry, io.BytesIO(content))
    return whole.getvalue()
