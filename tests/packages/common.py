"""What the tests of the packages share: the program, the list of files, and a running page."""
import hashlib
import http.client
import json
import os
import pathlib
import re
import shutil
import subprocess
from typing import NamedTuple
from urllib.parse import urlsplit

TOP = pathlib.Path(__file__).resolve().parents[2]
BUILT = TOP / "crates/chipbench/out/chipbench"
# A program that needs the C library alone, for tests that place a program and don't run it.
STAND_IN = pathlib.Path("/bin/true")
DOCUMENTS = "share/doc/chipbench"
# No command takes as long on the busiest machine.
SECONDS = 1800

_chosen = None


def choose(path):
    """Takes a program in place of the built one."""
    global _chosen
    _chosen = pathlib.Path(path).resolve() if path else None


def chosen():
    """The program that was chosen, or none."""
    return _chosen


def program():
    """The program of the tests, or none."""
    if _chosen is not None:
        return _chosen
    return BUILT if BUILT.is_file() else None


def run(*command, status=0, **options):
    """Runs a command that has to end with a status, and returns what it printed."""
    command = [str(part) for part in command]
    options = {"stdin": subprocess.DEVNULL, "timeout": SECONDS, **options}
    done = subprocess.run(command, capture_output=True, **options)
    if done.returncode != status:
        printed = (done.stdout + done.stderr).decode("utf-8", "replace")
        raise AssertionError(f"{' '.join(command)}: status {done.returncode}, not {status}\n{printed}")
    return done.stdout


class Entry(NamedTuple):
    kind: str
    source: str
    target: str


def entries(layout):
    """The files of packaging/files, for `plain` or `debian`."""
    lines = run(TOP / "packaging/place-files", "--list", layout).decode().splitlines()
    return [Entry(*line.split(" ")) for line in lines]


def version():
    return run(TOP / "packaging/version").decode().strip()


def package(output, given, **options):
    """Makes the packages with a program, or with the built one where none is given."""
    program_option = ["--program", given] if given else []
    return run(TOP / "packaging/chipbench-package", *program_option, "--to", output, **options).decode()


def is_repository():
    """Whether git knows the commit of these files."""
    if shutil.which("git") is None or not (TOP / ".git").exists():
        return False
    return subprocess.run(["git", "-C", TOP, "rev-parse", "HEAD"], capture_output=True).returncode == 0


def image_of(example):
    """The image of an example, as its transcript has it."""
    script = (TOP / f"examples/{example}.script").read_text(encoding="utf-8").splitlines()
    answers = (TOP / f"examples/{example}.out").read_text(encoding="utf-8").splitlines()
    assert script[:2] == ["faults", "image"] and answers[0] == "."
    return bytes.fromhex(answers[1])


def contents(folder):
    """Every path below a folder, with the checksum of a file, the end of a link, or nothing of a folder."""
    found = {}
    for place, folders, files in os.walk(folder):
        for name in folders + files:
            path = pathlib.Path(place, name)
            if path.is_symlink():
                what = os.readlink(path)
            else:
                what = hashlib.sha256(path.read_bytes()).hexdigest() if path.is_file() else None
            found[path.relative_to(folder).as_posix()] = what
    return found


def named_documents(text):
    """The paths of documents that a manual page or a help text names."""
    return re.findall(r"[^\s,;:()]*\b[A-Z]{2,}\.md", text.replace("\\-", "-"))


def anchors(text):
    """The places of a Markdown file that a link can name, as they are made of its headings."""
    headings = (re.sub(r"\[([^]]*)\]\([^)]*\)", r"\1", line).lower() for line in re.findall(r"(?m)^#+ (.*)$", text))
    return {re.sub(r"[^\w\- ]", "", heading).replace(" ", "-") for heading in headings}


def dead_links(top):
    """The links of the Markdown files below a folder that lead to nothing there, each with its file."""
    dead = []
    for document in sorted(pathlib.Path(top).rglob("*.md")):
        text = re.sub(r"(?ms)^ *```.*?^ *```", "", document.read_text(encoding="utf-8"))
        for link in re.findall(r"\]\(([^)\s]+)[^)]*\)", text) + re.findall(r"(?:src|href)=\"([^\"]+)\"", text):
            path, _, place = link.partition("#")
            target = (document.parent / path).resolve() if path else document
            is_here = target.exists() and target.is_relative_to(pathlib.Path(top).resolve())
            is_named = not place or not target.is_file() or place in anchors(target.read_text(encoding="utf-8"))
            if ":" not in link and not (is_here and is_named):
                dead.append(f"{document.relative_to(top)}: {link}")
    return dead


def answers_initialize(test, *command):
    """A language server answers the first request of the protocol."""
    request = b'{"jsonrpc":"2.0","id":1,"method":"initialize","params":{"capabilities":{}}}'
    message = b"Content-Length: %d\r\n\r\n%s" % (len(request), request)
    done = subprocess.run(command, input=message, capture_output=True, timeout=SECONDS)
    test.assertIn(b'"capabilities"', done.stdout, done.stderr)


class Page:
    """A running chipbench-page, and requests to it."""

    def __init__(self, *command, **options):
        command = [str(part) for part in command] + ["--no-open", "--port", "0"]
        self._process = subprocess.Popen(command, stdout=subprocess.PIPE, stderr=subprocess.DEVNULL, **options)
        line = self._process.stdout.readline().decode()
        found = re.search(r"http://(127\.0\.0\.1:\d+)(/\S*)", line)
        if not found:
            self.close()
            raise AssertionError(f"{' '.join(command)} printed {line!r}, and no address")
        self._host, self._path = found.groups()

    def __enter__(self):
        return self

    def __exit__(self, *_):
        self.close()

    def close(self):
        self._process.terminate()
        self._process.wait(10)
        self._process.stdout.close()

    def request(self, method, name="", body=None):
        """The status of the answer, and its bytes."""
        connection = http.client.HTTPConnection(urlsplit(f"//{self._host}").netloc, timeout=SECONDS)
        try:
            headers = {"Origin": f"http://{self._host}", "Content-Type": "application/json"}
            connection.request(method, self._path + name, body, headers if body is not None else {})
            answer = connection.getresponse()
            return answer.status, answer.read()
        finally:
            connection.close()

    def check(self, test):
        """The page is served with its modules and with the program that it runs, and the bridge says what it was opened on."""
        status, text = self.request("GET")
        test.assertEqual((status, b"<html" in text.lower()), (200, True))
        for module in [*re.findall(rb'src="([\w.]+\.mjs)"', text), b"main.mjs", b"worker.mjs", b"requests.mjs"]:
            test.assertEqual(self.request("GET", module.decode())[0], 200, module)
        for program in ("session.wasm", "chipbench.wasm"):
            status, content = self.request("GET", program)
            test.assertEqual((status, content[:4]), (200, b"\0asm"), program)
        status, text = self.request("POST", "about", b"{}")
        test.assertEqual((status, json.loads(text).get("settings")), (200, {}))
