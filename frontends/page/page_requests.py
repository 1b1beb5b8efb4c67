"""What the page asks of the bridge: what it was opened on, and files. The program runs in the page."""

from __future__ import annotations

import secrets
import tempfile
import threading
from pathlib import Path
from typing import Any

from files import MAX_FILE, Files, Refused, digest_of, read_file, shown
from request_values import bytes_of

NAMES = ("about", "files", "read", "save")
#: The memory from address 512 on.
IMAGE_BYTES = 3584


class Bridge:
    """The files of the author, and the requests of the page about them."""

    def __init__(self, files: Files, settings: dict[str, str]) -> None:
        self._files = files
        self._settings = settings
        self._image: dict[str, Any] | None = None
        self._start = secrets.token_hex(8)
        self._saving = threading.Lock()
        self._folder = tempfile.TemporaryDirectory(prefix="chipbench-page-")
        #: a folder that this user alone can read
        self.place = Path(self._folder.name)

    def close(self) -> None:
        self._folder.cleanup()

    def open_image(self, path: Path) -> None:
        """Opens the page on an image, in place of SOURCE. The page makes a source of its bytes."""
        content = read_file(path)
        if content is None:
            raise Refused(409, f"there is no file {shown(path)}")
        if len(content) > IMAGE_BYTES:
            raise Refused(409, f"{shown(path)} can't be opened: it has over {IMAGE_BYTES} bytes")
        self._image = {"name": path.name, "path": str(path.resolve()), "text": content.decode("latin-1"), "digest": digest_of(content)}

    def about(self, _: dict[str, Any]) -> dict[str, Any]:
        """What the page was opened on: an image or SOURCE, the folder, and the settings of the command line."""
        source = self._files.source
        if self._image is not None:
            opened = self._image
        elif source is not None:
            opened = self._read(source.name)
        else:
            opened = {"name": None, "path": None, "text": None, "digest": None}
        folder = str(self._files.folder)
        return {**opened, "isImage": self._image is not None, "start": self._start, "folder": folder, "settings": self._settings}

    def files(self, _: dict[str, Any]) -> dict[str, Any]:
        """The files of the folder that the page can open."""
        try:
            return {"folder": str(self._files.folder), "files": self._files.names()}
        except OSError as error:
            raise Refused(409, f"{shown(self._files.folder)} can't be read: {error.strerror}") from None

    def read(self, request: dict[str, Any]) -> dict[str, Any]:
        """A file of the folder."""
        return self._read(request.get("name"))

    def _read(self, name: Any) -> dict[str, Any]:
        content = self._files.read(name)
        text = None if content is None else content.decode("latin-1")
        return {"name": name, "path": str(self._files.path_of(name).resolve()), "text": text, "digest": digest_of(content)}

    def save(self, request: dict[str, Any]) -> dict[str, Any]:
        """Writes a file of the folder, since the author asked for it."""
        content = bytes_of(request.get("text"), MAX_FILE)
        name, known = request.get("name"), request.get("known")
        self._files.path_of(name)
        with self._saving:
            try:
                saved = self._files.save(name, content, known if isinstance(known, str) else None)
            except OSError as error:
                raise Refused(500, f"the file can't be written: {error.strerror}") from None
            found = self._read(name)
        return {"saved": saved, **(found if not saved else {**found, "text": None})}
