"""Work that runs beside the server. A client can cancel it, an edit can end it, and it reports its progress."""

from __future__ import annotations

import threading
import time
from typing import Any

from .wire import CONTENT_MODIFIED, REQUEST_CANCELLED, Failed, Writer

#: The seconds between two reports of progress.
TOLD_SECONDS = 0.5


class Work:
    """One request that runs in a separate thread. An edit of the document `uri` ends it; None if no edit does."""

    def __init__(self, uri: str | None = None) -> None:
        self.uri = uri
        self.token: Any = None
        self._is_over = threading.Event()
        self._is_edited = False

    def cancel(self) -> None:
        self._is_over.set()

    def edited(self, uri: str) -> None:
        """Ends the work if its document was edited."""
        if uri == self.uri:
            self._is_edited = True
            self._is_over.set()

    def is_set(self) -> bool:
        return self._is_over.is_set()

    def failure(self) -> Failed:
        """The reason why the work was ended."""
        if self._is_edited:
            return Failed(CONTENT_MODIFIED, "the source was edited meanwhile")
        return Failed(REQUEST_CANCELLED, "cancelled")


class Progress:
    """The progress of some work as a client shows it, from start to end. Without a token the client shows nothing."""

    def __init__(self, writer: Writer, token: Any, title: str) -> None:
        self._writer = writer
        self._token = token
        self._title = title
        self._told = 0.0

    def _tell(self, kind: str, **more: Any) -> None:
        if self._token is not None:
            self._writer.notify("$/progress", {"token": self._token, "value": {"kind": kind, **more}})

    def __enter__(self) -> Progress:
        self._tell("begin", title=self._title, cancellable=True)
        return self

    def report(self, text: str) -> None:
        """Says how far the work is, but not too often."""
        now = time.monotonic()
        if now - self._told >= TOLD_SECONDS:
            self._told = now
            self._tell("report", message=text)

    def __exit__(self, *_: object) -> None:
        self._tell("end")
