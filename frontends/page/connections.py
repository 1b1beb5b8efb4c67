"""The connections that are open at a time, and which of them makes room for another."""

from __future__ import annotations

import contextlib
import socket
import threading
import time

MAX_CONNECTIONS = 32


class Connection:
    """A connection: since when it waits for a request, none while one is answered; and whether it has shown the token."""

    def __init__(self, peer: socket.socket) -> None:
        self.peer = peer
        self.waits_since: float | None = time.monotonic()
        self.is_known = False


class Connections:
    """At most a number of connections. Where there are as many, one that waits makes room: the longest, strangers first."""

    def __init__(self, most: int = MAX_CONNECTIONS) -> None:
        self._most = most
        self._open: dict[socket.socket, Connection] = {}
        self._lock = threading.Lock()

    def admit(self, peer: socket.socket) -> bool:
        with self._lock:
            if len(self._open) >= self._most and not self._make_room():
                return False
            self._open[peer] = Connection(peer)
            return True

    def _make_room(self) -> bool:
        waiting = [one for one in self._open.values() if one.waits_since is not None]
        if not waiting:
            return False
        evicted = min(waiting, key=lambda one: (one.is_known, one.waits_since))
        del self._open[evicted.peer]
        with contextlib.suppress(OSError):
            evicted.peer.shutdown(socket.SHUT_RDWR)
        return True

    def leave(self, peer: socket.socket) -> None:
        with self._lock:
            self._open.pop(peer, None)

    def waits(self, peer: socket.socket) -> None:
        self._mark(peer, time.monotonic())

    def is_answered(self, peer: socket.socket) -> None:
        """A request was read whole: until it is answered, the connection isn't closed for another."""
        self._mark(peer, None)

    def _mark(self, peer: socket.socket, waits_since: float | None) -> None:
        with self._lock:
            if peer in self._open:
                self._open[peer].waits_since = waits_since

    def knows(self, peer: socket.socket) -> None:
        """The connection has shown the token."""
        with self._lock:
            if peer in self._open:
                self._open[peer].is_known = True
