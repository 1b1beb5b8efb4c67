"""The client's side of a WebSocket on the loopback address: text messages alone."""

from __future__ import annotations

import base64
import os
import re
import socket


class WebSocket:
    """A connection to an address `ws://..`."""

    def __init__(self, address: str) -> None:
        found = re.fullmatch(r"ws://([^:/]+):(\d+)(/.*)", address)
        assert found is not None
        host, port, path = found[1], int(found[2]), found[3]
        self._socket = socket.create_connection((host, port))
        self._socket.settimeout(300.0)
        self._read = bytearray()
        key = base64.b64encode(os.urandom(16)).decode()
        self._socket.sendall(
            (
                f"GET {path} HTTP/1.1\r\nHost: {host}:{port}\r\nUpgrade: websocket\r\nConnection: Upgrade\r\n"
                f"Sec-WebSocket-Key: {key}\r\nSec-WebSocket-Version: 13\r\n\r\n"
            ).encode()
        )
        while b"\r\n\r\n" not in self._read:
            self._read += self._socket.recv(4096)
        head, _, rest = bytes(self._read).partition(b"\r\n\r\n")
        assert b" 101 " in head.split(b"\r\n")[0], head
        self._read = bytearray(rest)

    def _take(self, count: int) -> bytes:
        while len(self._read) < count:
            piece = self._socket.recv(1 << 16)
            if not piece:
                raise ConnectionError("the browser closed the connection")
            self._read += piece
        taken = bytes(self._read[:count])
        del self._read[:count]
        return taken

    def send(self, text: str) -> None:
        content = text.encode()
        mask = os.urandom(4)
        length = len(content)
        if length < 126:
            head = bytes([0x81, 0x80 | length])
        elif length < 1 << 16:
            head = bytes([0x81, 0x80 | 126]) + length.to_bytes(2, "big")
        else:
            head = bytes([0x81, 0x80 | 127]) + length.to_bytes(8, "big")
        masked = bytes(byte ^ mask[place % 4] for place, byte in enumerate(content))
        self._socket.sendall(head + mask + masked)

    def receive(self) -> str:
        message = b""
        while True:
            first, second = self._take(2)
            length = second & 0x7F
            if length == 126:
                length = int.from_bytes(self._take(2), "big")
            elif length == 127:
                length = int.from_bytes(self._take(8), "big")
            content = self._take(length)
            if first & 0x0F in (0, 1):
                message += content
                if first & 0x80:
                    return message.decode()

    def close(self) -> None:
        self._socket.close()
