"""A server in the place of a broker, which spoils each connection in another way."""
from __future__ import annotations

import base64
import hashlib
import socket
import struct
import threading
from typing import NamedTuple

from .serving import BROKER_PORT

# what a WebSocket's key is answered by, as its standard says
MAGIC = b"258EAFA5-E914-47DA-95CA-C5AB0DC85B11"

# packets of MQTT: we are taken, we may hear the session, and the first half of something that is published
CONNACK, SUBACK, HALF = b"\x20\x02\x00\x00", b"\x90\x03\x00\x01\x00", b"\x30\x40\x00\x04wb/a"
BINARY, TEXT = 0x82, 0x81


def frame(kind: int, data: bytes) -> bytes:
    return struct.pack("!BB", kind, len(data)) + data


def answer_to(asked: bytes) -> bytes:
    """The answer to a WebSocket that is asked for."""
    key = next(line.split(b":")[1].strip() for line in asked.split(b"\r\n") if line.lower().startswith(b"sec-websocket-key"))
    accept = base64.b64encode(hashlib.sha1(key + MAGIC).digest())
    return (b"HTTP/1.1 101 Switching Protocols\r\nUpgrade: websocket\r\nConnection: Upgrade\r\nSec-WebSocket-Protocol: mqtt\r\n"
            b"Sec-WebSocket-Accept: " + accept + b"\r\n\r\n")


CARRIES = frame(BINARY, CONNACK + SUBACK)


class Way(NamedTuple):
    """Whether the WebSocket is answered, what is sent then, and whether the connection is ended after that. If it is not, whoever hears
    what is no MQTT has to end it."""

    is_answered: bool
    then: bytes
    ends: bool


WAYS = [
    Way(False, b"", True),
    Way(False, b"HTTP/1.1 502 Bad Gateway\r\nContent-Length: 0\r\n\r\n", True),
    Way(True, b"\xff" * 40, False),
    Way(True, CARRIES + frame(BINARY, b"\xff" * 40), False),
    Way(True, CARRIES + frame(TEXT, b"1e9"), False),
    Way(True, CARRIES + frame(BINARY, HALF), True),
    Way(True, CARRIES + frame(BINARY, HALF)[:-3], True),
]


class Spoilt:
    """Meets each connection in the next way, and counts them."""

    def __init__(self) -> None:
        self.listener = socket.create_server(("127.0.0.1", BROKER_PORT))
        self.met = 0
        self.kept: list[socket.socket] = []
        self.thread = threading.Thread(target=self.serve, daemon=True)
        self.thread.start()

    def serve(self) -> None:
        while True:
            try:
                connection, _ = self.listener.accept()
                self.meet(connection, WAYS[self.met % len(WAYS)])
            except OSError:
                if self.listener.fileno() < 0:
                    return

    def meet(self, connection: socket.socket, way: Way) -> None:
        self.met += 1
        connection.settimeout(5)
        asked = connection.recv(65_536)
        connection.sendall((answer_to(asked) if way.is_answered else b"") + way.then)
        if way.ends:
            connection.close()
        else:
            self.kept.append(connection)

    def end(self) -> None:
        self.listener.shutdown(socket.SHUT_RDWR)
        self.listener.close()
        for connection in self.kept:
            connection.close()
