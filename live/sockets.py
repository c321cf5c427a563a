"""The server's end of a WebSocket (RFC 6455): texts go out, and of what comes in only its end counts."""
from __future__ import annotations

import base64
import hashlib
import select
import socket
import struct
from typing import Optional

GUID = "258EAFA5-E914-47DA-95CA-C5AB0DC85B11"

TEXT, CLOSE, PING = 1, 8, 9

# bytes that may come in at a time: a browser sends a few to close, or to answer a ping
MOST_BYTES = 4_096


def acceptance(key: str) -> str:
    """What the server answers to the key of a browser."""
    return base64.b64encode(hashlib.sha1((key + GUID).encode()).digest()).decode()


def is_key(key: Optional[str]) -> bool:
    """Whether it is 16 bytes in base64."""
    try:
        return key is not None and len(base64.b64decode(key, validate=True)) == 16
    except ValueError:
        return False


def frame(kind: int, data: bytes) -> bytes:
    """One whole message."""
    size = len(data)
    if size < 126:
        return struct.pack(">BB", 0x80 | kind, size) + data
    if size < 1 << 16:
        return struct.pack(">BBH", 0x80 | kind, 126, size) + data
    return struct.pack(">BBQ", 0x80 | kind, 127, size) + data


def has_ended(connection: socket.socket) -> bool:
    """Whether the other side closes, or sends what is none of a browser's."""
    poll = select.poll()
    poll.register(connection, select.POLLIN)
    while poll.poll(0):
        data = connection.recv(MOST_BYTES)
        if not data or data[0] & 15 == CLOSE or len(data) == MOST_BYTES:
            return True
    return False
