"""Datagrams and streams under a key, from docs/PROTOCOL.md alone. A key that seals needs Debian's python3-cryptography."""

from __future__ import annotations

import base64
import hashlib
import hmac
import os
from typing import Any, Optional

SEALED, TAGGED, TAGS = b"\x02", b"\x03", "tag."
NONCE, TAG, HEAD, FRESH = 12, 16, 17, 16
QUESTION = bytes.fromhex("574201040000000400000000")
REMEMBERED = 64


def bytes_of(key: str) -> bytes:
    return base64.urlsafe_b64decode(key[-43:] + "=")


def own_key(key: str, first_port: int) -> str:
    """The key of a user's session at these ports of a machine, by the key in the user's file."""
    made = hmac.new(bytes_of(key), b"ports-%d" % first_port, hashlib.sha256).digest()
    return key[:-43] + base64.urlsafe_b64encode(made).decode()[:43]


def cipher_of(key: str) -> Any:
    """None where a key that tags needs none, and there is none."""
    try:
        from cryptography.hazmat.primitives.ciphers.aead import AESGCM
    except ImportError:
        if key.startswith(TAGS):
            return None
        raise
    return AESGCM(bytes_of(key))


class Seal:
    """The key of a session, and who closes by it. For vectors a nonce and a sender can be given."""

    def __init__(self, key: str, session: str, sender: bytes = b"") -> None:
        self.key, self.cipher, self.tags = bytes_of(key), cipher_of(key), key.startswith(TAGS)
        self.session = session.encode()
        first = os.urandom(8)
        self.sender = sender or bytes([first[0] & 0x7F]) + first[1:]
        self.sent = 0
        self.came: dict[bytes, list[int]] = {}

    def tag(self, data: bytes, more: bytes) -> bytes:
        return hmac.new(self.key, self.session + b"\0" + bytes([len(more)]) + more + data, hashlib.sha256).digest()[:TAG]

    def close(self, data: bytes, more: bytes = b"", nonce: bytes = b"") -> bytes:
        if self.tags:
            return data + self.tag(data, more)
        while not nonce or nonce[:1] == TAGGED:
            nonce = os.urandom(NONCE)
        return nonce + bytes(self.cipher.encrypt(nonce, data, self.session + more))

    def open(self, closed: bytes, more: bytes = b"") -> Optional[bytes]:
        found = self.open_by(closed, more)
        return found and found[1]

    def open_by(self, closed: bytes, more: bytes = b"") -> Optional[tuple[bytes, bytes]]:
        """How bytes were closed, and what they hold."""
        if len(closed) >= TAG and hmac.compare_digest(self.tag(closed[:-TAG], more), closed[-TAG:]):
            return TAGGED, closed[:-TAG]
        if self.cipher is None or len(closed) < NONCE + TAG:
            return None
        from cryptography.exceptions import InvalidTag

        try:
            return SEALED, bytes(self.cipher.decrypt(closed[:NONCE], closed[NONCE:], self.session + more))
        except InvalidTag:
            return None

    def wrap(self, datagram: bytes, nonce: bytes = b"") -> bytes:
        """The next datagram of this sender, closed."""
        self.sent += 1
        return self.close((TAGGED if self.tags else SEALED) + self.sender + self.sent.to_bytes(8, "big") + datagram, b"", nonce)

    def unwrap(self, closed: bytes) -> tuple[bytes, bytes]:
        """Another sender and what it closed, if it comes for the first time. Else nothing."""
        how, opened = self.open_by(closed) or (b"", b"")
        if len(opened) < HEAD or opened[:1] != how:
            return b"", b""
        sender, counter = opened[1:9], int.from_bytes(opened[9:HEAD], "big")
        came = self.came.setdefault(sender, [])
        if sender == self.sender or counter in came or came and counter < max(came) - REMEMBERED:
            return b"", b""
        came.append(counter)
        del came[:-4 * REMEMBERED]
        return sender, opened[HEAD:]


def asks(seal: Seal, given: bytes, ours: bytes, nonce: bytes = b"") -> bytes:
    """The asker's piece, once the giver has sent its 16 bytes."""
    return piece(seal.close(ours + QUESTION, given, nonce))


def piece(sealed: bytes) -> bytes:
    return len(sealed).to_bytes(4, "big") + sealed
