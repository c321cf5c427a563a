"""What closes a session to all who lack its key, by "Sealed datagrams" and "Tagged datagrams" of docs/PROTOCOL.md. A key that tags takes the standard
library alone; one that seals takes the package `cryptography`."""
from __future__ import annotations

import base64
import hmac
import os
import re
from typing import Any, Callable, Dict, Optional, Tuple

# how the text of a key begins that tags
TAGS = "tag."

# the envelope: its kind, its sender and a counter; and what closes it
SEALED, TAGGED = 2, 3
SENDER, HEAD, NONCE, TAG = 8, 17, 12, 16

# senders that are remembered, and how far behind the greatest counter of one its datagrams may come
MOST_SENDERS, BEHIND = 1_024, 64


class Key:
    """A key by its text, as an invitation and `wb-live --new-key` have it, for a session of a name: it closes datagrams and opens them."""

    def __init__(self, text: str, session: str = "board") -> None:
        if not re.fullmatch(r"(tag\.)?[A-Za-z0-9_-]{43}", text):
            raise ValueError("a key has 43 letters of base64url, behind `tag.` if it tags")
        self.bytes = base64.urlsafe_b64decode(text[-43:] + "=")
        self.session = session.encode()
        self.kind = TAGGED if text.startswith(TAGS) else SEALED
        self.cipher = self.cipher_if_any()
        first = os.urandom(SENDER)
        self.sender = bytes([first[0] & 127]) + first[1:]
        self.sent = 0
        # of each sender the greatest counter, and a bit for it and each of those below it; the sender that was heard last at the end
        self.came: Dict[bytes, Tuple[int, int]] = {}

    def cipher_if_any(self) -> Any:
        try:
            from cryptography.hazmat.primitives.ciphers.aead import AESGCM
        except ImportError:
            if self.kind == SEALED:
                raise
            return None
        return AESGCM(self.bytes)

    def tag(self, data: bytes) -> bytes:
        return hmac.digest(self.bytes, self.session + b"\0\0" + data, "sha256")[:TAG]

    def close(self, datagram: bytes) -> bytes:
        """The next datagram of this sender, closed."""
        self.sent += 1
        data = bytes([self.kind]) + self.sender + self.sent.to_bytes(8, "big") + datagram
        if self.kind == TAGGED:
            return data + self.tag(data)
        nonce = os.urandom(NONCE)
        while nonce[0] == TAGGED:  # what begins so is tagged
            nonce = os.urandom(NONCE)
        return nonce + bytes(self.cipher.encrypt(nonce, data, self.session))

    def open(self, closed: bytes) -> Optional[Tuple[bytes, int]]:
        """A datagram that another sender closed, and the number of that sender; nothing if it does not open, or came before."""
        kind, data = TAGGED, closed[:-TAG]
        if closed[:1] != bytes([TAGGED]) or not hmac.compare_digest(self.tag(data), closed[-TAG:]):
            kind, data = SEALED, self.unsealed(closed)
        if len(data) < HEAD or data[0] != kind:
            return None
        sender, counter = bytes([data[1] & 127]) + data[2:1 + SENDER], int.from_bytes(data[1 + SENDER:HEAD], "big")
        return (data[HEAD:], int.from_bytes(sender, "big")) if sender != self.sender and self.is_new(sender, counter) else None

    def unsealed(self, closed: bytes) -> bytes:
        if self.cipher is None or len(closed) < NONCE + TAG:
            return b""
        try:
            return bytes(self.cipher.decrypt(closed[:NONCE], closed[NONCE:], self.session))
        except Exception:  # of many kinds, by the version: whatever does not open is none of ours
            return b""

    def is_new(self, sender: bytes, counter: int) -> bool:
        """Whether a datagram comes for the first time. One that is far behind is taken for a repeated one."""
        greatest, bits = self.came.pop(sender, (counter, 0))
        if counter > greatest:
            bits = bits << min(counter - greatest, BEHIND + 1) & (1 << BEHIND + 1) - 1
            greatest = counter
        bit = 1 << greatest - counter if greatest - counter <= BEHIND else bits
        self.came[sender] = greatest, bits | bit
        if len(self.came) > MOST_SENDERS:
            del self.came[next(iter(self.came))]
        return not bits & bit

    def before(self, take: Callable[[bytes, int], None]) -> Callable[[bytes, int], None]:
        """Takes what comes, and hands on what opens: its place is its sender's number, wherever it comes from."""
        def arrive(closed: bytes, place: int = 0) -> None:
            opened = self.open(closed)
            if opened:
                take(*opened)

        return arrive


class Closed:
    """A transport whose datagrams a key closes."""

    def __init__(self, key: Key, under: Any) -> None:
        self.key = key
        self.under = under

    def send(self, datagram: bytes) -> None:
        self.under.send(self.key.close(datagram))

    def end(self) -> None:
        self.under.end()


def key_of(text: Optional[str], session: str, is_open: bool) -> Optional[Key]:
    """The key that closes a session; none for one that is open to everybody. ValueError where neither is said."""
    if (text is None) != is_open:
        raise ValueError("who may draw? key=TEXT for those who have that key, or open=True for anybody on the network")
    return None if text is None else Key(text, session)
