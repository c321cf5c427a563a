"""Any carrier under a key: each datagram is in an envelope that nobody makes without the key, as `web/member/seal.js` does. The envelope has a kind
in one byte; the sender's own tag, which tells starts of members apart, in 8; a counter in 8, which is greater for each datagram of that sender; and the
datagram. So what somebody without the key sends once more is known again, or is of a start that answers nobody any more.

A key closes it in one of two ways. By AES-256-GCM, with the session's name as what goes with it: a nonce of 12 random bytes, and then the ciphertext with
its tag, so nobody else reads it. Or by a tag alone, the first 16 bytes of an HMAC-SHA-256 behind it, which takes nothing but the standard library: all
can read it, and nobody else writes it. A key says which it makes, and whoever has it takes both; the first byte tells which it is."""
from __future__ import annotations

import dataclasses
import hashlib
import hmac
import itertools
import os
from typing import Any, Dict, NamedTuple, Optional, Tuple

from ..keys import is_tagging, key_bytes
from ..packages import has_module, module_of
from .carrier import Carrier, Origin, Over
from .mqtt import GONE

NONCE = 12
TAG = 16

# bytes of a block of SHA-256
BLOCK = 64

# the module of AES-256-GCM, and the package that has it
CIPHER, PACKAGE = "cryptography.hazmat.primitives.ciphers.aead", "python3-cryptography"

# the envelope of a datagram: its kind, by how it is closed, a sender's tag, and a counter
SEALED_KIND, TAGGED_KIND = 2, 3
SENDER, COUNTER = 8, 8
HEAD = 1 + SENDER + COUNTER

# How a datagram begins that no key closed: it is dropped before anything is tried on it, since that costs more than all else. A sealed one begins with
# random bytes, of which one in 300 million is dropped so, as if the network had lost it.
PLAIN = {b"WB" + bytes([version, kind]) for version in (1, 2) for kind in range(1, 6)} | {b"WP\1\0", GONE}

# senders that are remembered, and how far behind the greatest counter of one its datagrams may come
MOST_SENDERS, BEHIND = 1_024, 64


class Letter(NamedTuple):
    """What was in sealed bytes."""

    sender: bytes
    counter: int
    data: bytes


def below(tag: bytes) -> bytes:
    """As a number a tag is below 2^63, since a greater origin is one that the network keeps."""
    return bytes([tag[0] & 127]) + tag[1:]


def sent_by(envelope: bytes) -> Tuple[bytes, int]:
    """The sender that an envelope names, and its counter."""
    return below(envelope[1:1 + SENDER]), int.from_bytes(envelope[1 + SENDER:HEAD], "big")


def new_nonce() -> bytes:
    """One that does not begin as a tagged envelope does."""
    nonce = os.urandom(NONCE)
    return new_nonce() if nonce[0] == TAGGED_KIND else nonce


def new_sender() -> bytes:
    """The tag of a sender."""
    return below(os.urandom(SENDER))


def cipher_of(key: str) -> Any:
    """AES-256-GCM under a key; None where this Python has none and the key needs none."""
    if is_tagging(key) and not has_module(CIPHER):
        return None
    return module_of(CIPHER, PACKAGE, "--key").AESGCM(key_bytes(key))


def hash_of(key: bytes, pad: int, begun: bytes = b"") -> Any:
    """One of the two hashes of an HMAC-SHA-256, after the key and what all that is tagged begins with: a copy of it costs less than to begin anew."""
    return hashlib.sha256(bytes(byte ^ pad for byte in key.ljust(BLOCK, b"\0")) + begun)


class Seal:
    """The key of a session by its text, the session's name, and who sends by it: this start."""

    def __init__(self, key: str, session: str) -> None:
        self.sender = new_sender()
        self.counter = itertools.count(1)
        self.is_tagging = is_tagging(key)
        self.cipher = cipher_of(key)
        self.session = session.encode()
        self.inner, self.outer = hash_of(key_bytes(key), 0x36, self.session), hash_of(key_bytes(key), 0x5C)

    def close(self, data: bytes, more: bytes = b"") -> bytes:
        """What is closed, and what else goes with it that the other side knows."""
        if self.is_tagging:
            return data + self.tag(data, more)
        nonce = new_nonce()
        sealed: bytes = self.cipher.encrypt(nonce, data, self.session + more)
        return nonce + sealed

    def open(self, closed: bytes, more: bytes = b"") -> Optional[bytes]:
        """What was closed, in either way, or None if it was not closed by this key for this session."""
        tagged = self.untagged(closed, more)
        return self.unsealed(closed, more) if tagged is None else tagged

    def tag(self, data: bytes, more: bytes) -> bytes:
        """A session's name has no zero, and of what else goes with it the length stands before it: so no two are alike."""
        inner, outer = self.inner.copy(), self.outer.copy()
        inner.update(bytes([0, len(more)]) + more + data)
        outer.update(inner.digest())
        tag: bytes = outer.digest()[:TAG]
        return tag

    def untagged(self, closed: bytes, more: bytes = b"") -> Optional[bytes]:
        data, tag = closed[:-TAG], closed[-TAG:]
        return data if hmac.compare_digest(self.tag(data, more), tag) else None

    def unsealed(self, closed: bytes, more: bytes = b"") -> Optional[bytes]:
        if self.cipher is None or len(closed) < NONCE + TAG:
            return None
        try:
            opened: bytes = self.cipher.decrypt(closed[:NONCE], closed[NONCE:], self.session + more)
            return opened
        except Exception:  # of many kinds, by the version: whatever does not open is none of ours
            return None

    def write(self, letter: Letter) -> bytes:
        kind = TAGGED_KIND if self.is_tagging else SEALED_KIND
        return self.close(bytes([kind]) + letter.sender + letter.counter.to_bytes(COUNTER, "big") + letter.data)

    def read(self, closed: bytes) -> Optional[Letter]:
        """None too if a member of another version closed it."""
        kind = TAGGED_KIND if closed[:1] == bytes([TAGGED_KIND]) else SEALED_KIND
        opened = self.untagged(closed) if kind == TAGGED_KIND else self.unsealed(closed)
        if opened is None or len(opened) < HEAD or opened[0] != kind:
            return None
        return Letter(*sent_by(opened), opened[HEAD:])

    def send(self, data: bytes) -> bytes:
        """The next datagram of this sender."""
        return self.write(Letter(self.sender, next(self.counter), data))

    def will(self) -> bytes:
        """Our last will. It has a tag of its own, since our counter will have gone on when a broker publishes it."""
        return self.write(Letter(new_sender(), 1, GONE + self.sender.hex().encode()))


class Counters:
    """Which datagrams of each sender have come."""

    def __init__(self) -> None:
        # the greatest counter, and a bit for it and each of those below it; the sender that was heard last at the end
        self.came: Dict[bytes, Tuple[int, int]] = {}

    def has_come(self, sender: bytes, counter: int) -> bool:
        """Whether a datagram came, or is far behind, by what is remembered: nothing is by that."""
        greatest, bits = self.came.get(sender, (counter, 0))
        behind = greatest - counter
        return behind > BEHIND or behind >= 0 and bool(bits >> behind & 1)

    def is_new(self, sender: bytes, counter: int) -> bool:
        """Whether a datagram comes for the first time. One that is far behind is taken for a repeated one."""
        greatest, bits = self.came.pop(sender, (counter, 0))
        if counter > greatest:
            bits = bits << min(counter - greatest, BEHIND + 1) & (1 << BEHIND + 1) - 1
            greatest = counter
        bit = 1 << greatest - counter if greatest - counter <= BEHIND else bits
        self.came[sender] = greatest, bits | bit
        if len(self.came) > MOST_SENDERS:
            del self.came[next(iter(self.came))]
        return not bits & bit


class Sealed(Over):
    """A carrier whose datagrams a key closes. What does not open is dropped, and counted by the inbox; what came before is dropped. An origin is
    that of the sender's tag; if the network keeps names, with its name."""

    def __init__(self, under: Carrier, seal: Seal) -> None:
        super().__init__(under)
        self.seal = seal
        self.counters = Counters()

    @property
    def where(self) -> str:
        return self.under.where + (", tagged by a key" if self.seal.is_tagging else ", sealed by a key")

    def arrive(self, data: bytes, origin: Origin) -> None:
        """What costs least is looked at first. Of a tagged datagram the sender and the counter stand in the open: if it came, its tag tells no more."""
        if data[:4] in PLAIN or len(data) < HEAD + TAG:
            return self.inbox.miss()
        if data[0] == TAGGED_KIND and self.counters.has_come(*sent_by(data)):
            return
        letter = self.seal.read(data)
        if letter is None:
            self.inbox.miss()
        elif letter.sender != self.seal.sender and self.counters.is_new(letter.sender, letter.counter):
            self.hand_on(letter, origin)

    def hand_on(self, letter: Letter, origin: Origin) -> None:
        """A last will tells the tag of who is gone."""
        if letter.data.startswith(GONE):
            origin = tagged(origin, letter.data[len(GONE):].decode("latin-1"))
            self.inbox.arrive(GONE + origin.text.encode(), origin)
        else:
            self.inbox.arrive(letter.data, tagged(origin, letter.sender.hex()))

    def send(self, data: bytes) -> bool:
        return self.under.send(self.seal.send(data))


def tagged(origin: Origin, tag: str) -> Origin:
    return dataclasses.replace(origin, text=origin.text if origin.is_kept else tag, tag=tag)
