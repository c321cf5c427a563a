"""A carrier moves datagrams, which may be lost, repeated and reordered. It has four calls: begin with an inbox, send bytes, where it
is, and end. Of members, their numbers and drawings it knows nothing."""
from __future__ import annotations

import hashlib
import os
from dataclasses import dataclass, field
from typing import TYPE_CHECKING, Optional, Protocol

if TYPE_CHECKING:
    from ..options import Address

# the longest datagram that UDP carries, and by how much a sealed one is longer than a plain one
MOST_BYTES = 65_507
SEALED = 45


# Places become numbers with this key. Nobody else knows it, so nobody finds two places of one number.
KEY = os.urandom(16)


class NetworkFault(Exception):
    """There is no such port, group, peer, broker or package."""


@dataclass(frozen=True)
class Origin:
    """Where a datagram came from. Two that differ are two senders. If it is kept, the network lets nobody else send from there, and if it
    lasts, under the same name at each start; under a key one start of a member has one tag, wherever it sends from."""

    text: str
    is_kept: bool = False
    address: Optional[Address] = field(default=None, compare=False)  # of UDP, beside which a stream may be had
    tag: str = ""
    lasts: bool = field(default=True, compare=False)

    @property
    def owner(self) -> Optional[str]:
        """The name of who alone sends from there, if the network keeps names."""
        return self.text if self.is_kept else None

    @property
    def word(self) -> str:
        """The word for it in the lines of a host: PLACE, or PLACE@OWNER."""
        place = number_of(self.text + "\0" + self.tag, KEY)
        return "%d" % place if self.owner is None else "%d@%d" % (place, owner_number(self.owner))


def number_of(text: str, key: bytes = b"") -> int:
    """The number below 2^64 that a host knows a text by."""
    return int.from_bytes(hashlib.blake2b(text.encode(), digest_size=8, key=key).digest(), "big")


def owner_number(name: str) -> int:
    """The number that a host knows an owner by. A record has it, so it has no key and is the same at each start. Another name of the number of one
    that is there takes 2^64 tries to find."""
    return number_of(name)


class Taker(Protocol):
    """What a carrier begins with: an inbox, or what stands before it."""

    def arrive(self, data: bytes, origin: Origin) -> None:
        """A datagram came in."""

    def miss(self) -> None:
        """Something came in that is none of this session's."""

    def tell(self, trouble: str) -> None:
        """What is the matter with the network; empty where it carries."""


class Carrier(Protocol):
    @property
    def where(self) -> str:
        """Where it is, for people."""

    def begin(self, inbox: Taker) -> None:
        """From now on what arrives goes to the inbox."""

    def send(self, data: bytes) -> bool:
        """Whether it could be sent to all."""

    def end(self) -> None:
        """Nothing arrives any more, and nothing is sent."""


class Over:
    """A carrier over another, and before an inbox. What comes in is each one's own matter; all else goes through."""

    def __init__(self, under: Carrier) -> None:
        self.under = under

    @property
    def where(self) -> str:
        return self.under.where

    def begin(self, inbox: Taker) -> None:
        self.inbox = inbox
        self.under.begin(self)

    def arrive(self, data: bytes, origin: Origin) -> None:
        """A datagram came in."""

    def miss(self) -> None:
        self.inbox.miss()

    def tell(self, trouble: str) -> None:
        self.inbox.tell(trouble)

    def send(self, data: bytes) -> bool:
        return self.under.send(data)

    def end(self) -> None:
        self.under.end()


class Nobody:
    """A carrier without anyone, for a replay and for a class of its own."""

    def __init__(self, where: str) -> None:
        self.where = where

    def begin(self, inbox: Taker) -> None:
        """Nothing arrives."""

    def send(self, data: bytes) -> bool:
        return True

    def end(self) -> None:
        """There is nothing to close."""
