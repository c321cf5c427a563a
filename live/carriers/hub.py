"""One carrier for many members of this program: what one of them sends, the network and all others get."""
from __future__ import annotations

import itertools
import threading
from typing import Dict

from .carrier import Carrier, Origin, Taker
from .mqtt import GONE


class Hub:
    """The carrier under it begins with the first member, and ends with the hub."""

    def __init__(self, under: Carrier) -> None:
        self.under = under
        self.changed = threading.Lock()
        self.inboxes: Dict[Origin, Taker] = {}
        self.numbers = itertools.count(1)
        self.trouble = ""
        self.has_begun = False

    def place(self) -> Place:
        """A carrier for one more member. No name that a broker knows has a slash. At the next start another member may have this one."""
        return Place(self, Origin("here/%d" % next(self.numbers), is_kept=True, lasts=False))

    def add(self, origin: Origin, inbox: Taker) -> None:
        with self.changed:
            self.inboxes = {**self.inboxes, origin: inbox}
            begins, self.has_begun = not self.has_begun, True
        inbox.tell(self.trouble)
        if begins:
            self.under.begin(self)

    def remove(self, origin: Origin) -> None:
        """A member is gone, which the others learn."""
        with self.changed:
            self.inboxes = {other: inbox for other, inbox in self.inboxes.items() if other != origin}
        self.spread(GONE + origin.text.encode(), origin)

    def spread(self, data: bytes, origin: Origin) -> None:
        """To all members of this program but the one that sent it."""
        for other, inbox in self.inboxes.items():
            if other != origin:
                inbox.arrive(data, origin)

    # ---- what the carrier under it begins with

    def arrive(self, data: bytes, origin: Origin) -> None:
        self.spread(data, origin)

    def miss(self) -> None:
        for inbox in self.inboxes.values():
            inbox.miss()

    def tell(self, trouble: str) -> None:
        self.trouble = trouble
        for inbox in self.inboxes.values():
            inbox.tell(trouble)

    def end(self) -> None:
        self.under.end()


class Place:
    """The carrier of one member at a hub."""

    def __init__(self, hub: Hub, origin: Origin) -> None:
        self.hub = hub
        self.origin = origin

    @property
    def where(self) -> str:
        return self.hub.under.where

    def begin(self, inbox: Taker) -> None:
        self.hub.add(self.origin, inbox)

    def send(self, data: bytes) -> bool:
        self.hub.spread(data, self.origin)
        return self.hub.under.send(data)

    def end(self) -> None:
        self.hub.remove(self.origin)
