"""The datagrams as they go by, in words, and which request a repair answers."""
from __future__ import annotations

import time
from typing import Any, Dict, Optional

from .carriers.carrier import Origin
from .events import Events
from .inbox import Arrival
from .views import Name, name_in, page_text, speaker_of

# characters of a datagram that are shown, and requests and origins that are remembered
MOST_CHARACTERS = 400
MOST_REMEMBERED = 1_024

COUNTED = ("in", "out", "lost", "twice", "refused", "requests", "repairs")


class Wire:
    """Counts what goes by and tells it to the views."""

    def __init__(self, events: Events) -> None:
        self.events = events
        self.began = time.monotonic()
        self.last = 0
        self.origins: Dict[Origin, int] = {}
        self.requests: Dict[Name, int] = {}
        self.counts = dict.fromkeys(COUNTED, 0)

    def learn(self, origin: Origin, member: int) -> None:
        """A member sends from there."""
        if len(self.origins) >= MOST_REMEMBERED:
            self.origins.clear()
        self.origins[origin] = member

    def entry(self, way: str, words: Optional[str], arrival: Optional[Arrival]) -> Dict[str, Any]:
        """The entry of a datagram, which nobody sees yet."""
        self.last += 1
        text = words or ""
        name = name_in(text)
        kind = text.split(" ", 1)[0] or "bad"
        return {
            "id": self.last, "at": round(time.monotonic() - self.began, 3), "way": way, "kind": kind,
            "words": text if len(text) <= MOST_CHARACTERS else text[:MOST_CHARACTERS] + " ..",
            "member": speaker_of(text) if text else None, "name": "%d %s %d" % (name[0], page_text(name[1]), name[2]) if name else None,
            "answers": self.requests.get(name) if name and kind == "draw" else None,
            "lost": arrival is not None and arrival.is_lost, "twice": arrival is not None and arrival.is_second,
            "refused": None, "from": arrival.origin.text if arrival else None,
            "by": self.origins.get(arrival.origin) if arrival else None,
        }

    def came(self, arrival: Arrival, words: Optional[str]) -> Dict[str, Any]:
        """A datagram came in. What became of it is added before anyone sees it."""
        self.counts["in"] += 1
        self.counts["lost"] += arrival.is_lost
        self.counts["twice"] += arrival.is_second
        return self.entry("in", words, arrival)

    def went(self, words: Optional[str]) -> None:
        """A datagram went out."""
        entry = self.entry("out", words, None)
        self.counts["out"] += 1
        self.counts["requests"] += entry["kind"] == "request"
        self.counts["repairs"] += entry["answers"] is not None
        self.tell(entry)

    def tell(self, entry: Dict[str, Any]) -> None:
        """Remembers a request by its name, and tells the entry."""
        self.counts["refused"] += entry["refused"] is not None
        name = name_in(entry["words"]) if entry["kind"] == "request" and not entry["lost"] else None
        if name:
            self.requests.setdefault(name, entry["id"])
            if len(self.requests) > MOST_REMEMBERED:
                del self.requests[next(iter(self.requests))]
        self.events.tell_entry(entry)
