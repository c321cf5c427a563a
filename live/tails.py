"""What this member drew last on a page, before a pause. If that is lost, no later drawing shows the gap, and the others learn of it from a report,
seconds later. So it is sent once more, as TCP sends the end of a flight (RFC 8985), unless something has told of it meanwhile."""
from __future__ import annotations

from dataclasses import dataclass
from typing import Dict, List, Optional

from .clock import SECOND
from .views import Datagram, Drawop, Name, Page, Question, Report

# Microseconds from a drawing until it is sent once more, and until it is sent a last time. The first wait is longer than the pauses of a hand
# that goes on drawing, and than a request and its repair on a LAN. The second outlasts a short outage.
WAITS = SECOND // 4, SECOND

# the last time is left out unless somebody has asked for a drawing in the last minute: on a network without losses, once is enough
LATELY = 60 * SECOND

# pages of which the last drawing waits; of more, the one that was drawn on first goes
MOST_PAGES = 16


@dataclass
class Tail:
    """The last drawing of ours on a page, when we drew it, and how often it was sent again."""

    name: Name
    digits: str
    drawn_at: int
    repeated: int = 0

    @property
    def due(self) -> int:
        return self.drawn_at + WAITS[self.repeated]


class Tails:
    """Those of one number, one for each page."""

    def __init__(self, me: int) -> None:
        self.me = me
        self.tails: Dict[Page, Tail] = {}
        self.asked_at: Optional[int] = None  # when somebody last asked for a drawing

    def drew(self, drawop: Drawop, now: int) -> None:
        """A drawing of ours was sent. The one before it on that page is no tail any more: the new one shows the gap."""
        page = drawop.name[1]
        self.tails.pop(page, None)
        self.tails[page] = Tail(drawop.name, drawop.digits, now)
        if len(self.tails) > MOST_PAGES:
            del self.tails[next(iter(self.tails))]

    def asked(self, now: int) -> None:
        """Something was lost: we ask for it, or another member does."""
        self.asked_at = now

    def hear(self, datagram: Datagram, now: int) -> None:
        """Others hear this datagram of a member too. If it asks for a tail, brings it or reports it, they know of it without us."""
        if isinstance(datagram, Report):
            self.end(datagram.page, datagram.marks.get(self.me, 0))
            return
        if isinstance(datagram, Question) and datagram.name:
            self.asked(now)
        if datagram.name and datagram.name[0] == self.me:
            self.end(*datagram.name[1:])

    def end(self, page: Page, number: int) -> None:
        """The others know that we drew this number."""
        if page in self.tails and self.tails[page].name[2] <= number:
            del self.tails[page]

    def due(self) -> Optional[int]:
        """When one is to be sent again."""
        return min((tail.due for tail in self.tails.values()), default=None)

    def take(self, now: int) -> List[str]:
        """The datagrams that are to be sent again now."""
        due = [tail for tail in self.tails.values() if tail.due <= now]
        taken = [tail for tail in due if not tail.repeated or self.is_lossy(now)]
        for tail in due:
            tail.repeated += 1
            if tail not in taken or tail.repeated == len(WAITS):
                del self.tails[tail.name[1]]
        return [tail.digits for tail in taken]

    def is_lossy(self, now: int) -> bool:
        return self.asked_at is not None and now - self.asked_at <= LATELY
