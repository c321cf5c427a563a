"""Where other threads leave what a member is to do: datagrams, after their delay and at a bounded pace, and calls."""
from __future__ import annotations

import heapq
import threading
import time
from collections import deque
from dataclasses import dataclass
from typing import Callable, Deque, List, Tuple

from .carriers.carrier import Origin

# how many datagrams wait; of more, the oldest is dropped
MOST_WAITING = 2_048

# the pace at which datagrams are taken in: how many a second, and how many bytes
PACE = 2_000
PACE_BYTES = 1 << 20

# seconds of the pace that may be saved up; those from where no member has spoken have a half of it
SAVED = 0.05

# how datagrams begin that are for drivers alone, and no host hears of: where one points, what one holds of a page, and that one is gone
ASIDE = (b"WP", b"WD", b"WG")


def is_framed(data: bytes) -> bool:
    """Whether bytes begin as a datagram does, and are as many as they say. All others go before the pace, so they delay nothing."""
    return data[:2] == b"WB" and len(data) >= 8 and data[2] in (1, 2) and 1 <= data[3] <= 5 and int.from_bytes(data[4:8], "big") == len(data) - 8


@dataclass(frozen=True)
class Arrival:
    """A datagram that came in, from where, and what was done to it on purpose."""

    data: bytes
    origin: Origin
    is_lost: bool = False
    is_second: bool = False


# by the moment when they are due
Queue = List[Tuple[float, int, Arrival]]


class Inbox:
    def __init__(self) -> None:
        self.changed = threading.Condition()
        self.knows: Callable[[Origin], bool] = lambda origin: True  # whether a member speaks from there
        self.arrivals: Queue = []
        self.strange: Queue = []  # from elsewhere
        self.calls: Deque[Callable[[], None]] = deque()
        self.aside: Callable[[bytes, Origin], None] = lambda data, origin: None  # is given what is for drivers alone
        self.count = 0
        self.dropped = 0
        self.bad = 0  # what was no datagram
        self.foreign = 0  # what did not open by the session's key
        self.trouble = ""  # what is the matter with the network
        self.back: Callable[[], None] = lambda: None  # is called on the member's thread once the network carries again
        self.budget = self.for_strange = 0.0
        self.taken_at = time.monotonic()

    # ---- from a carrier

    def arrive(self, data: bytes, origin: Origin) -> None:
        """A datagram came in."""
        self.put(Arrival(data, origin), 0.0)

    def miss(self) -> None:
        """Something came in that is none of this session's."""
        self.foreign += 1

    def tell(self, trouble: str) -> None:
        """What is the matter with the network; empty where it carries."""
        if self.trouble and not trouble:
            self.call(self.back)
        self.trouble = trouble

    def put(self, arrival: Arrival, delay: float) -> None:
        """A datagram is due after the seconds given. What is for drivers alone does not wait."""
        if arrival.data.startswith(ASIDE):
            if not arrival.is_lost:
                self.aside(arrival.data, arrival.origin)
            return
        with self.changed:
            if not is_framed(arrival.data):
                self.bad += 1
                return
            self.count += 1
            queue = self.arrivals if self.knows(arrival.origin) else self.strange
            heapq.heappush(queue, (time.monotonic() + delay, self.count, arrival))
            if len(queue) > MOST_WAITING:
                heapq.heappop(queue)
                self.dropped += 1
            self.changed.notify()

    # ---- from other threads

    def call(self, what: Callable[[], None]) -> None:
        with self.changed:
            self.calls.append(what)
            self.changed.notify()

    # ---- from the member

    def take(self, seconds: float) -> Tuple[List[Callable[[], None]], List[Arrival]]:
        """The calls and the datagrams that are due. Waits for the first of them, at most the seconds given."""
        end = time.monotonic() + seconds
        with self.changed:
            while True:
                now = time.monotonic()
                calls = list(self.calls)
                self.calls.clear()
                arrivals = self.take_due(now)
                if calls or arrivals or now >= end:
                    return calls, arrivals
                self.changed.wait(min(end, self.next_due(now)) - now)

    def take_due(self, now: float) -> List[Arrival]:
        """The datagrams whose delay is over, as many as the pace allows, those of members first."""
        passed, self.taken_at = now - self.taken_at, now
        self.budget = min(SAVED, self.budget + passed)
        self.for_strange = min(SAVED / 2, self.for_strange + passed / 2)
        taken: List[Arrival] = []
        for queue in (self.arrivals, self.strange):
            while queue and queue[0][0] <= now and self.budget > 0 and (queue is self.arrivals or self.for_strange > 0):
                arrival = heapq.heappop(queue)[2]
                cost = max(1 / PACE, len(arrival.data) / PACE_BYTES)
                self.budget -= cost
                self.for_strange -= cost if queue is self.strange else 0
                taken.append(arrival)
        return taken

    def next_due(self, now: float) -> float:
        """When to look again for datagrams."""
        waits = [(self.arrivals, 0.001 - self.budget), (self.strange, max(0.001 - self.budget, 0.002 - 2 * self.for_strange))]
        return min((max(queue[0][0], now + max(0.0, wait)) for queue, wait in waits if queue), default=now + 3600)
