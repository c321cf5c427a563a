"""Links that carry a number of bytes a second: what comes faster waits in a queue, and what finds the queue full is lost."""
from __future__ import annotations

from dataclasses import dataclass, field, replace

from laboratory.losses import Sending
from laboratory.network import Network
from laboratory.reading import Datagram

SECOND = 1_000_000
HEADER = 28  # bytes of UDP and IP before each datagram


@dataclass(frozen=True)
class Hop:
    """A datagram that comes to a node over a link, or begins at its sender's, where `link` is None. It is lost on the links `cut`; `is_first` tells a
    drawop that its source sends for the first time."""

    datagram: Datagram
    is_first: bool
    node: int
    link: int | None
    cut: frozenset[int]


@dataclass
class Queues:
    """Each direction of each link has a queue with room for a number of bytes, with those of what it is sending."""

    network: Network
    rate: int  # bytes a second
    room: int
    free: dict[tuple[int, int], float] = field(default_factory=dict)  # of a link towards a node: when it has sent all that waits
    behind: dict[tuple[int, int], tuple[int, ...]] = field(default_factory=dict)
    fullest: float = 0  # the bytes that waited at most

    def enter(self, sending: Sending, datagram: Datagram) -> Hop:
        """A datagram where its sender is."""
        way = self.network.way(sending.sender)
        cut = frozenset(way[place].link for place in self.network.loss.places(way, sending))
        return Hop(datagram, sending.first > 0, self.network.tree.places[sending.sender - 1], None, cut)

    def pass_on(self, moment: int, hop: Hop) -> tuple[list[tuple[int, Hop]], list[int]]:
        """What goes on from a node, with the moments at which it comes to the next ones, and the members that it is lost to."""
        onward: list[tuple[int, Hop]] = []
        lost: list[int] = []
        for node, link in self.network.neighbours[hop.node]:
            members = () if link == hop.link else self.members_behind(node, link)
            if not members:
                continue
            arrival = None if link in hop.cut else self.send(moment, node, link, hop.datagram.size + HEADER)
            if arrival is None:
                lost += members
            else:
                onward.append((arrival, replace(hop, node=node, link=link)))
        return onward, lost

    def send(self, moment: int, node: int, link: int, size: int) -> int | None:
        """When these bytes are at the node at the end of a link, or None if its queue has no room for them."""
        free = max(self.free.get((link, node), 0.0), moment)
        waiting = (free - moment) * self.rate / SECOND
        if waiting + size > self.room:
            return None
        self.fullest = max(self.fullest, waiting)
        self.free[link, node] = free + size * SECOND / self.rate
        return int(self.free[link, node]) + self.network.tree.links[link].delay

    def members_behind(self, node: int, link: int) -> tuple[int, ...]:
        """The members that are reached over a link towards a node."""
        if (link, node) not in self.behind:
            found, stack = [], [(node, link)]
            while stack:
                at, came = stack.pop()
                if at in self.network.member_at:
                    found.append(self.network.member_at[at])
                stack += [(other, number) for other, number in self.network.neighbours[at] if number != came]
            self.behind[link, node] = tuple(sorted(found))
        return self.behind[link, node]
