"""Who gets a datagram, and when: the way from each sender over the links, and the links that lose it."""
from __future__ import annotations

from collections import defaultdict
from collections.abc import Iterable
from dataclasses import dataclass, field

from laboratory.losses import Loss, Sending, Step
from laboratory.shapes import Tree

# members who get a datagram at one moment, behind the delay
Group = tuple[int, tuple[int, ...]]


def by_delay(given: Iterable[tuple[int, int]]) -> list[Group]:
    """Members with their delays, as groups of one delay each, the least delay first."""
    groups: dict[int, list[int]] = defaultdict(list)
    for member, delay in given:
        groups[delay].append(member)
    return [(delay, tuple(members)) for delay, members in sorted(groups.items())]


@dataclass
class Network:
    """The network of a run. `deaf` is a member to whom nothing is ever given."""

    tree: Tree
    loss: Loss
    deaf: int | None = None
    ways: dict[int, list[Step]] = field(default_factory=dict)

    def __post_init__(self) -> None:
        self.neighbours: list[list[tuple[int, int]]] = [[] for _ in range(self.tree.nodes)]
        for number, link in enumerate(self.tree.links):
            self.neighbours[link.one].append((link.other, number))
            self.neighbours[link.other].append((link.one, number))
        self.member_at = {node: member for member, node in enumerate(self.tree.places, 1)}
        self.distances: dict[int, dict[int, int]] = {}
        self.all_others: dict[int, list[Group]] = {}

    def way(self, sender: int) -> list[Step]:
        """The way from a sender to all others. Links behind which there is no member are left out."""
        if sender not in self.ways:
            self.ways[sender] = self.walk(self.tree.places[sender - 1])
            others = [(step.member, step.delay) for step in self.ways[sender] if step.member]
            self.all_others[sender] = by_delay(others)
            self.distances[sender] = dict(others)
        return self.ways[sender]

    def distance(self, one: int, other: int) -> int:
        """The microseconds between two members, one way."""
        self.way(one)
        return self.distances[one][other]

    def walk(self, start: int) -> list[Step]:
        visits: list[tuple[int, int, int, int]] = []  # a node, the link to it, its delay, the place of the visit before
        stack = [(start, -1, 0, 0)]
        while stack:
            node, link, delay, before = stack.pop()
            place = len(visits)
            visits.append((node, link, delay, before))
            for other, number in reversed(self.neighbours[node]):
                if number != link:
                    stack.append((other, number, delay + self.tree.links[number].delay, place))
        return self.pruned(visits)

    def pruned(self, visits: list[tuple[int, int, int, int]]) -> list[Step]:
        """The visits behind which there is a member, as steps; the first visit is the sender's own."""
        members_behind = [int(node in self.member_at) for node, _, _, _ in visits]
        for place in range(len(visits) - 1, 0, -1):
            members_behind[visits[place][3]] += members_behind[place]
        kept = [place for place in range(1, len(visits)) if members_behind[place]]
        new_place = {place: at for at, place in enumerate(kept)}
        ends = {place: new_place[place] + 1 for place in kept}
        for place in reversed(kept):
            before = visits[place][3]
            if before:
                ends[before] = max(ends[before], ends[place])
        return [Step(visits[p][1], visits[p][2], ends[p], self.member_at.get(visits[p][0])) for p in kept]

    def least_delay(self) -> int:
        """A time that every datagram is on its way at least: what happens within it at two members can't depend on one another."""
        return max(1, min((link.delay for link in self.tree.links), default=1))

    def receivers(self, sending: Sending) -> tuple[list[Group], list[int]]:
        """The members that get it, in groups of one delay, and those that do not."""
        way = self.way(sending.sender)
        places = self.loss.places(way, sending)
        if not places and self.deaf is None:
            return self.all_others[sending.sender], []
        given: list[tuple[int, int]] = []
        lost: list[int] = []
        start = 0
        for place in places:
            if place >= start:
                given += [(s.member, s.delay) for s in way[start:place] if s.member]
                lost += [s.member for s in way[place:way[place].end] if s.member]
                start = way[place].end
        given += [(s.member, s.delay) for s in way[start:] if s.member]
        if self.deaf is not None:
            lost += [member for member, _ in given if member == self.deaf]
            given = [(member, delay) for member, delay in given if member != self.deaf]
        return by_delay(given), lost
