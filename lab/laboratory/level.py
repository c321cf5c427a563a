"""A group at one distance, a loss at a time: by the timers of a session, and without its network, so that many constants can be tried.

A loss is on the source's link, so that all others lack the drawop, or on a member's. Members count a delay as
self-managing hosts do: as 10 milliseconds at least.
"""
from __future__ import annotations

import heapq
from collections.abc import Collection
from pathlib import Path

from laboratory.measures import Row
from laboratory.runs import SECOND, Result, Settings, board_words, make_policy, micros
from laboratory.timers import TimerMember, Words

LEAST = 10_000
SOURCE = 1
IN_TURN, AT_SOURCE, AT_MEMBERS = "in turn", "at the source", "at members"


class OneLoss:
    """What happens until nothing of a drawop is under way. At moment 0 these members notice that they lack it, and all others hold it."""

    def __init__(self, number: int, members: Collection[TimerMember], lacking: Collection[int], distance: int) -> None:
        self.name = SOURCE, number
        self.members = {member.number: member for member in members}
        self.lacking, self.distance = lacking, distance
        self.under_way: list[tuple[int, int, str]] = []  # when it comes, who sent it, and its kind
        self.requests: list[int] = []
        self.repairs: list[int] = []
        for member in members:
            if member.number in lacking:
                member.notice(0, self.name)
            else:
                member.held.add(self.name)
        self.dues: list[tuple[int, int]] = []
        self.will(members)

    def will(self, members: Collection[TimerMember]) -> None:
        """These members were moved: when each has something to do next."""
        for member in members:
            due = next_due(member)
            if due is not None:
                heapq.heappush(self.dues, (due, member.number))

    def run(self) -> Row:
        while self.dues or self.under_way:
            if not self.under_way or (self.dues and self.dues[0][0] <= self.under_way[0][0]):
                self.fire(*heapq.heappop(self.dues))
            else:
                self.come(*heapq.heappop(self.under_way))
        trip, whole = 2 * self.distance, self.repairs[0] + self.distance
        waits = round(self.requests[0] / trip, 6), round(whole / trip, 6)
        return Row(*self.name, len(self.lacking), len(self.requests), len(self.repairs), *waits, whole / SECOND)

    def fire(self, due: int, number: int) -> None:
        """A member does what is due, unless something came that made it due later, or not at all."""
        member = self.members[number]
        if next_due(member) != due:
            return
        member.tick(due)
        for moment, datagram in member.take():
            assert not isinstance(datagram, str)
            (self.requests if datagram.kind == "request" else self.repairs).append(moment)
            heapq.heappush(self.under_way, (moment + self.distance, number, datagram.kind))
        self.will([member])

    def come(self, moment: int, sender: int, kind: str) -> None:
        others = [member for member in self.members.values() if member.number != sender]
        for member in others:
            if kind == "request":
                member.hear(moment, sender, self.name)
            else:
                member.arrives(moment, self.name)
        self.will(others)


def next_due(member: TimerMember) -> int | None:
    return min([ask.due for ask in member.asks.values()] + [due for due, _ in member.answers.values()], default=None)


def lacking(loss: str, number: int, members: int) -> range:
    """Who lacks the drawop of a number: all but the source, or one of them. In turn these are all, and the last one; at members another one
    each time."""
    others = range(SOURCE + 1, members + 1)
    if loss == AT_MEMBERS:
        return others[number % len(others):][:1]
    return others if loss == AT_SOURCE or number % 2 else others[-1:]


def run_level(settings: Settings, path: str | Path) -> Result:
    """So many losses as drawings, `in turn`, `at the source` or `at members`. It takes no program. Each member keeps its random words, and its
    constants where these adapt, from one loss to the next."""
    distance = 2 * micros(settings.delay[0])
    kept = {number: (Words(seed), make_policy(settings, lambda moment: settings.members)) for number, seed in board_words(settings).items()}

    def far(one: int, other: int) -> int:
        return max(LEAST, distance)

    def losing(number: int) -> OneLoss:
        members = [TimerMember(member, words, policy, far) for member, (words, policy) in kept.items()]
        return OneLoss(number, members, lacking(settings.loss, number, settings.members), distance)

    return Result(settings, [losing(number).run() for number in range(1, settings.draws + 1)], {})
