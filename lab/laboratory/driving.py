"""A driver that gives its running host other constants: what it knows of the timers there, by what comes and what goes, and the lines.

It judges nothing of the host's: it tells its policy what is seen, and gives a `tuning` line where the policy has other constants than the host.
"""
from __future__ import annotations

from collections.abc import Callable, Sequence
from dataclasses import dataclass, field

from laboratory.adapting import Constants, Policy
from laboratory.reading import Datagram, Name, Read

QUIET = 3  # delays for which a name is quiet behind its repair
UNKNOWN_DELAY = 100_000  # a host takes this for a source of which nothing was told, itself too


@dataclass
class Tuner:
    """The driver of a host that has these constants. `far` gives the delay to another member, in microseconds, and `read` turns what the
    host sends into datagrams.

    A member begins to ask when it learns that it lacks a name. It begins to answer at a request for a name that it holds, unless it is to
    answer one already, or a repair of it came or went within three delays.
    """

    policy: Policy
    constants: Constants
    far: Callable[[int], int]
    read: Read
    held: set[Name] = field(default_factory=set)
    asked: set[Name] = field(default_factory=set)
    answering: dict[Name, int] = field(default_factory=dict)  # the delay to whoever asked first
    quiet: dict[Name, int] = field(default_factory=dict)

    def lines(self, moment: int) -> list[str]:
        """What the host is given before a line of this moment."""
        constants = self.policy.now(moment)
        if constants == self.constants:
            return []
        self.constants = constants
        return ["tuning " + " ".join(map(str, constants))]

    def misses(self, moment: int, names: Sequence[Name]) -> None:
        """The member learns that it lacks these, and is not told of it yet."""
        for name in names:
            if name not in self.held and name not in self.asked:
                self.asked.add(name)
                self.policy.begins_to_ask(name, moment, self.far(name[0]))

    def comes(self, moment: int, datagram: Datagram) -> None:
        """A datagram that the host is not given yet."""
        if datagram.name and datagram.kind == "request":
            self.hears(moment, datagram.author, datagram.name)
        elif datagram.name:
            self.arrives(moment, datagram.name)

    def hears(self, moment: int, asker: int, name: Name) -> None:
        if name not in self.held:
            self.policy.sees_request(name, moment, False)
        elif name not in self.answering and self.quiet.get(name, 0) <= moment:
            self.answering[name] = self.far(asker)
            self.policy.begins_to_answer(name, moment, self.answering[name])

    def arrives(self, moment: int, name: Name) -> None:
        self.policy.sees_repair(name, moment, False)
        self.held.add(name)
        if name in self.asked or name in self.answering:
            self.asked.discard(name)
            self.answering.pop(name, None)
            self.quiet[name] = moment + QUIET * self.far(name[0])

    def goes(self, sent: Sequence[tuple[int, str]]) -> list[tuple[int, Datagram]]:
        """What the host sent, with the moments, as datagrams."""
        datagrams = self.read([digits for _, digits in sent]) if sent else []
        told = [(moment, datagram) for (moment, _), datagram in zip(sent, datagrams)]
        for moment, datagram in told:
            if datagram.name and datagram.kind == "request":
                self.policy.sees_request(datagram.name, moment, True)
            elif datagram.name and datagram.name in self.held:
                delay = self.answering.pop(datagram.name, 0) or self.far(datagram.name[0])
                self.quiet[datagram.name] = moment + QUIET * delay
                self.policy.sees_repair(datagram.name, moment, True)
            elif datagram.name:
                self.held.add(datagram.name)
        return told
