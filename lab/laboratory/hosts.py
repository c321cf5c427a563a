"""The members of a session: one `wb host` each, spoken to by the shared client. What happens to a member becomes lines here."""
from __future__ import annotations

import resource
from collections.abc import Callable, Iterator
from dataclasses import dataclass
from pathlib import Path
from typing import Protocol

from laboratory.clocks import Clock
from laboratory.driving import Tuner
from laboratory.reading import Datagram, Name
from wbhost import Host, HostEnded

PAGE = "1 0"
PAGE_NAME = "1/0"
LOOK = f"look {PAGE}"

# seconds in which a host has to answer: members wait for one another, and many share a machine
PATIENCE = 120


class Fault(Exception):
    """What a session showed that must not be."""


@dataclass(frozen=True)
class Drawing:
    """The user of a member draws, as its drawop of this number if none was lost from its record."""

    number: int
    shape: str


@dataclass(frozen=True)
class Report:
    """A member's session message is due, by its driver."""


@dataclass(frozen=True)
class Joining:
    """A member begins, or comes when others have drawn already."""

    is_late: bool


@dataclass(frozen=True)
class Arrival:
    """A datagram comes. The member learns by it that it lacks these drawops; `is_looked` tells whether a driver that judges looks.
    `can_wait` tells that a member that keeps itself does nothing by it: a report of what it has, when it lacks nothing."""

    datagram: Datagram
    missed: tuple[Name, ...]
    is_looked: bool
    can_wait: bool = False


Happening = Drawing | Report | Joining | Arrival
Sent = tuple[int, "str | Datagram"]  # the moment at which a member sends, and what


class Member(Protocol):
    """A member as a session sees it. `due` is when its next timer is due, in the session's time, or None.

    `give` begins what happens to it in a window, and ticks where a timer is due before its end; `take` waits for that, and answers what it sends.
    """

    number: int
    due: int | None

    def give(self, happenings: list[tuple[int, Happening]], start: int, end: int) -> None: ...

    def take(self) -> list[Sent]: ...

    def answer(self, question: str) -> list[str]: ...

    def close(self) -> None: ...


class HostMember:
    """A member that is a `wb host`; `lines` is all that it was given, and `last_new` when the last drawop that it lacked came. Where a `tuner`
    has its constants follow the session, what it sends is read before the next line is made."""

    def __init__(self, number: int, host: Host, opening: str, clock: Clock, tuner: Tuner | None = None) -> None:
        self.number, self.host, self.clock, self.tuner = number, host, clock, tuner
        self.takes_constants = True
        self.due: int | None = None
        self.moment = -1  # of the last line, in the session's time
        self.last_new = 0
        self.lines: list[bytes] = []
        self.made: list[tuple[int, str]] = []  # lines that the host is still to be given
        self.given: list[tuple[int, bytes]] = []  # lines whose blocks are still to be read
        self.sent: list[Sent] = []
        self.made.append((0, opening))
        self.give_made()
        self.take()

    def give(self, happenings: list[tuple[int, Happening]], start: int, end: int) -> None:
        due = None if self.due is None or self.due >= end else max(self.due, self.moment, start)
        for moment, happening in happenings:
            if due is not None and due <= moment:
                self.make(due, self.tick(due))
                due = None
            for line in self.lines_of(moment, happening):
                self.make(moment, line)
        if due is not None:
            self.make(due, self.tick(due))
        self.give_made()

    def make(self, moment: int, line: str) -> None:
        """A line that the host is to be given, behind one for other constants where these are due. If a timer may be due at it, then what it
        sends is read at once, since constants may follow that."""
        if self.tuner and self.takes_constants:
            self.made += [(moment, other) for other in self.tuner.lines(moment)]
        self.made.append((moment, line))
        if self.tuner and self.due is not None and self.due <= moment:
            self.give_made()
            self.read_given()

    def give_made(self) -> None:
        if not self.made:
            return
        given = [(moment, line.encode()) for moment, line in self.made]
        self.made = []
        self.given += given
        self.lines += [line for _, line in given]
        self.moment = given[-1][0]
        try:
            self.host.give([line for _, line in given])
        except HostEnded as error:
            raise Fault(f"member {self.number} ended at '{given[0][1][:60].decode()}'") from error

    def take(self) -> list[Sent]:
        self.read_given()
        sent, self.sent = self.sent, []
        return sent

    def read_given(self) -> None:
        """Reads what the lines that were given printed."""
        sent: list[tuple[int, str]] = []
        last = b""
        for moment, line in self.given:
            *printed, last = self.printed(line)
            for answer in printed:
                if answer.startswith(b"send "):
                    sent.append((moment, answer[5:].decode()))
                elif answer == b"batch 1 0 0 0":
                    self.last_new = moment
                elif answer.startswith(b"batch ") and answer != b"batch 0 1 0 0":
                    raise Fault(f"member {self.number} prints '{answer.decode()}': a name has two drawops, or the board is full")
        if last:
            self.due = None if last == b"ok never" else self.clock.when(int(last[3:]))
        self.given = []
        if self.tuner:
            self.sent += self.tuner.goes(sent)
        else:
            self.sent += sent

    def printed(self, line: bytes) -> list[bytes]:
        """What a line printed, its closing line too."""
        try:
            block = self.host.printed(line)
        except HostEnded as error:
            raise Fault(f"member {self.number} ended at '{line[:60].decode()}': {error}") from error
        if block[-1].startswith(b"refused "):
            raise Fault(f"member {self.number}: '{line[:60].decode()}' is {block[-1].decode()}")
        return block

    def tick(self, moment: int) -> str:
        return f"tick {self.clock.local(moment)}"

    def lines_of(self, moment: int, happening: Happening) -> Iterator[str]:
        """The lines for what happens, each of which is made before the next is asked for."""
        raise NotImplementedError

    def comes(self, moment: int, datagram: Datagram) -> None:
        if self.tuner:
            self.tuner.comes(moment, datagram)

    def misses(self, moment: int, names: tuple[Name, ...]) -> None:
        if self.tuner:
            self.tuner.misses(moment, names)

    def answer(self, question: str) -> list[str]:
        """What a question that changes nothing prints."""
        self.host.give([question.encode()])
        return [line.decode() for line in self.printed(question.encode())[:-1]]

    def close(self) -> None:
        self.host.end()


class BareMember(HostMember):
    """A member whose driver judges: it looks when it learns that it lacks something, and tells distances that it
    knows, if it knows them. `distance` gives that to another member."""

    def __init__(
        self, number: int, host: Host, opening: str, clock: Clock, distance: Callable[[int, int], int] | None, tuner: Tuner | None = None,
    ) -> None:
        super().__init__(number, host, opening, clock, tuner)
        self.distance = distance
        self.told = frozenset([number])
        self.ticked = -1

    def lines_of(self, moment: int, happening: Happening) -> Iterator[str]:
        if self.ticked != moment:
            self.ticked = moment
            yield self.tick(moment)
        match happening:
            case Drawing(number, shape):
                yield f"say draw {self.number} {PAGE_NAME} {number} {moment} {shape}"
            case Report():
                yield from (f"session {PAGE}", LOOK)
            case Joining(is_late):
                yield from [f"say ask-pages {self.number}"] if is_late else []
            case Arrival(datagram, missed, is_looked):
                yield from self.distances(datagram)
                self.comes(moment, datagram)
                yield f"datagram {datagram.digits}"
                self.misses(moment, missed)
                yield from [LOOK] if is_looked else []

    def distances(self, datagram: Datagram) -> list[str]:
        """The distances of whomever a datagram tells of first."""
        if self.distance is None or datagram.author == self.number or datagram.tells <= self.told:
            return []
        new = sorted(datagram.tells - self.told)
        self.told |= datagram.tells
        return [f"distance {other} {self.distance(self.number, other)}" for other in new]


class KeptMember(HostMember):
    """A member with a self-managing host. Its driver does four things alone: it hands in what comes, ticks, draws and asks; and a fifth if
    constants follow the session, after `keep`."""

    def __init__(self, number: int, host: Host, opening: str, clock: Clock, rate: int, tuner: Tuner | None = None) -> None:
        super().__init__(number, host, opening, clock, tuner)
        self.keep = f"keep {rate} 0"  # its number is new, so it need not listen first
        self.takes_constants = False

    def lines_of(self, moment: int, happening: Happening) -> Iterator[str]:
        now = self.clock.local(moment)
        match happening:
            case Drawing(_, shape):
                yield f"add {now} {moment} {PAGE_NAME} {shape}"
            case Joining():
                yield from (f"tick {now}", self.keep)
                self.takes_constants = True
            case Arrival(datagram, missed, _):
                self.comes(moment, datagram)
                self.misses(moment, missed)
                yield f"came {now} {datagram.digits}"


def allow_many(members: int) -> None:
    """Two pipes a member take more descriptors than a process is given at first."""
    soft, hard = resource.getrlimit(resource.RLIMIT_NOFILE)
    wanted = 3 * members + 64
    if soft != resource.RLIM_INFINITY and soft < wanted:
        resource.setrlimit(resource.RLIMIT_NOFILE, (wanted if hard == resource.RLIM_INFINITY else min(wanted, hard), hard))


def write_record(directory: Path, members: list[Member]) -> None:
    """Each host's lines in a file of its own: `wb host` answers them as it did in the run."""
    directory.mkdir(parents=True, exist_ok=True)
    for member in members:
        if isinstance(member, HostMember):
            (directory / f"member-{member.number}.txt").write_bytes(b"".join(line + b"\n" for line in member.lines))
