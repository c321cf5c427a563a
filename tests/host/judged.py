"""A judged host, in plain Python: what each of its lines prints. It is the self-managing host of `policy` with the judge of the table of cases in
front, to which it says what the host holds."""

from __future__ import annotations

from collections.abc import Callable
from dataclasses import dataclass, field, replace

from ..judging import reference
from . import datagrams
from .datagrams import Echo, Mark, Page
from .model import Drawop, Name, listed
from .policy import AskPages, Datagram, Kept, Message, Refused, Request, State

FATES = ["new", "again", "clash", "left"]
TOLD = 64  # marks of a report that are looked at


def paged(page: Page) -> str:
    return f"{page[0]}/{page[1]}"


def judged_name(name: Name) -> reference.Name:
    return reference.Name(name.source, paged(name.page), name.seq)


def judged(datagram: Datagram) -> reference.Datagram:
    """What of a datagram is judged."""
    match datagram:
        case Drawop(name, time, operation):
            return reference.Datagram("draw", name.source, judged_name(name), time, operation[0] < 4)
        case Message(sender, sent, page, marks, echoes):
            told = {source: (at, held) for source, at, held in echoes}
            return reference.Datagram("session-message", sender, sent=sent, marks=dict(marks), echoes=told, page=paged(page))
        case State(sender, page, marks):
            return reference.Datagram("page-state", sender, marks=dict(marks), page=paged(page))
        case Request(asker, name):
            return reference.Datagram("request", asker, judged_name(name))
        case AskPages(asker):
            return reference.Datagram("ask-pages", asker)
    raise TypeError(datagram)


def page_of(datagram: Datagram) -> Page | None:
    """The page whose numbers of ours are looked at."""
    match datagram:
        case Drawop(name):
            return name.page
        case Message() | State():
            return datagram.page
    return None


def marks_of(datagram: Datagram) -> list[Mark]:
    return datagram.marks if isinstance(datagram, (Message, State)) else []


def with_echo(line: str, echo: Echo | None) -> str:
    """A line `send HEX`, whose report has one echo more, at its place by source."""
    data = bytes.fromhex(line.split()[1])
    if echo is None or data[3] != datagrams.SESSION:
        return line
    count = int.from_bytes(data[28:30], "big")
    first = 30 + 8 * count
    echoes = [data[at : at + 20] for at in range(first + 2, len(data), 20)]
    echoes = sorted([*echoes, datagrams.number(echo[0], 4) + datagrams.number(echo[1], 8) + datagrams.number(echo[2], 8)])
    return f"send {datagrams.datagram(datagrams.SESSION, data[8:first] + datagrams.number(len(echoes), 2) + b''.join(echoes))}"


@dataclass
class Judged:
    """A self-managing host, its judge, and what the line in hand has recorded."""

    kept: Kept
    judge: reference.Judge
    lines: list[str] = field(default_factory=list)

    # ---- what the host says of itself

    def last_of_ours(self, page: Page) -> int:
        """The greatest number of ours that is held or was heard of."""
        return int(self.kept.host.next(page).split()[1]) - 1

    def facts(self, now: int, datagram: Datagram) -> reference.Facts:
        host, page = self.kept.host, page_of(datagram)
        highest = dict(host.highest(page)) if page else {}
        lacking = sum(max(0, high - highest.get(source, 0)) for source, high in marks_of(datagram)[:TOLD] if source != host.me)
        holds = isinstance(datagram, (Drawop, Request)) and datagram.name in host.held
        is_above = isinstance(datagram, Drawop) and datagram.name.seq > self.last_of_ours(datagram.name.page)
        top = highest.get(datagram.name.source if isinstance(datagram, Drawop) else host.me, 0)
        return reference.Facts(now, len(host.held), now < self.kept.ready, holds, is_above, top, lacking)

    # ---- the lines

    def came(self, now: int, origin: reference.Origin, datagram: Datagram) -> str:
        self.kept.check(now)
        facts, strange, before = self.facts(now, datagram), dict(self.judge.strange), self.owner_of(datagram)
        verdict = self.judge.judge(origin, judged(datagram), facts)
        self.lines = self.freed(strange) + ([] if verdict.why else self.believed(now, datagram)) + self.owned(datagram, origin, before)
        block = self.does(now, lambda: self.kept.tick(now) if verdict.why else self.kept.came(now, datagram), self.given(now, origin))
        dropped = f"dropped {verdict.why}\n" if verdict.why else ""
        fetched = f"fetch {verdict.fetch.text} {facts.lacking}\n" if verdict.fetch else ""
        return dropped + block + fetched + (f"warn {verdict.warn}\n" if verdict.warn else "")

    def garbled(self, now: int) -> str:
        return "dropped datagram\n" + self.tick(now)

    def tick(self, now: int) -> str:
        self.kept.check(now)
        self.lines = []
        return self.does(now, lambda: self.kept.tick(now), lambda drawop: [])

    def add(self, now: int, page: Page, operation: bytes, told: str) -> str:
        fault = self.judge.fault_of_adding(operation[0] < 4, len(self.kept.host.held))
        if fault:
            raise Refused(fault)
        if self.last_of_ours(page) + 1 >= reference.FORGED_NUMBER:
            raise Refused("too many")
        self.lines, time = [], self.judge.time_of_day(now)
        block = self.does(now, lambda: self.kept.add(now, time, page, operation, told), lambda drawop: [f"say {drawop.words()}"])
        return block if "became" in block else block + "became new\n"

    def wall(self, now: int, wall: int) -> str:
        self.kept.check(now)
        self.judge.tell_time(now, wall)
        return self.tick(now)

    def gone(self, now: int, origin: reference.Origin) -> str:
        self.kept.check(now)
        self.judge.leave(origin)
        return self.tick(now)

    def held(self, line: str, datagram: Drawop | State | None) -> str:
        """A line of the record: a drawop or a mark, who owns a number, or one that says nothing else."""
        now = self.kept.host.now
        if line.startswith("owner "):
            number, place = line.split(" ")[1:]
            self.judge.recall(int(number), reference.Origin(place, place.split("@")[1]))
            return self.tick(now)
        if datagram is None:
            return self.tick(now) if line.startswith("tick ") else ""
        told: Datagram = datagram

        def recalled(drawop: Drawop) -> list[str]:
            if line.startswith("draw "):
                self.judge.remember(judged_name(drawop.name))
            return []

        self.lines = []
        block = self.does(now, lambda: self.kept.came(now, told), recalled)
        if isinstance(datagram, Drawop) and not line.startswith("draw "):
            self.judge.strange.pop(judged_name(datagram.name), None)
        return block

    # ---- what a line prints

    def does(self, now: int, act: Callable[[], str], recorded: Callable[[Drawop], list[str]]) -> str:
        """What the host does, as events. What is recorded of a drawop that it gained comes first."""
        before = len(self.kept.host.held)
        printed = act().splitlines()
        gained = list(self.kept.host.held.values())[before:]
        lines = self.lines + [line for drawop in gained for line in recorded(drawop)]
        echo = self.judge.own_echo(now)
        sent = [with_echo(line, (self.judge.me, *echo) if echo else None) for line in printed if line.startswith("send ")]
        for line in sent:
            if line.startswith("send 57420102"):
                self.judge.reported(int(line[29:45], 16))
        block = [f"record {line}" for line in [f"tick {now}", *lines] if lines]
        block += ["drew {} {} {} {}".format(*drawop.name.page, drawop.name.source, drawop.name.seq) for drawop in gained]
        block += sent + [f"became {FATES[line.split().index('1') - 1]}" for line in printed if line.startswith("batch ")]
        return "".join(f"{line}\n" for line in block)

    def given(self, now: int, origin: reference.Origin) -> Callable[[Drawop], list[str]]:
        """How what an origin gave is recorded: in words, unless the origin is known."""

        def recorded(drawop: Drawop) -> list[str]:
            self.judge.took(origin, judged_name(drawop.name), now)
            is_strange = judged_name(drawop.name) in self.judge.strange
            return [drawop.words() if is_strange else f"datagram {drawop.digits()}"]

        return recorded

    def freed(self, strange: dict[reference.Name, reference.Origin]) -> list[str]:
        """What is strange no more is recorded as a member's."""
        held = self.kept.host.held.items()
        names = [name for name in strange if name not in self.judge.strange]
        return [f"datagram {drawop.digits()}" for name, drawop in held if judged_name(name) in names]

    def believed(self, now: int, datagram: Datagram) -> list[str]:
        """While it listens, a mark of ours above all that it knows of."""
        page, me = page_of(datagram), self.kept.host.me
        if page is None or now >= self.kept.ready or isinstance(datagram, (Drawop, Request, AskPages)):
            return []
        last = self.last_of_ours(page)
        return [f"page-state {datagram.sender} {paged(page)} {me}={high}" for source, high in datagram.marks if source == me and high > last]

    def owner_of(self, datagram: Datagram) -> str | None:
        """Who owns the number under which a report speaks."""
        return self.judge.owner_of(datagram.sender) if isinstance(datagram, (Message, State)) else None

    def owned(self, datagram: Datagram, origin: reference.Origin, before: str | None) -> list[str]:
        """A number that had no owner has one by a report."""
        has_owner = isinstance(datagram, (Message, State)) and before is None and self.owner_of(datagram) is not None
        return [f"owner {judged(datagram).speaker} {origin.text}"] if has_owner else []

    # ---- questions

    def members(self) -> str:
        others, now = self.judge.others.items(), self.kept.host.now
        here = [(number, other) for number, other in others if now - other.at <= reference.PATIENCE]
        rows = [("member", number, other.origin.text, "-" if other.answered is None else other.answered, other.at) for number, other in here]
        return listed("members", rows)

    def view_at(self, page: Page, count: int) -> list[str]:
        """What a page showed when this many drawops were held, in words."""
        then = replace(self.kept.host, held=dict(list(self.kept.host.held.items())[:count]))
        return then.view(page).splitlines()[1:]

    def since(self, page: Page, count: int) -> str:
        """What a page shows otherwise: what came since then may have changed its own drawings and its targets, and nothing else."""
        held = list(self.kept.host.held.values())
        news = [drawop for drawop in held[count:] if drawop.name.page == page]
        touched = [drawop for drawop in held if drawop.operation[0] < 4 and any(new is drawop or new.is_aimed_at(drawop) for new in news)]
        hidden = [f"hidden {drawop.name.source} {drawop.name.seq}" for drawop in touched if drawop in held[:count]]
        words = {drawop.words() for drawop in touched}
        shown = [f"shown {place} {line}" for place, line in enumerate(self.view_at(page, len(held))) if line in words]
        return "".join(f"{line}\n" for line in [f"since {len(held)} {len(hidden) + len(shown)}", *hidden, *shown])

    def lacks(self, page: Page) -> str:
        """How many numbers are missing, and how many drawops above these are requested."""
        ranges = self.kept.host.missing(page)
        asked = [name for name, timers in self.kept.host.timers.items() if timers.ask and name.page == page]
        beyond = [name for name in asked if not any(name.source == source and first <= name.seq <= last for source, first, last in ranges)]
        return f"lacks {sum(last - first + 1 for _, first, last in ranges) + len(beyond)}\n"

    def listing(self, most: int) -> str:
        names = [judged_name(name) for name in self.kept.host.held]
        pages = self.judge.order_of(names)[:most]
        return listed("list", [(*page.split("/"), sum(name.page == page for name in names)) for page in pages])
