"""The judgement of a member, as the table of cases has it: which datagrams are handed to its host, and why the others are not.

It is written to be read, and kept apart from the one that has to be fast: the crate wb_judge passes the table of cases as it does. It has no host, no clock and no socket: whoever asks tells the moment, and what the host holds. Moments and times
are microseconds. A datagram is said in the words of `wb words`."""

from __future__ import annotations

from dataclasses import dataclass, field
from typing import Dict, List, NamedTuple, Optional, Sequence, Tuple

SECOND = 1_000_000
MINUTE, DAY = 60 * SECOND, 86_400 * SECOND

# Moments of our own reports that are remembered. An echo of one that is older than FRESH answers nobody. Of two clocks one may go faster by one part in DRIFT.
OWN, FRESH, DRIFT = 256, 256 * SECOND, 4_096

# the most origins of which the last report under our number is remembered that is not ours
MOST_ALIENS = 8

# An origin that answered us is known until it was silent for so long, and a number that has no owner stays with its origin for so long.
SILENCE, PATIENCE = 600 * SECOND, 192 * SECOND

# origins that are known, and numbers that were heard
MOST_KNOWN, MOST_OTHERS = 1_024, 1_024

# All that no known origin gave has one cell in STRANGERS, and one such origin one in OF_ORIGIN, but LEAST_SHARE at least.
STRANGERS, OF_ORIGIN, LEAST_SHARE = 16, 128, 16

# Pages on which drawops stand that no known origin gave, and sources that they have, summed over the pages: a host tells its pages in turn, and the
# sources of a page in parts, so each keeps what members draw from being told for a while.
STRANGE_PAGES, STRANGE_ROWS = 16, 256

# marks that are remembered of those that members told
MOST_TOLD = 1_024

# one cell in RESERVE is kept for deletes and restores of members
RESERVE = 32

# So many at once, and then one in each pause: numbers that are heard first, those that answer us, and requests and questions of origins that
# are not known.
MOST_NEW, MOST_ANSWERING, NEW_PAUSE = 256, 256, SECOND

# above this no number more of an origin that has one, so that there is room for one that has none
NEW_OF_ONE = 128
MOST_ASKED, ASKED_PAUSE = 64, SECOND // 16

# So many requests of members for what is held, each of which brings a repair; above REPAIRS_OF_ONE, not two in a row of one member.
MOST_REPAIRS, REPAIR_PAUSE, REPAIRS_OF_ONE = 512, SECOND // 500, 256

# A name that is firm stays so for FIRM_TIME. Beside more than MOST_SHARING others it is firm as seldom as beside one more than these.
FIRM_TIME, MOST_SHARING = 2 * SECOND, 31

# A member that lacks LACKING numbers takes a stream, unless one began lately, or one of that member.
LACKING, FETCH_PAUSE, FETCH_AGAIN = 500, 10 * SECOND, 60 * SECOND

# A mark of ours that is so far above what we hold is forged, and so is any number from here on.
FORGED_ABOVE, FORGED_NUMBER = 65_536, 2**31

# how far ahead of our time of day the time of a drawop may be
AHEAD_KNOWN, AHEAD_STRANGER = DAY, MINUTE


class Origin(NamedTuple):
    """Where a datagram came from. It has an owner if the network lets nobody else send from there."""

    text: str
    owner: Optional[str] = None


class Name(NamedTuple):
    """Of a drawop: its source, its page `C/N`, and its number there."""

    source: int
    page: str
    number: int


@dataclass(frozen=True)
class Datagram:
    """What of a datagram is judged. A report is a session message or a page state."""

    kind: str
    speaker: int
    name: Optional[Name] = None  # of a drawop, or of what a request asks for
    time: int = 0
    is_drawing: bool = False
    sent: int = 0
    marks: Dict[int, int] = field(default_factory=dict)
    echoes: Dict[int, Tuple[int, int]] = field(default_factory=dict)
    page: str = ""  # of a report


@dataclass(frozen=True)
class Facts:
    """What the host says of itself, and of a datagram."""

    now: int
    held: int = 0  # drawops on all pages
    listens: bool = False
    holds: bool = False  # the drawop, or what the request asks for
    above: bool = False  # the number of a drawop is above all of ours on its page that are held or were heard of
    top: int = 0  # the greatest number that is held: of ours on the page of a report, of the source of a drawop on its page
    lacking: int = 0  # numbers up to the marks of a report that are not held


@dataclass(frozen=True)
class Verdict:
    """Whether a datagram is handed in, or else why not; what people are warned of; and from where a stream is taken."""

    why: Optional[str] = None
    warn: Optional[str] = None
    fetch: Optional[Origin] = None


@dataclass
class Other:
    """A number that was heard: from where, when last, when it last answered us, and when a stream of it began."""

    origin: Origin
    at: int
    answered: Optional[int] = None
    fetched: Optional[int] = None


class Bucket:
    """So many at once, and then one in each pause."""

    def __init__(self, most: int, pause: int) -> None:
        self.most, self.pause = most, pause
        self.paid = 0  # up to this moment

    def takes(self, now: int, most: Optional[int] = None) -> bool:
        if max(self.paid, now) - now > ((self.most if most is None else most) - 1) * self.pause:
            return False
        self.paid = max(self.paid, now) + self.pause
        return True


class Judge:
    """`here` is the owner of our own origin, if the network keeps it, and `strangers` how many drawops no known origin may give."""

    def __init__(self, me: int, cells: int, now: int, wall: int, here: Optional[str] = None, strangers: Optional[int] = None) -> None:
        self.me, self.cells, self.here = me, cells, here
        self.most_strange = max(LEAST_SHARE, cells // STRANGERS) if strangers is None else strangers
        self.most_of_origin = min(self.most_strange, max(LEAST_SHARE, cells // OF_ORIGIN))
        self.tell_time(now, wall)
        self.known: Dict[Origin, int] = {}  # when something last came from there
        self.others: Dict[int, Other] = {}  # the one that was heard last at the end
        self.own: List[int] = []
        self.aliens: Dict[Origin, Tuple[int, int]] = {}  # of the last report under our number from there that is not ours: its moment, and when it came
        self.strange: Dict[Name, Origin] = {}  # what is held that no known origin gave
        self.told: List[Name] = []  # marks that members told
        self.new = Bucket(MOST_NEW, NEW_PAUSE)
        self.answering = Bucket(MOST_ANSWERING, NEW_PAUSE)
        self.asked = Bucket(MOST_ASKED, ASKED_PAUSE)
        self.repairs = Bucket(MOST_REPAIRS, REPAIR_PAUSE)
        self.served: Optional[Origin] = None  # whose request for what is held was taken last, of members
        self.fetch_at = 0
        self.has_twin = False

    # ---- what the judge hears of the host

    def tell_time(self, now: int, wall: int) -> None:
        """The time of day at a moment."""
        self.wall, self.wall_at = wall, now

    def reported(self, sent: int) -> None:
        """A report of ours has this moment."""
        self.own = [*self.own, sent][-OWN:]

    def took(self, origin: Origin, name: Name, now: int) -> None:
        """The host has taken in a drawop that is new."""
        if not self.is_known(origin, now):
            self.strange[name] = origin

    def remember(self, name: Name) -> None:
        """By the record, no known origin gave a drawop that is held. Of more than a share not all are remembered."""
        if len(self.strange) < self.most_strange:
            self.strange[name] = Origin("record")

    def recall(self, number: int, origin: Origin) -> None:
        """By the record, a number answered from there once. Whoever has answered under it since keeps it, and ours is ours."""
        other = self.others.get(number)
        if number != self.me and (other is None or other.answered is None):
            self.put(number, Other(origin, 0, answered=0))

    def leave(self, origin: Origin) -> None:
        """The network says that who spoke from there is gone."""
        self.known.pop(origin, None)
        self.others = {number: other for number, other in self.others.items() if other.origin != origin}

    # ---- questions

    def time_of_day(self, now: int) -> int:
        return self.wall + now - self.wall_at

    def is_known(self, origin: Origin, now: int) -> bool:
        return origin in self.known and now - self.known[origin] <= SILENCE

    def answers(self, datagram: Datagram, now: int) -> bool:
        """Whether a report echoes a moment at which we reported lately, which nobody knows that did not hear that report."""
        sent, held = datagram.echoes.get(self.me, (-1, 0))
        ago = now - sent
        return sent in self.own and ago <= FRESH and held <= ago + ago // DRIFT

    def is_bound_elsewhere(self, number: int, origin: Origin, now: int) -> bool:
        """Whether a number is that of a member that has answered us and speaks from another origin."""
        other = self.others.get(number)
        is_there = other is not None and (now - other.at <= PATIENCE or other.origin.owner is not None)
        return other is not None and other.origin != origin and other.answered is not None and is_there

    def has_number(self, origin: Origin) -> bool:
        return any(other.origin == origin for other in self.others.values())

    def owner_of(self, number: int) -> Optional[str]:
        """Who answered under a number owns it; who only claims it does not. Ours is ours."""
        other = self.others.get(number)
        return self.here if number == self.me else other.origin.owner if other is not None and other.answered is not None else None

    def is_forged(self, number: int, origin: Origin) -> bool:
        """Whether a number is another owner's."""
        owner = self.owner_of(number)
        return None not in (owner, origin.owner) and owner != origin.owner

    def is_firm(self, name: Name, now: int) -> bool:
        """Whether nothing that others send of a name hushes us. Each has its turns; beside one other member all turns are its."""
        others = sum(other.answered is not None and now - other.at <= PATIENCE for other in self.others.values())
        turns = 4 * min(max(others - 1, 0), MOST_SHARING) + 1
        return (name.source + name.number + self.me + now // FIRM_TIME) % turns == 0

    def hushes(self, origin: Origin, name: Name, now: int) -> bool:
        """Whether what came from there of a name may keep us from answering, or back our request off."""
        return self.is_known(origin, now) and not self.is_firm(name, now)

    def is_full(self, held: int) -> bool:
        """No drawing has room, and deletes and restores of members alone have."""
        return held >= self.cells - self.cells // RESERVE

    def is_over(self, origin: Origin) -> bool:
        """No more that is new is taken from an origin that is not known."""
        given = list(self.strange.values())
        return len(given) >= self.most_strange or given.count(origin) >= self.most_of_origin

    def is_wide(self, name: Name) -> bool:
        """It would be on a page more, or of a source more on a page, than all that no known origin gave may be."""
        pages, rows = {each.page for each in self.strange}, {(each.source, each.page) for each in self.strange}
        opens_page, opens_row = name.page not in pages, (name.source, name.page) not in rows
        return opens_page and len(pages) >= STRANGE_PAGES or opens_row and len(rows) >= STRANGE_ROWS

    def is_told(self, name: Name) -> bool:
        """Whether a member told a mark of its source on its page that is as high: so there are such drawops."""
        return any(told[:2] == name[:2] and told.number >= name.number for told in self.told)

    def hear_marks(self, datagram: Datagram) -> None:
        """A member reports marks."""
        for source, high in sorted(datagram.marks.items()):
            name = Name(source, datagram.page, high)
            if not self.is_told(name):
                self.told = [*self.told, name][-MOST_TOLD:]

    # ---- what comes in

    def judge(self, origin: Origin, datagram: Datagram, facts: Facts) -> Verdict:
        if self.is_known(origin, facts.now):
            self.known[origin] = facts.now
        verdict = self.verdict(origin, datagram, facts)
        if self.is_known(origin, facts.now):
            self.hear_marks(datagram)
        return verdict

    def verdict(self, origin: Origin, datagram: Datagram, facts: Facts) -> Verdict:
        if datagram.kind == "draw":
            return self.judge_drawop(origin, datagram, facts)
        if self.is_forged(datagram.speaker, origin):
            return Verdict("speaks", "speaks %d" % datagram.speaker)
        if datagram.speaker == self.me:
            return self.judge_own(origin, datagram, facts.now)
        if datagram.kind in ("session-message", "page-state"):
            return self.judge_report(origin, datagram, facts)
        return self.judge_question(origin, datagram, facts)

    def judge_own(self, origin: Origin, datagram: Datagram, now: int) -> Verdict:
        """Under our own number. If it is no report of ours and answers us, somebody is here who has our number too."""
        if datagram.kind == "session-message" and datagram.sent not in self.own:
            self.put_alien(origin, datagram.sent, now)
            if self.answers(datagram, now) and not self.has_twin:
                self.has_twin = True
                return Verdict("own", "twin")
        return Verdict("own")

    def put_alien(self, origin: Origin, sent: int, now: int) -> None:
        """It is remembered if there is room beside those of other origins. So noise hides no twin."""
        self.aliens = {each: alien for each, alien in self.aliens.items() if each != origin and now - alien[1] <= FRESH}
        if len(self.aliens) < MOST_ALIENS:
            self.aliens[origin] = sent, now

    def judge_report(self, origin: Origin, datagram: Datagram, facts: Facts) -> Verdict:
        is_answer, other = self.answers(datagram, facts.now), self.others.get(datagram.speaker)
        if not is_answer and self.is_bound_elsewhere(datagram.speaker, origin, facts.now):
            return Verdict("speaks")
        has_room = other is not None and (is_answer or other.origin == origin)
        if not has_room and not (self.answering if is_answer else self.new).takes(facts.now, NEW_OF_ONE if self.has_number(origin) else None):
            return Verdict("crowd")
        own = datagram.marks.get(self.me, 0)
        if facts.listens and own > facts.top + FORGED_ABOVE:
            return Verdict("mark", "mark")
        self.hear(datagram.speaker, origin, facts.now, is_answer)
        return Verdict(None, "mark" if not facts.listens and own > facts.top else None, self.fetch(datagram.speaker, facts))

    def hear(self, number: int, origin: Origin, now: int, is_answer: bool) -> None:
        """A number speaks from there."""
        before = self.others.get(number)
        other = before if before is not None and before.origin == origin else Other(origin, now)
        other.at = now
        if is_answer:
            other.answered = now
            self.know(origin, now)
        self.put(number, other)

    def put(self, number: int, other: Other) -> None:
        """The number is the last that is remembered. Of too many, one that has not answered us goes first."""
        self.others.pop(number, None)
        self.others[number] = other
        if len(self.others) > MOST_OTHERS:
            unanswered = [each for each, one in self.others.items() if one.answered is None and each != number]
            del self.others[[*unanswered, *self.others][0]]

    def know(self, origin: Origin, now: int) -> None:
        """A member speaks from there: what came from there before is a member's too."""
        self.known[origin] = now
        if len(self.known) > MOST_KNOWN:
            del self.known[min(self.known, key=lambda each: self.known[each])]
        self.strange = {name: each for name, each in self.strange.items() if each != origin}

    def fetch(self, number: int, facts: Facts) -> Optional[Origin]:
        """A member that lacks much takes a stream, from another that has answered us, at the origin of that."""
        other, now = self.others[number], facts.now
        if other.answered is None or facts.lacking < LACKING or now < self.fetch_at:
            return None
        if other.fetched is not None and now - other.fetched < FETCH_AGAIN:
            return None
        other.fetched, self.fetch_at = now, now + FETCH_PAUSE
        return other.origin

    def judge_question(self, origin: Origin, datagram: Datagram, facts: Facts) -> Verdict:
        """What a request for what is held or a question brings is sent to everybody, so few are taken at a time; but questions of members bring
        one answer a second at most, whoever asks. A request for what is not held puts off ours."""
        is_known, name = self.is_known(origin, facts.now), datagram.name
        if name is not None and not facts.holds:
            return Verdict(None if self.hushes(origin, name, facts.now) else "again" if is_known else "stranger")
        if not is_known:
            return Verdict(None if self.asked.takes(facts.now) else "flood")
        return Verdict(None if name is None or self.is_repaired(origin, facts.now) else "flood")

    def is_repaired(self, origin: Origin, now: int) -> bool:
        """Whether a repair for a member is paid for, which it then is."""
        if not self.repairs.takes(now, REPAIRS_OF_ONE if origin == self.served else MOST_REPAIRS):
            return False
        self.served = origin
        return True

    def judge_drawop(self, origin: Origin, datagram: Datagram, facts: Facts) -> Verdict:
        is_known = self.is_known(origin, facts.now)
        if facts.holds:  # a repair that a member gave keeps us from giving it, unless its name is firm, and one of a stranger does not
            return Verdict("again" if datagram.name is None or not self.hushes(origin, datagram.name, facts.now) else None)
        if self.is_forged_drawop(is_known, datagram, facts):
            return Verdict("own")
        if not is_known and origin.owner is None and self.is_bound_elsewhere(datagram.speaker, origin, facts.now):
            return Verdict("speaks")  # where origins have owners it is a repair, as anybody may give one
        if datagram.time > self.time_of_day(facts.now) + (AHEAD_KNOWN if is_known else AHEAD_STRANGER):
            return Verdict("ahead")
        if self.is_full(facts.held) and (datagram.is_drawing or not is_known):
            return Verdict("full", "full")
        if not is_known and self.is_over(origin):
            return Verdict("share", "share" if self.most_strange else None)
        if not is_known and datagram.name is not None and self.is_wide(datagram.name):
            return Verdict("pages")
        if not is_known and datagram.name is not None and datagram.name.number > facts.top + 1 and not self.is_told(datagram.name):
            return Verdict("holes")
        return Verdict()

    def is_forged_drawop(self, is_known: bool, datagram: Datagram, facts: Facts) -> bool:
        """Whether a drawop that has our number is not ours, or raises our numbers, which marks alone do, while we listen. Then none of ours is
        taken, so that all marks are measured by what our record has; later members give what it has lost."""
        if datagram.speaker != self.me or datagram.name is None:
            return False
        return datagram.name.number >= FORGED_NUMBER or facts.above or facts.listens or not is_known

    # ---- what is sent

    def own_echo(self, now: int) -> Optional[Tuple[int, int]]:
        """What a report of ours echoes besides, under our own number: the moment of a report that was not ours, and how long ago it came. Who
        has our number too hears by it that we have heard it. Each origin has its turns, by the last microseconds of our moment."""
        if not self.aliens:
            return None
        sent, at = list(self.aliens.values())[now % len(self.aliens)]
        return None if now - at > FRESH else (sent, now - at)

    def fault_of_adding(self, is_drawing: bool, held: int) -> Optional[str]:
        """Why nothing can be drawn."""
        if self.has_twin:
            return "twin"
        return "full" if is_drawing and self.is_full(held) else None

    def order_of(self, held: Sequence[Name]) -> List[str]:
        """The pages of what is held, in the order in which it came, sorted: first those of ours, then those with drawops of members, then
        those of strangers alone. Of each kind the one comes first on which was drawn last."""
        ranks: Dict[str, Tuple[int, int]] = {}
        for at, name in enumerate(held):
            rank = 0 if name.source == self.me else 2 if name in self.strange else 1
            ranks[name.page] = min(rank, ranks.get(name.page, (2, 0))[0]), -at
        return sorted(ranks, key=lambda page: ranks[page])
