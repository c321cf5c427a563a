"""What a member does by the words of its host, which judges all that comes in: what it sends, and how it tells people. What it decides itself
docs/DECISIONS.md has."""
from __future__ import annotations

from functools import partial
from typing import TYPE_CHECKING, Any, Callable, Dict, List, Optional, Sequence, Set, Tuple

from wbhost import Block

from .board import said
from .carriers.carrier import Origin
from .clock import SECOND, wall
from .constants import constants_for
from .heard import Heard, Other
from .inbox import Arrival
from .joining import Joining
from .tails import Tails
from .views import REQUEST, SESSION, Datagram, Drawop, Name, Report, asked_in, name_of

if TYPE_CHECKING:
    from .member import Member

# A member that was not heard for so long is not shown any more, and for some intervals between two reports, since of many members each
# speaks more seldom than that; and an interval at most.
GONE_AFTER, GONE_AFTER_INTERVALS, MOST_INTERVAL = 60 * SECOND, 3, 64 * SECOND

# why a host drops a datagram, for people
WHYS = {
    "own": "our own number", "speaks": "speaks for another", "crowd": "too many new members", "mark": "a mark of ours",
    "stranger": "a stranger asks for what is not held", "flood": "too many requests or questions", "again": "it would hush us",
    "ahead": "ahead of the clock", "full": "the board is full", "share": "over a stranger's share", "pages": "strangers are on too many pages, or too many numbers",
    "holes": "a stranger left numbers out",
}

# what a host warns of, for people; that another has our number is shown as long as it is so
WARNINGS = {
    "speaks": "{origin} speaks for member {number}, which is another's number: that is not heeded",
    "mark": "a report tells of a drawing of ours that we did not make",
    "full": "the board is full: new drawings are not kept",
    "share": "{origin} has not answered us, and draws more than its share: the rest is not kept",
}

# why nothing is drawn
TWIN = "another member has our number: take a new one"


class Judging:
    """On the member's thread."""

    def __init__(self, member: Member) -> None:
        self.member = member
        self.joining = Joining(member)
        self.tails = Tails(member.me)
        self.heard = Heard(member.board)
        self.has_twin = False  # somebody else has our number: for good, also to the host that comes after this one
        self.patience = GONE_AFTER
        self.tuning = member.board.tuning  # the constants of the timers that the host should have

    def plan(self) -> List[Tuple[int, Callable[[], Any]]]:
        """What is to be done, each with its moment."""
        board = self.member.board
        moments = [(board.due, self.member.tick), (self.tails.due(), self.member.repeat)]
        plan: List[Tuple[int, Callable[[], Any]]] = [(moment, act) for moment, act in moments if moment is not None]
        plan += [(board.moment, partial(board.tune, self.tuning))] if self.tuning != board.tuning else []
        plan += [(board.moment, self.member.part)] if self.has_twin and self.member.may_part() else []
        return plan if self.member.is_ready else [*plan, (board.ready_at, self.member.people.begin)]

    # ---- what comes in

    def arrive(self, arrivals: Sequence[Arrival]) -> None:
        """Datagrams came in. It takes in what became of each, and sends what the host sends then."""
        member = self.member
        if member.board.is_wrong():
            member.tell(member.board.line_of_time(member.board.now(), wall()))
        digits = [arrival.data.hex() for arrival in arrivals]
        for arrival, each, told in zip(arrivals, digits, member.words.all(digits)):
            entry = member.wire.came(arrival, told.words)
            sent: List[str] = []
            if not arrival.is_lost:
                entry["refused"] = told.fault if told.words is None else self.heed(member.words.read(each, told.words), each, arrival.origin, sent)
            member.wire.tell(entry)
            member.send_all(sent)

    def heed(self, datagram: Datagram, digits: str, origin: Origin, sent: List[str]) -> Optional[str]:
        """Hands a datagram to the host, and tells why it changes nothing. What the host sends is put behind what is sent."""
        board = self.member.board
        block = board.take([datagram], origin)[0] if isinstance(datagram, Drawop) else board.came([digits], origin)[0]
        sent += block.sent()
        why = next(iter(said(block, "dropped")), None)
        if isinstance(datagram, Report) and why is None and block.fault is None:
            self.notice(datagram, origin, block)
        is_member = self.heard.is_member(origin)
        # what would hush us alone, the others hear too
        if is_member and why in (None, "again"):
            self.tails.hear(datagram, board.moment)
        if isinstance(datagram, Drawop):
            self.notice_drawop(datagram, block, is_member)
        self.warn(block, origin)
        return block.fault if why is None else WHYS.get(why, why)

    def notice(self, report: Report, origin: Origin, block: Block) -> None:
        """Draws the conclusions from a report that the host has heard."""
        member = self.member
        self.heard.note(report)
        if report.is_session:
            member.wire.learn(origin, report.speaker)
            self.count()
        other, is_named = self.heard.get(report.speaker), bool(said(block, "fetch"))
        has_answered = other is not None and other.answered is not None
        if has_answered:
            member.telling.notice(report)
        if has_answered or is_named:
            self.joining.consider(report, origin, is_named)

    def notice_drawop(self, drawop: Drawop, block: Block, is_member: bool) -> None:
        """What became of a drawop. One that the host dropped, since it would hush us, may clash too."""
        held = self.member.drawn.get(drawop.name)
        is_other = is_member and bool(said(block, "dropped")) and held is not None and held.words != drawop.words
        for fate in ["clash"] if is_other else said(block, "became"):
            self.member.telling.notice_fate(drawop.name, fate)

    def warn(self, block: Block, origin: Origin) -> None:
        """Warns people of what a host says."""
        for what, _, number in (text.partition(" ") for text in said(block, "warn")):
            if what == "twin":
                self.has_twin = True
            else:
                self.member.alarms.warn(WARNINGS[what].format(origin=origin.text, number=number))

    def take_stream(self, datagrams: List[bytes], origin: Origin) -> None:
        """Takes in the drawops of a stream from there, each judged as any other."""
        member, before = self.member, self.member.drawn.total
        digits = [datagram.hex() for datagram in datagrams]
        drawops = [Drawop(told.words, each) for each, told in zip(digits, member.words.all(digits)) if told.words and name_of(each)]
        new = [drawop for drawop in drawops if not member.drawn.holds(drawop.name)]
        sent: List[str] = []
        for drawop, block in zip(new, member.board.take(new, origin)):
            sent += block.sent()
            self.notice_drawop(drawop, block, is_member=False)
            self.warn(block, origin)
        self.joining.took(member.drawn.total - before)
        member.send_all(sent)

    # ---- from one member of this program to another

    def take_over(self, drawops: List[Drawop], strange: Set[Name]) -> None:
        """Takes in what another member of this program holds."""
        self.member.board.take_over([drawop for drawop in drawops if not self.member.drawn.holds(drawop.name)], strange)

    # ---- what is sent

    def outgoing(self, digits: str) -> Optional[str]:
        """What goes out for a datagram of the host, if anything: no request while a stream brings what it asks for."""
        if digits.startswith(REQUEST):
            self.tails.asked(self.member.board.now())
            if self.joining.is_coming():
                return None
            self.member.telling.reported.ask(asked_in(digits))
        if digits.startswith(SESSION):
            self.reported(len(digits) // 2)
        return digits

    def reported(self, size: int) -> None:
        """A report of this size in bytes goes out. They come more seldom the more members there are."""
        member = self.member
        interval = min(MOST_INTERVAL, (len(self.present()) + 1) * size * SECOND // member.options.rate)
        self.patience = max(GONE_AFTER, GONE_AFTER_INTERVALS * interval)
        self.count()
        member.telling.notice_room()

    def fault_of_drawing(self) -> Optional[str]:
        """Why it can't be drawn now, whatever the host says."""
        return TWIN if self.has_twin else None

    # ---- who is there

    def present(self) -> Dict[int, Other]:
        """The members that were heard lately. Under a key only those that have answered us: of others what was said before may be played once more."""
        present = self.heard.within(self.patience)
        return {number: other for number, other in present.items() if other.answered is not None} if self.member.options.lock else present

    def count(self) -> None:
        """The constants of the timers go by how many are heard."""
        self.tuning = constants_for(len(self.present()), self.tuning, self.member.options.many())

    def is_known(self, origin: Origin) -> bool:
        """Whether a member spoke from there, by what the host said last; on any thread."""
        return origin.word in self.heard.members

    def leave(self, origin: Origin) -> None:
        """The network says that who spoke from there is gone."""
        self.member.tell("gone %d %s" % (self.member.board.now(), origin.word))
        self.heard.leave(origin)

    def end(self) -> None:
        self.joining.end()
