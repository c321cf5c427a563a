"""What a member holds, for another of this program that begins. Its host gets it as a host gets its record at a start, before it hears or says
anything. So it asks for nothing, and nobody repairs anything for it."""
from __future__ import annotations

from typing import TYPE_CHECKING, Dict, List, NamedTuple, Optional, Set

from .board import line_of
from .drawn import Drawn
from .showing import Showing
from .views import NOTES, Name

if TYPE_CHECKING:
    from .member import Member


class Given(NamedTuple):
    """What was held at some time, the same as lines of a record with who owns numbers, and as those that a host takes, what of it no member gave, and
    what the first page shows. Many may begin with it, so nobody changes it."""

    drawn: Drawn
    lines: List[str]
    told: bytes
    strange: Set[Name]
    showing: Optional[Showing]


class Giving:
    """On the thread of the member that gives. What is the same for the next one that begins is not made again."""

    def __init__(self, member: Member) -> None:
        self.member = member
        self.last: Optional[Given] = None
        self.owners: Dict[str, str] = {}  # as the last has them
        self.showing: Optional[Showing] = None
        self.host: object = None  # that said what it shows

    def give(self) -> Given:
        drawn, strange, owners = self.member.drawn, self.member.board.strange, self.member.board.owners
        if self.last is None or (self.last.drawn.total, self.last.strange, self.owners) != (drawn.total, strange, owners):
            self.owners = dict(owners)
            lines = [*owners.values(), *(line_of(drawop, strange) for drawop in drawn.all())]
            told = "".join(["held %s\n" % line for line in lines]).encode("latin-1")
            self.last = Given(drawn.copy(), lines, told, set(strange), self.show())
        return self.last

    def show(self) -> Optional[Showing]:
        """The page that one who begins has in view: the first that was drawn on."""
        member = self.member
        page = next((page for page in member.drawn.drawn_pages() if page != NOTES), None)
        if page is None:
            return None
        if self.showing is None or self.host is not member.board.host:
            self.showing, self.host = Showing(page), member.board.host
        self.showing.renew(member.board, member.drawn.sheet(page))
        return self.showing.copy()
