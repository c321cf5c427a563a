"""What people do: they draw, delete, turn pages, and take a new number. All of it is done by the member's thread."""
from __future__ import annotations

import re
import secrets
from concurrent.futures import Future
from contextlib import contextmanager
from functools import partial
from typing import TYPE_CHECKING, Any, Callable, Dict, Iterator, List, Tuple

from wbhost import HostEnded

from .clock import wall
from .record import NoRoom, RecordFault
from .state import random_number
from .views import Drawop, Page, page_of, page_text

if TYPE_CHECKING:
    from .member import Member

OPERATIONS = ("line", "frame", "text", "delete", "restore")

# `NOW PAGE` stands before an operation: the place of a wrong word is counted without them
WORDS_BEFORE = 2

# drawings that wait until the member may draw
MOST_WAITING = 1_024

# numbers of pages
MOST_PAGE = 2**32 - 1

# the page of names, titles and the chat; what is drawn elsewhere leaves it, and deletes and restores, one cell in KEPT
WORDS = page_of("0/0")
KEPT = 16


class Refused(Exception):
    """A drawing or a page is refused, and why."""


@contextmanager
def told(*futures: Future[Any]) -> Iterator[None]:
    """What is refused meanwhile, these futures tell."""
    try:
        yield
    except (Refused, NoRoom, HostEnded) as fault:
        why = "the record can't be written (%s): nothing is drawn until there is room" % fault if isinstance(fault, NoRoom) else "busy"
        for future in futures:
            future.set_exception(fault if isinstance(fault, Refused) else Refused(why))


class People:
    def __init__(self, member: Member) -> None:
        self.member = member
        self.draws: List[Tuple[Future[Any], Callable[[], Drawop]]] = []  # what waits to be drawn
        self.unsent: List[str] = []  # what the host sent for what is drawn now
        self.names: List[str] = []  # under which that was asked for

    # ---- from other threads

    def call(self, what: Callable[..., Any], *arguments: Any) -> Future[Any]:
        """Has the member's thread do it."""
        future: Future[Any] = Future()
        self.member.inbox.call(lambda: self.do(future, what, *arguments))
        return future

    def draw(self, page: Page, operation: str, asked: str = "") -> Future[Any]:
        """Has an operation drawn, such as `line 0 0 4 4 *`, as soon as the member may draw. What is asked for again under one name is drawn once."""
        return self.ask(partial(self.draw_now, page, operation, asked))

    def undo(self) -> Future[Any]:
        """Has our latest drawing deleted that the page in view shows."""
        return self.ask(self.undo_now)

    def ask(self, draw: Callable[[], Drawop]) -> Future[Any]:
        future: Future[Any] = Future()
        self.member.inbox.call(lambda: self.put(future, draw))
        return future

    # ---- on the member's thread

    def do(self, future: Future[Any], what: Callable[..., Any], *arguments: Any) -> None:
        with told(future):
            future.set_result(what(*arguments))

    def put(self, future: Future[Any], draw: Callable[[], Drawop]) -> None:
        if self.member.is_ready or len(self.draws) < MOST_WAITING:
            self.draws.append((future, draw))
        else:
            future.set_exception(Refused("busy"))

    def begin(self) -> None:
        """From now on the member may draw: it draws what waited."""
        self.member.is_ready = True
        self.draw_all()

    def end(self) -> None:
        draws, self.draws = self.draws, []
        for future, _ in draws:
            future.set_exception(Refused("ended"))

    def draw_all(self) -> None:
        """Draws what waits. Once all of it is on the disk, it is sent; if the disk does not take it, none of it is drawn."""
        if not self.member.is_ready or not self.draws:
            return
        member, draws, self.draws, self.unsent, self.names = self.member, self.draws, [], [], []
        drawn: List[Tuple[Future[Any], Drawop]] = []
        for future, draw in draws:
            with told(future):
                drawn.append((future, draw()))
        with told(*[future for future, _ in drawn]):
            with member.kept.unless_lost(self.names):
                member.board.settle()
            member.send_all(self.unsent)
            for future, drawop in drawn:
                member.judging.tails.drew(drawop, member.board.moment)
                source, page, seq = drawop.name
                future.set_result({"source": source, "seq": seq, "page": page_text(page), "words": drawop.words})

    def draw_now(self, page: Page, operation: str, asked: str = "") -> Drawop:
        """Accepts a drawop of ours. Whether it is one, the host says. What was drawn under its name before is not drawn again."""
        member, asked = self.member, asked or secrets.token_hex(8)
        if asked in member.kept.asked:
            return member.drawops_of([member.kept.asked[asked]])[0]
        kind = operation.split(" ", 1)[0]
        if page != WORDS and kind in ("line", "frame", "text") and member.drawn.total >= member.board.cells - member.board.cells // KEPT:
            raise Refused("full")
        if kind not in OPERATIONS or not all(" " <= c <= "~" for c in operation):
            raise Refused("unknown")
        fault = member.judging.fault_of_drawing()
        if fault is not None:
            raise Refused(fault)
        with member.kept.unless_lost([asked]):
            block, drawop = member.board.draw(page, wall(), operation, partial(self.keep, asked))
        self.unsent += block.sent()
        if block.fault is not None:
            raise Refused(re.sub("(?<=^word )[0-9]+", lambda place: str(int(place[0]) - WORDS_BEFORE), block.fault))
        if drawop is None:
            raise Refused("full")
        return drawop

    def keep(self, asked: str, drawop: Drawop) -> None:
        """What comes of something that was asked for stands beside the record before it is there."""
        self.member.kept.keep(asked, drawop.digits)
        self.names.append(asked)

    def turn_to(self, page: Page) -> Dict[str, Any]:
        """Makes this the page in view."""
        self.member.turn_to(page)
        return {"page": page_text(page)}

    def new_page(self) -> Dict[str, Any]:
        """Turns to a new page of ours, or stays on one that is empty yet: its number is the first that nobody told of."""
        member = self.member
        if member.page[0] == member.me and not member.drawn.count(member.page):
            return self.turn_to(member.page)
        used = {page[1] for page in [*member.drawn.drawn_pages(), *member.telling.reported.pages(), member.page] if page[0] == member.me}
        number = next(number for number in range(1, len(used) + 2) if number not in used)
        return self.turn_to((member.me, min(number, MOST_PAGE)))

    def undo_now(self) -> Drawop:
        """Deletes our latest drawing that the page in view shows."""
        member = self.member
        numbers = [*member.former, member.me]
        own = [(numbers.index(source), seq) for source, _, seq in member.board.view(member.page) if source in numbers]
        if not own:
            raise Refused("nothing of ours is shown")
        place, seq = max(own)
        return self.draw_now(member.page, "delete %d %d" % (numbers[place], seq))

    def renumber(self) -> Dict[str, Any]:
        """Takes a new number, with a record of its own and all that is held."""
        try:
            self.member.renumber(random_number())
        except (NoRoom, RecordFault, OSError) as fault:
            raise Refused("no new number: its record can't be written (%s)" % fault) from fault
        return {"me": self.member.me}

    def worsen(self, changes: Dict[str, Any]) -> Dict[str, Any]:
        """Changes how the network is made worse."""
        vars(self.member.options).update(changes)
        return self.member.options.worse()
