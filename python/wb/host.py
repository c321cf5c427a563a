"""A member without a network and a clock. A program hands it datagrams and moments, and sends what it answers."""
from __future__ import annotations

import random
from types import TracebackType
from typing import Dict, Iterable, List, Optional, Tuple, Type, TypeVar, Union

from .answers import Answer, Became, Gap, Refused
from .blocks import Block
from .calls import Lines
from .child import ChildHost
from .drawings import Drawing, Drawop, Page
from .library import Bytes, LibraryHost
from .program import find_library, find_program

# cells of a board at most, and so its drawops
MOST_CELLS = 65_535

# microseconds for which a member only listens whose number may have drawn before
LISTENING = 6_000_000

AnyPage = Union[Page, Tuple[int, int], str]
AnyDrawing = Union[Drawing, str]
T = TypeVar("T")


def page_of(page: AnyPage) -> Page:
    return Page.of(page) if isinstance(page, str) else Page(*page)


def start() -> Union[LibraryHost, ChildHost]:
    """A host of the library where there is one, and else of the program."""
    return LibraryHost() if find_library() else ChildHost(find_program())


class Host:
    """A self-managing member: it asks for what it lacks, reports, repairs, and answers others. `member` is its number, which no
    other member of the session has; `listen` are the microseconds for which it only listens and draws nothing: 0 only for a number that
    never drew. Moments are microseconds below 2^48 that never go back; begin near `begun`. Use it by `with`, or call `end`."""

    begun = 0

    def __init__(self, member: int, *, cells: int = MOST_CELLS, seed: Optional[int] = None, rate: int = 4_000, listen: int = LISTENING,
                 by: Union[LibraryHost, ChildHost, None] = None) -> None:
        self.member = member
        self.by = by or start()
        self.calls = Bytes(self.by) if isinstance(self.by, LibraryHost) else Lines(self.by)
        try:
            self.must("board %d %d 1 %d" % (member, cells, random.SystemRandom().getrandbits(64) if seed is None else seed))
            self.keep_itself(rate, listen)
        except BaseException:
            self.by.end()
            raise
        self.ready_at = self.begun + listen  # from then on it may draw

    def keep_itself(self, rate: int, listen: int) -> None:
        """Makes it self-managing, once it has a board."""
        self.must("keep %d %d" % (rate, listen))

    def __enter__(self) -> Host:
        return self

    def __exit__(self, kind: Optional[Type[BaseException]], fault: Optional[BaseException], trace: Optional[TracebackType]) -> None:
        self.end()

    def end(self) -> None:
        self.by.end()

    @property
    def due(self) -> Optional[int]:
        """The moment at which to call `tick` next."""
        return self.by.due

    def must(self, line: str) -> Block:
        block = self.by.ask(line)
        if block.fault is not None:
            raise Refused(line, block.fault)
        return block

    # ---- what happens

    def came(self, now: int, datagram: bytes, place: int = 0) -> Answer:
        """A datagram came in. Bytes that are not one, or that no host takes, are refused; this program is not to blame. From which
        place, only a host with a record minds."""
        return self.calls.came(now, datagram)

    def tick(self, now: int) -> Answer:
        """Time is `now`. To be called when the clock comes to `due`, and before more is handed in then."""
        return taken("tick %d" % now, self.calls.tick(now))

    def add(self, now: int, time: int, page: AnyPage, drawing: AnyDrawing) -> Answer:
        """The user draws, as `Line(0, 0, 4, 0, "*")`, or in words, as `line 0 0 4 0 *`, `text 0 1 "hello"` or `delete 7 1`. If two drawops cover
        one cell, the one with the greater time is seen: use the microseconds of the time of day."""
        operation = str(drawing)
        if "\n" in operation:
            raise ValueError("a line feed in a drawing")
        return taken("add %d %d %s %s" % (now, time, page_of(page), operation), self.calls.add(now, time, self.member, page_of(page), operation))

    def add_all(self, now: int, time: int, page: AnyPage, drawings: Iterable[AnyDrawing]) -> List[Answer]:
        """Draws one after another, until one has no room. Refused at the first that the host does not take; those before it are drawn."""
        answers: List[Answer] = []
        for drawing in drawings:
            answers.append(self.add(now, time, page, drawing))
            if answers[-1].became is Became.FULL:
                break
        return answers

    def tune(self, c1: int, c2: int, d1: int, d2: int) -> None:
        """Gives the timers other constants, 1 to 16 each."""
        self.must("tuning %d %d %d %d" % (c1, c2, d1, d2))

    # ---- questions, which change nothing

    def found(self, line: str, found: Optional[T]) -> T:
        """What a question found. If it is none, its line says why."""
        if found is None:
            self.must(line)
            raise Refused(line, "no answer")
        return found

    def show(self, page: AnyPage, width: int, height: int) -> List[str]:
        """The rows of the page's canvas, 1 to 200 wide and 1 to 100 high."""
        return self.found("show %d %d %d %d" % (*page_of(page), width, height), self.calls.show(page_of(page), width, height))

    def view(self, page: AnyPage) -> List[Drawop]:
        """What the page shows, in the order of painting."""
        return self.found("view %d %d" % page_of(page), self.calls.view(page_of(page)))

    def gaps(self, page: AnyPage) -> List[Gap]:
        """What is missing of the page."""
        return self.found("gaps %d %d" % page_of(page), self.calls.gaps(page_of(page)))

    def report(self, page: AnyPage) -> Dict[int, int]:
        """Of each source, the greatest number that is held of the page."""
        return self.found("report %d %d" % page_of(page), self.calls.report(page_of(page)))

    def digest(self, page: AnyPage) -> bytes:
        """32 bytes that two members compare: if they are equal, both hold the same drawops of the page."""
        return self.found("digest %d %d" % page_of(page), self.calls.digest(page_of(page)))

    def pages(self) -> List[Page]:
        """The pages that have drawops."""
        return self.found("pages", self.calls.pages("pages"))

    def known(self) -> List[Page]:
        """The pages that have drawops, or were heard of."""
        return self.found("known", self.calls.pages("known"))

    def version(self) -> int:
        """The number of the lines that the program reads and prints. docs/HOST.md says what it promises."""
        return int(self.must("version").lines[0][8:])

    def next_number(self, page: AnyPage) -> int:
        """The number that our next drawop on the page will have."""
        return self.found("next %d %d" % page_of(page), self.calls.next_number(page_of(page)))


def taken(call: str, answer: Answer) -> Answer:
    """The answer of a call that is the program's own."""
    if answer.refused is not None:
        raise Refused(call, answer.refused)
    return answer
