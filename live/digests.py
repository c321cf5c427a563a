"""Whether others hold of a page what we do: beside each report goes what the host answers to `digest`, in a datagram between drivers, of which no host
ever hears (docs/PROTOCOL.md, "Digests"). It is not repaired. If two digests are equal, so are the pages, whoever lied about what."""
from __future__ import annotations

import struct
import threading
from typing import TYPE_CHECKING, Any, Dict, Iterable, NamedTuple, Optional, Tuple

from .carriers.carrier import Origin
from .views import Page

if TYPE_CHECKING:
    from .member import Member

# "WD", the version and a zero; the member; the page: creator and number; how many drawops of it are missing; its marks in short; and its digest
LAYOUT = struct.Struct(">2sBxIIIIQ32s")
MARK, VERSION = b"WD", 1

# what marks are in short: FNV-1a of 64 bits
FIRST, FACTOR, BITS = 0xCBF29CE484222325, 0x100000001B3, 0xFFFFFFFFFFFFFFFF

# what others hold of a page: what we do; more or less, or not all that was drawn has come; or as many drawops as we, and others
SAME, NOT_YET, ANOTHER = "same", "not-yet", "another"

# how many tellings in a row say that a page is another until the views say so: a drawing that is under way makes one
TIMES = 2

# the most missing that a datagram can say: forged marks of several numbers make more
MOST_MISSING = 2**32 - 1

# tellings that wait, pages of members that are remembered, and digests of ours
MOST_WAITING, MOST_SEEN, MOST_OURS = 128, 512, 32


class Told(NamedTuple):
    """What a member tells of a page."""

    member: int
    page: Page
    missing: int
    marks: int
    digest: bytes


class Seen(NamedTuple):
    """What a member holds of a page by what it told last, and how often in a row that was another page."""

    state: str
    times: int


def write(told: Told) -> bytes:
    return LAYOUT.pack(MARK, VERSION, told.member, *told.page, min(told.missing, MOST_MISSING), told.marks, told.digest)


def read(data: bytes) -> Optional[Told]:
    """What the bytes tell, or None where they tell nothing."""
    if len(data) != LAYOUT.size or not data.startswith(MARK + bytes([VERSION, 0])):
        return None
    _, _, member, creator, number, missing, marks, digest = LAYOUT.unpack(data)
    return Told(member, (creator, number), missing, marks, digest)


def in_short(marks: Iterable[Tuple[int, int]]) -> int:
    """Of each source, in ascending order, its number and the greatest number that is held."""
    short = FIRST
    for byte in b"".join(struct.pack(">II", *mark) for mark in sorted(marks)):
        short = (short ^ byte) * FACTOR & BITS
    return short


def judged(ours: Told, told: Told, times: int) -> Seen:
    """What a member holds by what it tells, if it was another page that many times before."""
    if told.digest == ours.digest:
        return Seen(SAME, 0)
    if told.marks != ours.marks or told.missing or ours.missing:
        return Seen(NOT_YET, 0)
    return Seen(ANOTHER if times + 1 >= TIMES else NOT_YET, times + 1)


class Digests:
    """On the member's thread, but for `hear`."""

    def __init__(self, member: Member) -> None:
        self.member = member
        self.ours: Dict[Page, Tuple[Any, int, int, bytes]] = {}  # the host that gave it, of how many drawops, the marks in short, and the digest
        self.seen: Dict[Tuple[int, Page], Seen] = {}
        self.waiting: Dict[Tuple[int, Origin], Told] = {}
        self.lock = threading.Lock()

    def tell(self, page: Page) -> None:
        """A report of the page goes out: so does its digest."""
        self.member.network.send(write(self.told(page)))

    def told(self, page: Page) -> Told:
        member, sheet = self.member, self.member.drawn.sheet(page)
        host, count, marks, digest = self.ours.pop(page, (None, 0, 0, b""))
        if (host, count) != (member.board.host, len(sheet.drawops)):
            marks, digest = in_short(sheet.tops.items()), member.board.digest(page)
        self.ours[page] = member.board.host, len(sheet.drawops), marks, digest
        if len(self.ours) > MOST_OURS:
            del self.ours[next(iter(self.ours))]
        return Told(member.me, page, member.telling.reported.missing(page, member.drawn), marks, digest)

    def hear(self, data: bytes, origin: Origin) -> None:
        """A datagram came in from a member, on the carrier's thread. The last that comes before the next turn counts."""
        told = read(data)
        if told is None or told.member == self.member.me:
            return
        with self.lock:
            is_first = not self.waiting
            if len(self.waiting) < MOST_WAITING:
                self.waiting[told.member, origin] = told
        if is_first:
            self.member.inbox.call(self.take)

    def take(self) -> None:
        """Looks at what came. Nobody tells for another."""
        with self.lock:
            waiting, self.waiting = self.waiting, {}
        for (number, origin), told in waiting.items():
            other = self.member.judging.heard.get(number)
            if other and other.answered is not None and other.origin == origin.word:
                self.notice(told)

    def notice(self, told: Told) -> None:
        key = told.member, told.page
        before = self.seen.pop(key, Seen(NOT_YET, 0))
        self.seen[key] = judged(self.told(told.page), told, before.times)
        if len(self.seen) > MOST_SEEN:
            del self.seen[next(iter(self.seen))]

    def of(self, member: int, page: Page) -> Optional[str]:
        """What a member holds of a page, if it has told that."""
        seen = self.seen.get((member, page))
        return seen.state if seen else None
