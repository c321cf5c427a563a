"""What a member tells its views: what changed on the page, the pages, who is there, and what is missing."""
from __future__ import annotations

import os
import secrets
import time
from typing import TYPE_CHECKING, Any, Dict, List, Optional, Set, Tuple

from .board import COLUMNS, ROWS
from .clock import SECOND
from .drawn import Drawn
from .events import Events, Whole, change_text
from .heard import Other
from .showing import NO_CHANGE, Change, Showing
from .views import Drawop, Name, Page, Report, page_text

if TYPE_CHECKING:
    from .member import Member

NOTICE = "Everything shown here came through wb host, which is proved; live/ (network, clock, screen) is not proved."

# the least seconds between two updates of the page, which take one part in PART of the time at most
LEAST_PAUSE = 0.015
PART = 6

# seconds between two tellings of who is there, and of the pages, which take one part in PART of the time at most too
MEMBERS_PAUSE = 0.5
PAGES_PAUSE = 0.1

# the most pages of which it remembers what they show, so that one who turns back sees them at once
MOST_SHOWINGS = 16

# pages that are reported
MOST_PAGES = 1_000
MOST_MEMBERS = 500

# names that only marks reported; the oldest go first
MOST_REPORTED = 512

# A page is asked for once more if a request for something of it goes out after another report of a member. What was asked for first so often ago, and of
# whose source nothing has come since, nobody here has.
IN_VAIN = 16

# for so long it is said that a page has caught up
CAUGHT_UP = 60 * SECOND

# one cell in RESERVE is kept for deletes and restores of members, as the host has it
RESERVE = 32

# the percentage of taken cells from which on the board is said to become full
NEARLY_FULL = 80


def notice_of(member: Member) -> str:
    if not member.stage.is_proved:
        return member.stage.text()
    return NOTICE.replace("which is proved", "the program that WB_PROGRAM names") if os.environ.get("WB_PROGRAM") else NOTICE


class Reported:
    """Names that members reported and that are not held: what is missing beside the gaps. And what of all that was asked for in vain."""

    def __init__(self) -> None:
        self.names: Dict[Name, None] = {}
        self.reports = 0  # of members
        self.asked: Dict[Page, Tuple[int, int]] = {}  # how often a page was asked for, and how many reports had come at the last
        self.since: Dict[Tuple[int, Page], int] = {}  # how often it had been when something of a source was asked for of which nothing came since

    def tell(self, name: Name) -> None:
        self.names.pop(name, None)
        self.names[name] = None
        if len(self.names) > MOST_REPORTED:
            del self.names[next(iter(self.names))]

    def come(self, name: Name, is_strange: bool = False) -> None:
        """It is held from now on. What no member gave answers no request."""
        self.names.pop(name, None)
        if not is_strange:
            self.since.pop(name[:2], None)

    def ask(self, name: Name) -> None:
        """It is asked for. Between two reports one request counts: where nobody is heard, nobody could answer."""
        often, reports = self.asked.pop(name[1], (0, -1))
        self.asked[name[1]] = often + (reports < self.reports), self.reports
        self.since.setdefault(name[:2], often)
        if len(self.asked) > MOST_REPORTED:
            del self.asked[next(iter(self.asked))]
        if len(self.since) > MOST_REPORTED:
            del self.since[next(iter(self.since))]

    def is_in_vain(self, source: int, page: Page) -> bool:
        since = self.since.get((source, page))
        return since is not None and self.asked.get(page, (0, 0))[0] - since >= IN_VAIN

    def pages(self) -> List[Page]:
        return [page for _, page, _ in self.names]

    def missing(self, page: Page, drawn: Drawn) -> int:
        """How many names of a page are missing: those in its gaps, and those above."""
        return drawn.missing(page) + sum(1 for source, on, seq in self.names if on == page and seq > drawn.top(page, source))

    def awaited(self, page: Page, drawn: Drawn, strange: Set[Name]) -> int:
        """How many of these people wait for. A stranger may have taken any number: none is below what no member gave. And none was asked for in vain."""
        gaps = drawn.gaps(page, strange)
        above = [name for name in self.names if name[1] == page and name[2] > gaps.get(name[0], (0, 0))[0] and not drawn.holds(name)]
        missing = [(source, many) for source, (_, many) in gaps.items()] + [(source, 1) for source, _, _ in above]
        return sum(many for source, many in missing if not self.is_in_vain(source, page))


class Telling:
    """One thread: that of the member."""

    def __init__(self, member: Member, events: Events) -> None:
        self.member = member
        self.events = events
        self.is_changed = True
        self.are_pages_changed = True
        self.page: Optional[Showing] = None  # what the views have
        self.showings: Dict[Page, Showing] = {}
        self.host: Any = None  # that told these
        self.mark = ""  # what tells it from others
        self.rows: List[str] = []
        self.turn = 0
        self.version = 0
        self.next_at = 0.0
        self.next_members = 0.0
        self.next_pages = 0.0
        self.caught_up: Dict[Page, int] = {}
        self.missing: Set[Page] = set()
        self.reported = Reported()

    def seconds_to_wait(self) -> float:
        return max(0.0, self.next_at - time.monotonic()) if self.is_changed else 3600.0

    def tell(self) -> None:
        """Tells what has changed, where the last time is long enough ago."""
        began = time.monotonic()
        self.tell_hello()
        if self.is_changed and began >= self.next_at:
            self.is_changed = False
            self.tell_board()
            ended = time.monotonic()
            self.next_at = ended + max(LEAST_PAUSE, (PART - 1) * (ended - began))
        if self.are_pages_changed and began >= self.next_pages:
            self.are_pages_changed = False
            asked = time.monotonic()
            self.tell_pages()
            ended = time.monotonic()
            self.next_pages = ended + max(PAGES_PAUSE, (PART - 1) * (ended - asked))
        if began >= self.next_members:
            self.tell_members()
            self.tell_health()
            self.next_members = time.monotonic() + MEMBERS_PAUSE

    def tell_hello(self) -> None:
        member, options = self.member, self.member.options
        self.events.tell("hello", {
            "me": member.me, "mode": member.network.where, "notice": notice_of(member), "program": member.board.program,
            "teach": options.teach, "worsen": options.worse(), "cells": member.board.cells, "ready": member.is_ready,
            "twin": member.judging.has_twin, "broken": member.board.is_broken, "proof": member.stage.told(),
            "clears": member.may_clear, **({} if member.others_may is None else {"othersClear": member.others_may}),
            **({} if member.keeper is None else {"keeper": member.keeper.me}),
        })

    # ---- the page

    def tell_board(self) -> None:
        """The whole of another page, and of one of which another host shows something else; and of the same what changed since."""
        member, page = self.member, self.showing(self.member.page)
        change = page.renew(member.board, member.drawn.sheet(page.page))
        rows = member.board.canvas(page.page) if self.page is not page or change.may_be_painted(COLUMNS, ROWS) else self.rows
        if self.page is not page and page.is_as(self.page):
            self.page, change = page, NO_CHANGE
        if self.page is not page:
            self.page, self.turn, self.version = page, self.turn + 1, 0
            self.are_pages_changed = True
            self.next_members = self.next_pages = 0.0
            self.events.tell_page(self.whole(page, rows))
        elif any(change) or rows != self.rows:
            self.version += 1
            self.events.tell_change(self.version, self.told_change(change, rows), lambda: self.whole(page, rows))
        self.rows = rows

    def begin_with(self, showing: Showing) -> None:
        """What another host shows that holds the same."""
        self.host, self.showings = self.member.board.host, {showing.page: showing.copy()}

    def showing(self, page: Page) -> Showing:
        """What a page shows, by the host of now."""
        self.look_at_host()
        self.showings[page] = showing = self.showings.pop(page, None) or Showing(page)
        if len(self.showings) > MOST_SHOWINGS:
            del self.showings[next(iter(self.showings))]
        return showing

    def look_at_host(self) -> None:
        """What another host told is forgotten."""
        if self.host is not self.member.board.host:
            self.host, self.mark, self.showings = self.member.board.host, secrets.token_hex(4), {}

    def news_of(self, page: Page, last: str) -> str:
        """What a page shows otherwise than when this was asked last, as JSON: which are to be taken off, and which are then put in, each at its place. `since`
        says when that was; all of it if another host was asked then, or nobody."""
        self.look_at_host()
        mark, _, held = last.partition("-")
        is_more = mark == self.mark and held.isdecimal() and len(held) < 6 and int(held) <= self.member.drawn.total
        since, sheet = self.member.board.since(page, int(held) if is_more else 0), self.member.drawn.sheet(page)
        added = [(place, sheet.drawops.get(name) or Drawop(words)) for place, name, words in since.shown]
        names = [[source, seq] for source, _, seq in since.hidden]
        return change_text({"since": "%s-%d" % (self.mark, since.held), "whole": not is_more, "names": names, "added": added, "hidden": []})

    def whole_of(self, page: Page) -> Whole:
        """What a page shows that need not be in view."""
        member, asked = self.member, Showing(page)
        asked.renew(member.board, member.drawn.sheet(page))
        return self.whole(asked, member.board.canvas(page))

    def whole(self, page: Showing, rows: List[str]) -> Whole:
        head = {"page": page_text(page.page), "columns": COLUMNS, "rows": rows}
        return Whole(self.turn, self.version, head, list(page.shown), list(page.hidden.values()))

    def told_change(self, change: Change, rows: List[str]) -> Dict[str, Any]:
        """A change for views, with the rows that are other ones."""
        names = [[source, seq] for source, _, seq in change.names]
        new = {y: row for y, row in enumerate(rows) if y >= len(self.rows) or self.rows[y] != row}
        return {"page": page_text(self.member.page), "names": names, "added": change.added, "hidden": change.hidden, "rows": new, "height": len(rows)}

    # ---- what is noticed of what comes in, for people alone

    def notice(self, report: Report) -> None:
        """What a member reports that is not held, by a limited number of its marks."""
        self.reported.reports += 1
        for source, high in report.noted(self.member.me):
            if not self.member.drawn.holds((source, report.page, high)):
                self.reported.tell((source, report.page, high))

    def notice_fate(self, name: Name, fate: str) -> None:
        """What became of a drawop."""
        alarms, source = self.member.alarms, name[0]
        if fate == "new":
            self.reported.come(name, name in self.member.board.strange)
        elif fate == "clash":
            alarms.warn("two members draw with number %d: what they drew differs from member to member" % source)
        elif fate == "left":
            alarms.warn("the board is full: new drawops are not kept")

    def notice_room(self) -> None:
        """How many cells are left, where they are few."""
        total, cells = self.member.drawn.total, self.member.board.cells
        if total >= cells - cells // RESERVE:
            self.member.alarms.warn("the board is full: %d of %d cells; deletes and restores alone have room" % (total, cells))
        elif self.is_nearly_full():
            self.member.alarms.warn("the board becomes full: %d of %d cells are taken" % (total, cells))

    def is_nearly_full(self) -> bool:
        return self.member.drawn.total * 100 >= self.member.board.cells * NEARLY_FULL

    # ---- what stands beside it

    def tell_pages(self) -> None:
        sheets = [(page, self.member.drawn.sheet(page)) for page in self.pages()]
        told = [{"page": page_text(page), "drawn": len(sheet.drawops), "last": str(sheet.last)} for page, sheet in sheets]
        self.events.tell("pages", {"page": page_text(self.member.page), "pages": told})

    def pages(self) -> List[Page]:
        """As many as are shown: the page in view, and those of members before those of strangers alone. They stand in the order in which they were
        begun, so all members that hold the same number them alike. If there are more, the host says which."""
        drawn_on = self.member.drawn.drawn_pages()
        order = drawn_on if len(drawn_on) <= MOST_PAGES else self.member.board.pages(MOST_PAGES) or drawn_on
        strange = {page for page in drawn_on if self.is_strange(page)}
        members = [page for page in order if page not in strange]
        told = dict.fromkeys([self.member.page, *members, *self.reported.pages(), *order])
        given: Dict[Page, Set[Name]] = {}  # what no member gave: it does not move a page of members
        for name in self.member.board.strange:
            given.setdefault(name[1], set()).add(name)

        def rank(page: Page) -> Tuple[bool, float, Page]:
            return page in strange, self.member.drawn.sheet(page).begun_by(given.get(page, set())), page

        return sorted(list(told)[:MOST_PAGES], key=rank)

    def is_strange(self, page: Page) -> bool:
        """Whether no member has drawn on a page."""
        sheet, strange = self.member.drawn.sheet(page), self.member.board.strange
        return self.member.me not in sheet.tops and all(name in strange for name in sheet.drawops)

    def tell_members(self) -> None:
        """Those first that have answered us."""
        now = self.member.board.clock.now()

        def rank(each: Tuple[int, Other]) -> Tuple[bool, int]:
            return each[1].answered is None, each[0]

        told: List[Dict[str, Any]] = [{
            "member": number, "delay": None if other.delay is None else other.delay / 1000,
            "heard": round((now - other.at) / SECOND, 1), "holds": self.member.digests.of(number, self.member.page),
        } for number, other in sorted(self.member.judging.present().items(), key=rank)[:MOST_MEMBERS]]
        self.events.tell("members", {"me": self.member.me, "members": sorted(told, key=lambda each: int(each["member"]))})

    def tell_health(self) -> None:
        member, page = self.member, self.member.page
        missing = self.reported.awaited(page, member.drawn, member.board.strange)
        now = member.board.clock.now()
        if missing:
            self.missing = {page, *self.missing} if len(self.missing) < MOST_REPORTED else {page}
        elif page in self.missing:
            self.missing.remove(page)
            self.caught_up = {page: now, **{each: at for each, at in self.caught_up.items() if now - at < CAUGHT_UP}}
        inbox, counts = member.inbox, dict(member.wire.counts, starts=1 + len(member.board.ends))
        counts.update({"in": counts["in"] + inbox.bad, "refused": counts["refused"] + inbox.bad, "dropped": inbox.dropped, "foreign": inbox.foreign})
        self.events.tell("health", {
            "page": page_text(page), "phrase": self.phrase(missing), "missing": missing, "warnings": self.warnings(), "counts": counts,
            "taken": member.drawn.total, "cells": member.board.cells,
        })

    def warnings(self) -> List[str]:
        """What lasts comes after what goes."""
        member = self.member
        lasting = [
            (member.judging.has_twin, "another member has our number %d: nothing is drawn until this member has a new one" % member.me),
            (member.board.is_broken, "the record can't be written: nothing is drawn until there is room"),
            (bool(member.inbox.trouble), member.inbox.trouble),
        ]
        return member.alarms.told() + [text for is_so, text in lasting if is_so]

    def phrase(self, missing: int) -> str:
        """The health of the page in one phrase."""
        if missing:
            return "%d missing" % missing
        now, at = self.member.board.clock.now(), self.caught_up.get(self.member.page)
        if at is not None and now - at < CAUGHT_UP:
            return "caught up %d s ago" % ((now - at) // SECOND)
        return "whole" if self.member.judging.present() else "whole; nobody else is heard"
