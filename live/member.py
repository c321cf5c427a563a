"""A member of a session: one thread that takes what comes in, and does what is due. What it concludes stands in judging.py, what
people do in people.py, and what it tells its views in telling.py."""
from __future__ import annotations

import os
import time
from contextlib import ExitStack
from functools import partial
from typing import Any, Callable, Dict, List, Optional, Sequence, Set, Union

from wbhost import Block, HostEnded

from .alarms import Alarms
from .board import Board, nothing
from .carriers.carrier import MOST_BYTES, Carrier, Origin
from .carriers.mqtt import GONE
from .digests import MARK as DIGESTS, Digests
from .drawn import Drawn
from .events import Events
from .given import Given
from .inbox import MOST_WAITING, Inbox
from .joining import Streams
from .judging import Judging
from .kept import Kept, path_beside
from .options import Options
from .people import People, Refused
from .proving import Stage
from .presence import Pointed, Presence, write
from .record import Record
from .replay import Playing
from .telling import Telling
from .views import NOTES, Drawop, Name, Page, name_of, reported_in
from .wire import Wire
from .words import Words

# How often a member takes a new number by itself within how many seconds, if somebody else speaks under its own. After that it draws nothing until
# people want a new one.
MOST_PARTINGS, PARTED_LATELY = 8, 3600.0

# the page that is in view at first
FIRST_PAGE: Page = (1, 1)

# the name of no drawop
NOTHING: Name = (0, NOTES, 0)


class Member:
    """The loop, and what its parts share."""

    def __init__(self, options: Options, program: str, record: Record, network: Carrier, events: Events, me: int, words: Optional[Words] = None) -> None:
        self.options = options
        self.network = network
        self.streams: Optional[Streams] = None  # beside the network, where it has some
        self.me = me
        self.former: List[int] = []  # numbers of ours before
        self.parted: List[float] = []  # when it took a new number by itself
        self.words = words or Words(program)
        self.kept = Kept()  # what stands beside the record
        self.inbox = Inbox()
        self.wire = Wire(events)
        self.alarms = Alarms()
        self.drawn = Drawn()
        self.page = FIRST_PAGE
        self.has_turned = False  # until then it goes where something is drawn
        self.is_ready = False
        self.is_seen = True  # somebody may look at it
        self.may_clear = True  # whether its windows offer to clear pages
        self.others_may: Optional[bool] = None  # of who keeps the board: whether those of others do
        self.keeper: Optional[Member] = None  # of one of a browser: the one that keeps the board
        self.is_ended = False
        self.stage = Stage(program, is_proved=True)
        self.synced_at = time.monotonic()
        self.people = People(self)
        self.telling = Telling(self, events)
        self.presence = Presence(me, events, lambda: self.inbox.call(lambda: None))
        self.digests = Digests(self)
        self.leaving: Set[Origin] = set()  # of whom the network says that they are gone
        self.judging: Any = None
        self.board = Board(program, options, record, self.words, self.hold)
        self.board.open(me)

    def judge(self, judging: Union[Judging, Playing]) -> None:
        """What it concludes, and what it does by itself."""
        self.judging = judging

    def take_kept(self, kept: Kept) -> None:
        """Goes on with what stands beside the record: what was drawn for a window, and the record lacks since the program was killed."""
        self.kept = kept
        lacking = [digits for digits in kept.asked.values() if not self.drawn.holds(name_of(digits) or NOTHING)]
        self.board.take_over(self.drawops_of(lacking), set())

    def begin_with(self, given: Given) -> None:
        """Before it runs it has what another member of this program holds, and what was drawn under its number."""
        self.board.begin_with(given.lines, given.told, given.strange)
        self.drawn = given.drawn.copy()
        if given.showing:
            self.page = given.showing.page
            self.telling.begin_with(given.showing)
        had = [digits for digits in self.kept.drawn_by(self.me) if not self.drawn.holds(name_of(digits) or NOTHING)]
        self.board.take_over(self.drawops_of(had), set())

    def drawops_of(self, many: Sequence[str]) -> List[Drawop]:
        return [Drawop(told.words, digits) for digits, told in zip(many, self.words.all(many)) if told.words]

    # ---- the loop

    def run(self, begin: Callable[[], None] = nothing) -> None:
        """Begins, and goes on until it is ended. Whatever ends it, nothing of it stays behind."""
        try:
            begin()
            self.go_on()
            self.board.end()
        finally:
            self.close()

    def go_on(self) -> None:
        self.inbox.knows = lambda origin: bool(self.judging.is_known(origin))
        self.inbox.aside = self.hear_aside
        self.inbox.back = self.begin_again
        self.network.begin(self.inbox)
        while not self.is_ended:
            try:
                self.turn()
            except HostEnded:
                self.telling.is_changed = True

    def hear_aside(self, data: bytes, origin: Origin) -> None:
        """A datagram that no host hears of, on the carrier's thread: where somebody points, what a member holds of a page, or that he who spoke from there
        is gone."""
        if data.startswith(DIGESTS):
            if self.judging.is_known(origin):
                self.digests.hear(data, origin)
        elif not data.startswith(GONE):
            if not self.options.lock or self.judging.is_known(origin):
                self.presence.hear(data)
        elif data[len(GONE):] == origin.text.encode() and origin not in self.leaving and len(self.leaving) < MOST_WAITING:
            self.leaving.add(origin)
            self.inbox.call(partial(self.leave, origin))

    def leave(self, origin: Origin) -> None:
        """Of whom was never heard nothing changes."""
        self.leaving.discard(origin)
        if self.judging.heard.knows(origin):
            self.judging.leave(origin)

    def turn(self) -> None:
        calls, arrivals = self.inbox.take(self.seconds_to_wait())
        for call in calls:
            call()
        self.people.draw_all()
        if arrivals:
            self.judging.arrive(arrivals)
        self.pass_time()
        if self.is_seen:
            self.telling.tell()
        self.presence.tell_due()
        if time.monotonic() - self.synced_at >= 1:
            self.board.sync()
            self.synced_at = time.monotonic()

    def seconds_to_wait(self) -> float:
        """Until the first thing that is due; a second at most."""
        moments = [moment for moment, _ in self.judging.plan()]
        until = self.board.clock.seconds_until(min(moments)) if moments else 1.0
        return min(1.0, max(0.001, until), self.telling.seconds_to_wait() if self.is_seen else 1.0, self.presence.seconds_to_wait())

    def pass_time(self) -> None:
        """Does what is due."""
        now = self.board.clock.now()
        for moment, do in self.judging.plan():
            if moment <= now:
                do()

    def close(self) -> None:
        """Ends each thing that it holds, also if another can't be ended."""
        with ExitStack() as held:
            for end in (self.board.close, self.words.end, self.network.end, self.judging.end, self.people.end):
                held.callback(end)

    def end(self) -> None:
        """Ends its thread."""
        self.is_ended = True
        self.inbox.call(lambda: None)

    # ---- the host

    def take_stage(self, stage: Stage) -> None:
        """Tells how far the proof is; where another build is there, goes on by that one."""
        before, self.stage = self.stage, stage
        if (stage.program, stage.build) == (before.program, before.build):
            return
        try:
            self.board.change_over(stage.program)
            self.words.change_over(stage.program)
        except HostEnded:
            self.stage = Stage(before.program, False, fault="the host of another build ended", build=before.build)
        # views get what this host shows
        self.telling.is_changed = True

    def begin_again(self) -> None:
        """The network was gone and is back: a host that starts from the record asks at once, without the waits that have grown."""
        self.board.begin_again()

    def tell(self, line: str) -> Block:
        """The block of a line, after what it records is recorded, and its datagrams were sent."""
        block = self.board.act([line])[0]
        self.send_all(block.sent())
        return block

    def tick(self) -> None:
        """The host does what is due."""
        self.tell("tick %d" % self.board.now())

    def repeat(self) -> None:
        """What we drew last goes out once more, which the record has already. Alone, there is nobody who could lack it."""
        taken = self.judging.tails.take(self.board.now())
        if self.judging.present():
            self.send_all(taken)

    def send_all(self, many: Sequence[str]) -> None:
        for digits in many:
            self.send(digits)

    def send(self, digits: str) -> None:
        outgoing = self.judging.outgoing(digits)
        if outgoing is not None:
            self.send_out(outgoing)
        page = reported_in(digits)
        if page is not None:
            self.digests.tell(page)

    def send_out(self, digits: str) -> None:
        data = bytes.fromhex(digits)
        self.wire.went(self.words.of(digits).words)
        if len(data) > MOST_BYTES:
            self.alarms.warn("a datagram of over %d bytes can't be sent" % MOST_BYTES)
        elif not self.network.send(data):
            self.alarms.warn("a datagram could not be sent to everyone")

    def hold(self, drawop: Drawop) -> None:
        """The host has taken in a drawop."""
        page = drawop.name[1]
        if not self.has_turned and not self.drawn.count(self.page) and page != NOTES:
            self.page = page
        self.drawn.add(drawop)
        self.telling.is_changed = self.telling.is_changed or page == self.page
        self.telling.are_pages_changed = True

    def point(self, point: Pointed) -> Dict[str, Any]:
        """Tells others where one points, by a datagram that no host hears of."""
        self.network.send(write(point))
        return {}

    def turn_to(self, page: Page) -> None:
        """Makes this the page in view."""
        self.page = page
        self.has_turned = True
        self.telling.is_changed = True

    def show(self, page: Page) -> None:
        """Shows a page that a window has shown before this program was started, as the first."""
        if not self.has_turned:
            self.turn_to(page)
            self.telling.tell_board()

    def renumber(self, me: int) -> None:
        """Goes on under another number, with all that is held."""
        self.board.renumber(me, new_path(self.board.record.path, self.me, me), list(self.drawn.all()))
        self.kept.move(path_beside(self.board.record.path))
        self.kept.renumber(self.me, me)
        self.former.append(self.me)
        self.me = me
        self.presence.renumber(me)
        self.judging.end()
        self.judge(Judging(self))
        self.telling.is_changed = True

    def may_part(self) -> bool:
        """Whether it takes a new number by itself if somebody else has its own. That may be a member by mishap, or somebody who heard us and forges: they
        look the same. Nobody did so often lately, and the words did not name the number."""
        self.parted = [at for at in self.parted if time.monotonic() - at < PARTED_LATELY]
        return self.options.me is None and len(self.parted) < MOST_PARTINGS

    def part(self) -> None:
        """Takes a new number by itself, and says so. If its record can't be written, nothing is drawn, as before."""
        before = self.me
        self.parted.append(time.monotonic())
        try:
            self.people.renumber()
        except Refused as fault:
            self.alarms.warn(str(fault))
        else:
            self.alarms.warn("somebody else spoke under our number %d: we draw on as member %d" % (before, self.me))


def new_path(path: Optional[str], old: int, new: int) -> Optional[str]:
    """Where the record stands under a new number: its file has the number in its name, or a name that was given."""
    if path is None or os.path.basename(path) != "%d.wb" % old:
        return path
    return os.path.join(os.path.dirname(path), "%d.wb" % new)

