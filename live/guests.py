"""A member for each browser: a host of its own, with its own page, number and undo, found again by a cookie. All of them are in this
program, which has one member more that keeps the board, and one carrier."""
from __future__ import annotations

import copy
import secrets
import threading
import time
from collections import Counter
from concurrent.futures import TimeoutError as TooLate
from functools import partial
from typing import Dict, List, Optional

from wbhost import HostEnded

from .board import BoardFault
from .carriers.hub import Hub
from .carriers.worse import Worse
from .events import Events
from .given import Given, Giving
from .judging import Judging
from .member import Member
from .people import Refused
from .proving import Stage
from .record import NoRoom, Record, RecordFault
from .state import random_number

# Seconds after which a member makes room for another: without a window, if none ever looked, and, though one looks on, if nothing was asked.
# And those that a member of this program may take to answer.
AWAY = 60.0
NEVER_LOOKED = 10.0
IDLE = 600.0
PATIENCE = 30.0

# windows that look at one member at a time
MOST_WINDOWS = 8

# new members of one address: how many at once, and then one in each pause, in seconds
MOST_NEW = 32
NEW_PAUSE = 2.0

# what ends a member, and no other
FAULTS = (BoardFault, HostEnded, NoRoom, OSError, RecordFault, Refused, TooLate)

# seconds that all members together may take to end
FAREWELL = 5.0


class NoPlace(Exception):
    """There is no place for the member of one more browser, and why."""


class Guest:
    """The member of a browser, by the cookie that it was given, and the address that it came from. Its record vanishes with it: the
    member that keeps the board has all. A browser that was here before goes on under its number, with what it had drawn."""

    def __init__(self, keeper: Member, hub: Hub, address: str, cookie: str) -> None:
        number = keeper.kept.guests.get(cookie)
        self.keeps = False  # the window of who keeps the board
        self.cookie = secrets.token_hex(16) if number is None else cookie
        self.address = address
        self.events = Events()
        self.counting = threading.Lock()
        self.windows = 0
        self.has_looked = False
        self.seen_at = time.monotonic()
        options = copy.copy(keeper.options)
        options.me = None  # names the keeper alone
        options.cells = keeper.board.cells
        carrier = Worse(hub.place(), options)
        record = Record(None)
        try:
            self.member = Member(options, keeper.board.program, record, carrier, self.events, random_number() if number is None else number, keeper.words)
        except BaseException:
            record.close()
            raise
        self.member.judge(Judging(self.member))
        self.member.keeper = keeper
        self.member.kept = keeper.kept
        self.member.board.sync_kept = keeper.kept.sync
        self.member.streams = keeper.streams
        self.member.stage = keeper.stage

    def look(self) -> int:
        """One window more looks at it: how many do now. 0 if that were too many."""
        with self.counting:
            if self.windows >= MOST_WINDOWS:
                return 0
            self.windows += 1
            self.has_looked = True
            return self.windows

    def look_away(self) -> None:
        with self.counting:
            self.windows -= 1
            self.seen_at = time.monotonic()

    def is_away(self) -> bool:
        return not self.windows and self.is_quiet(AWAY if self.has_looked else NEVER_LOOKED)

    def is_quiet(self, seconds: float) -> bool:
        """It has asked for nothing for so long."""
        return time.monotonic() - self.seen_at > seconds


class Guests:
    """The members of browsers, at most as many as are allowed, the one that came first in front."""

    def __init__(self, keeper: Member, hub: Hub) -> None:
        self.keeper = keeper
        self.hub = hub
        self.giving = Giving(keeper)
        self.most = keeper.options.guests
        self.changed = threading.Lock()
        self.guests: Dict[str, Guest] = {}
        self.others_may_clear = True
        self.paid: Dict[str, float] = {}  # new members of an address are paid for up to then
        self.threads: List[threading.Thread] = []

    def find(self, cookie: str) -> Optional[Guest]:
        """The member of a browser, which asks for something."""
        guest = self.guests.get(cookie)
        if guest:
            guest.seen_at = time.monotonic()
        return guest

    def knows(self, cookie: str) -> bool:
        """Whether a browser was here before: it goes on under its number."""
        return cookie in self.keeper.kept.guests

    def begin(self, address: str, cookie: str = "", is_here: bool = False) -> Guest:
        """A member for one more browser, or for one that returns; the first of this machine is that of who keeps the board. NoPlace if others
        need all, or if that address had too many new ones."""
        with self.changed:
            there = self.guests.get(cookie)
            if there:
                return there
            if not self.knows(cookie) and not self.admits(address):
                raise NoPlace("too many browsers came from your address: open the page anew in a minute")
            if len(self.guests) >= self.most and not self.make_room(address):
                raise NoPlace("%d browsers have members here, and there is no room for more" % self.most)
            if self.is_leaving(cookie):
                raise NoPlace("the member that you had here is ending: open the page anew")
            try:
                guest = Guest(self.keeper, self.hub, address, cookie)
                self.keeper.kept.admit(guest.cookie, guest.member.me)
            except FAULTS as fault:
                self.keeper.alarms.warn("a member for one more browser can't be started: %s" % fault)
                raise NoPlace("a member can't be started here now") from fault
            guest.keeps = is_here and not any(each.keeps for each in self.guests.values())
            self.guests[guest.cookie] = guest
            self.tell_clearing()
            thread = threading.Thread(target=self.run, args=(guest,), name=guest.cookie, daemon=True)
            self.threads = [each for each in self.threads if each.is_alive()] + [thread]
            thread.start()
        return guest

    def let_clear(self, others: bool) -> Dict[str, bool]:
        """Whether windows of others offer to clear and delete pages."""
        self.others_may_clear = others
        self.tell_clearing()
        return {"others": others}

    def tell_clearing(self) -> None:
        for guest in list(self.guests.values()):
            guest.member.may_clear = guest.keeps or self.others_may_clear
            guest.member.others_may = self.others_may_clear if guest.keeps else None

    def is_leaving(self, cookie: str) -> bool:
        """Whether the member that a browser had before has not ended yet: two would have one number."""
        return any(thread.is_alive() and thread.name == cookie for thread in self.threads)

    def admits(self, address: str) -> bool:
        """Whether an address may have a new member now."""
        now = time.monotonic()
        self.paid = {each: until for each, until in self.paid.items() if until > now}
        paid = self.paid.get(address, now)
        if paid - now > (MOST_NEW - 1) * NEW_PAUSE:
            return False
        self.paid[address] = paid + NEW_PAUSE
        return True

    def make_room(self, address: str) -> bool:
        """Whether a place has become free for a browser from there: the one goes that asked for nothing for longest, of those that are away;
        if none is, of a crowd; and if there is none, of those that do nothing for long."""
        guests = list(self.guests.values())
        leaving = [guest for guest in guests if guest.is_away()] or self.crowd(address) or [guest for guest in guests if guest.is_quiet(IDLE)]
        if leaving:
            self.guests.pop(min(leaving, key=lambda guest: guest.seen_at).cookie).member.end()
        return bool(leaving)

    def crowd(self, address: str) -> List[Guest]:
        """The members of the address that has most, if a newcomer's would still have fewer."""
        counts = Counter(guest.address for guest in self.guests.values())
        most, count = counts.most_common(1)[0]
        return [guest for guest in self.guests.values() if guest.address == most] if count > counts[address] + 1 else []

    def run(self, guest: Guest) -> None:
        """The thread of a member. One whose host can't be started again is gone; the others go on."""
        try:
            guest.member.run(partial(self.hand_over, guest.member))
        except FAULTS as fault:
            self.keeper.alarms.warn("the member %d of a browser ended: %s" % (guest.member.me, fault))
        finally:
            self.guests.pop(guest.cookie, None)
            guest.events.end()

    def hand_over(self, member: Member) -> None:
        """Gives a new member all that is held, before it hears or says anything."""
        given = self.keeper.people.call(self.giving.give).result(PATIENCE)
        member.begin_with(given)
        member.inbox.call(partial(self.hand_on, member, given))

    def hand_on(self, member: Member, given: Given) -> None:
        """Now that it hears the others itself, the keeper gives it what came meanwhile: once it has taken in what waits there."""
        keeper = self.keeper

        def give() -> None:
            rest = keeper.drawn.beyond(given.drawn)
            if rest:
                member.people.call(member.judging.take_over, rest, set(keeper.board.strange))

        keeper.inbox.call(lambda: keeper.inbox.call(give))

    def take_stage(self, stage: Stage) -> None:
        """Hands on how far the proof is, and which build is there now."""
        for guest in list(self.guests.values()):
            guest.member.inbox.call(lambda member=guest.member: member.take_stage(stage))  # type: ignore[misc]

    def end(self) -> None:
        for guest in list(self.guests.values()):
            guest.member.end()
        until = time.monotonic() + FAREWELL
        for thread in self.threads:
            thread.join(max(0.0, until - time.monotonic()))
