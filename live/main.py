"""Starts a member, what it is seen by, and ends it."""
from __future__ import annotations

import signal
import sys
import webbrowser
from contextlib import ExitStack
from typing import List, Optional, Tuple

from wbhost import HostEnded, NoProgram

from .board import BoardFault
from .carriers.carrier import NetworkFault, Nobody
from .carriers.hub import Hub
from .carriers.opening import open_network
from .carriers.sealed import CIPHER
from .carriers.worse import Worse
from .events import Events
from .guests import Guests
from .held import checked
from .invitation import InvitationFault, code_of, write_invitation
from .joining import Offer, Streams
from .judging import Judging
from .kept import Kept, path_beside
from .keys import KeyFault, write_key
from .member import Member
from .options import Options, read_options
from .packages import has_module
from .proving import Proof, Stage, Teller, build_of, find_now
from .record import NoRoom, Record, RecordFault, read_played
from .replay import Playing
from .state import lock, open_record
from .telling import notice_of
from .terminal import Terminal
from .web import Web, open_web
from .words import SharedWords

FAULTS = (BoardFault, HostEnded, InvitationFault, KeyFault, NetworkFault, NoProgram, NoRoom, OSError, RecordFault)


PLAIN = (
    "wb-live: the page uses plain HTTP, so whoever can read the network's traffic learns its address, and can draw. docs/LIVE.md, Behind a proxy, has "
    "a recipe for TLS"
)


def replay(options: Options, program: str, events: Events, path: str) -> Member:
    """A record that is shown: it is read alone."""
    lines = iter(checked(program, read_played(path)))
    words = next(lines).split()
    options.cells = int(words[2])
    member = Member(options, program, Record(None), Nobody("a replay of %s" % path), events, int(words[1]))
    member.judge(Playing(member, lines))
    return member


def make_member(options: Options, events: Events, held: ExitStack) -> Tuple[Member, Optional[Guests]]:
    """The member of the network, or of a record that is shown; and those of browsers, where each has its own."""
    guests: Optional[Guests] = None
    program, is_proved = find_now()
    if options.replay:
        member = replay(options, program, events, options.replay)
        held.callback(member.close)
    else:
        member, guests = join(options, program, events, held)
    member.stage = Stage(program, is_proved, is_beside=not options.replay, build=build_of(program))
    return member, guests


def join(options: Options, program: str, events: Events, held: ExitStack) -> Tuple[Member, Optional[Guests]]:
    """The member of the network, and those of browsers, where each has its own."""
    record, me = open_record(options)
    held.callback(record.close)
    kept = Kept(path_beside(record.path) if options.web else None, is_new=not record.size)
    held.callback(kept.close)
    if options.new_address:
        kept.renew()
    carrier, udp, seal = open_network(options, me)
    hub = Hub(carrier) if options.guests else None
    held.callback(hub.end if hub else carrier.end)
    words = SharedWords(program) if hub else None
    member = Member(options, program, record, Worse(hub.place() if hub else carrier, options), events, me, words)
    held.callback(member.close)
    member.judge(Judging(member))
    member.take_kept(kept)
    if udp:
        member.streams = Streams(udp, seal)
        offer = Offer(member, member.streams)
        held.callback(offer.end)
        offer.begin()
    guests = Guests(member, hub) if hub else None
    member.is_seen = not guests or options.terminal
    if guests:
        held.callback(guests.end)
    return member, guests


def make_key(path: str, tags: bool) -> None:
    """A key that seals, where that can be had."""
    write_key(path, tags or not has_module(CIPHER))
    if not tags and not has_module(CIPHER):
        print("wb-live: this key tags: nobody else draws, but whoever is on the network can read. With python3-cryptography a new key seals", file=sys.stderr)


def invite(options: Options) -> None:
    """Prints the line that brings others into the session, and for people that look on the same as a picture."""
    line = write_invitation(options)
    print(line)
    if sys.stdout.isatty():
        print(code_of(line), end="")
    if not options.lock:
        print("wb-live: this session is open: whoever is on its network can read and draw", file=sys.stderr)


def tell_pages(options: Options, web: Web) -> None:
    """Prints the addresses of the page. The last is the one for others: where other machines reach it, it is shown as a picture too, for people that
    look on."""
    for url in web.urls:
        print("page %s" % url, flush=True)
    if options.web and options.web[2] and sys.stdout.isatty():
        print(code_of(web.urls[-1]), end="", flush=True)
    if not web.is_of_this_machine:
        print(PLAIN, file=sys.stderr)
    if options.browser:
        webbrowser.open(web.urls[-1])


def prove_beside(member: Member, guests: Optional[Guests], is_told: bool) -> Optional[Proof]:
    """The proof beside a member whose program is not proved. When it is done, the member changes over, and those of browsers."""
    if member.stage.is_proved or member.options.replay:
        return None
    teller = Teller(sys.stderr.isatty(), member.stage)

    def take(stage: Stage) -> None:
        member.take_stage(stage)
        if guests:
            guests.take_stage(stage)
        if is_told:
            teller.tell(stage)

    return Proof(member.stage.program, lambda stage: member.inbox.call(lambda: take(stage)))


def hold(options: Options) -> None:
    """Holds the session until it is ended. What it holds is closed in any case, what was begun last first."""
    with ExitStack() as held:
        events = Events()
        member, guests = make_member(options, events, held)
        web: Optional[Web] = open_web(options, member, events, guests) if options.web else None
        for number in (signal.SIGINT, signal.SIGTERM, signal.SIGHUP):
            signal.signal(number, lambda *_: member.end())
        print(notice_of(member), flush=True)
        print("member %d, %s" % (member.me, member.network.where), flush=True)
        if web:
            web.begin()
            held.callback(web.following.end)
            tell_pages(options, web)
        terminal = Terminal(member, events) if options.terminal and sys.stdin.isatty() and sys.stdout.isatty() else None
        if terminal:
            held.callback(terminal.end)
            terminal.begin()
        held.callback(events.end)
        proof = prove_beside(member, guests, terminal is None)
        if proof:
            if sys.stderr.isatty():
                held.callback(print, file=sys.stderr)  # a line after the bar, which renews its own
            held.callback(proof.end)
        member.run()


def main(words: List[str]) -> int:
    """The status of the program: 0 at its end, 1 where it can't start or go on, 2 where its words are wrong."""
    options = read_options(words)
    try:
        if options.new_key:
            make_key(options.new_key, options.tag)
            return 0
        lock(options)
        (invite if options.invite else hold)(options)
    except FAULTS as fault:
        print("wb-live: %s" % (fault or "the host ended"), file=sys.stderr)
        return 1
    return 0
