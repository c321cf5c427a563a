"""All drawops of one member at once, over TCP beside its UDP port: so a newcomer need not ask for each."""
from __future__ import annotations

import contextlib
import itertools
import os
import socket
import threading
import time
from collections import Counter
from concurrent.futures import TimeoutError as TooLate
from functools import partial
from typing import TYPE_CHECKING, Dict, Iterator, NamedTuple, Optional, Tuple

from .carriers.carrier import MOST_BYTES, Origin
from .carriers.sealed import NONCE, TAG, Seal
from .carriers.udp import UdpCarrier
from .clock import SECOND
from .options import Address
from .people import Refused
from .views import Page, Report

if TYPE_CHECKING:
    from .member import Member

# how a stream breaks off: by the network, or since a member ends or its host does. Any other exception is a fault of this program
BROKEN = (OSError, TooLate, Refused)

# bytes and seconds of a stream, and seconds without a byte and until the question
MOST_STREAM = 16 << 20
LONGEST = 60.0
SILENCE = 5.0
QUESTION_TIME = 1.0

# seconds until the next stream is accepted, if this machine has no room for one now
NEXT_TRY = 0.1

# A stream that brings much brings what is asked for by name too: nothing is asked for so long after it brought so many that were new. What brings
# less holds no request back, so a member that lies has to give drawops, for which the board has room.
PAUSE, MANY = 2.0, 100

# A member that lacks LACKING numbers takes a stream, unless one began lately, or one of that member, in microseconds: as its host has it. With fewer
# it asks for each.
LACKING, FETCH_PAUSE, FETCH_AGAIN = 500, 10 * SECOND, 60 * SECOND

# marks of members that are remembered, for which a stream was tried
MOST_TRIED = 4_096

# streams that a member gives at a time, and datagrams that are taken in at a time
MOST_GIVEN = 4
SOME = 500
PIECE = 1 << 16

# how a stream is asked for: the question for pages, without an asker
QUESTION = bytes.fromhex("574201040000000400000000")

HEAD = 8

# under a key a stream has pieces: the length of each in four bytes, and its sealed bytes
LENGTH = 4
MOST_PIECE = 1 << 20

# bytes of a number that either side draws anew for each stream under a key
FRESH = 16


# of a member that reports, a page and a source the greatest number
Marks = Dict[Tuple[int, Page, int], int]


class Streams(NamedTuple):
    """Where streams are given and asked for: beside a carrier by UDP. Under a key they are sealed as its datagrams are."""

    udp: UdpCarrier
    seal: Optional[Seal]


class Talk:
    """One stream. Under a key the giver says a fresh number first, and the asker one of its own with the question. Both go with all that is sealed
    from then on, so nothing that was sealed for another stream opens."""

    def __init__(self, stream: socket.socket, seal: Optional[Seal]) -> None:
        self.stream = stream
        self.seal = seal
        self.fresh = b""

    def ask(self, end: float) -> None:
        if self.seal:
            self.fresh = all_of(self.stream, FRESH, end)
            ours = os.urandom(FRESH)
            self.write(ours + QUESTION)
            self.fresh += ours
        else:
            self.stream.sendall(QUESTION)

    def is_asked(self, end: float) -> bool:
        """Whether the other side asks for a stream until then, and has the key if there is one."""
        if not self.seal:
            return all_of(self.stream, len(QUESTION), end) == QUESTION
        self.fresh = os.urandom(FRESH)
        self.stream.sendall(self.fresh)
        said = self.read(end)
        self.fresh += said[:FRESH]
        return said[FRESH:] == QUESTION

    def write(self, data: bytes) -> None:
        closed = self.seal.close(data, self.fresh) if self.seal else data
        self.stream.sendall(len(closed).to_bytes(LENGTH, "big") + closed if self.seal else closed)

    def read(self, end: float) -> bytes:
        """What comes next; nothing at the end, and if a piece does not open. TimeoutError after `end`."""
        if not self.seal:
            return part_of(self.stream, PIECE, end)
        size = int.from_bytes(all_of(self.stream, LENGTH, end), "big")
        return self.seal.open(all_of(self.stream, size, end), self.fresh) or b"" if 0 < size <= MOST_PIECE + NONCE + TAG else b""


def part_of(stream: socket.socket, most: int, end: float) -> bytes:
    """What comes next, as a network cuts it; nothing at the end. TimeoutError after a silence, and after `end`."""
    left = min(SILENCE, end - time.monotonic())
    if left <= 0:
        raise TimeoutError
    stream.settimeout(left)
    return stream.recv(most)


def all_of(stream: socket.socket, size: int, end: float) -> bytes:
    """So many bytes, in as many parts as they come; fewer only at the end."""
    data = bytearray()
    while len(data) < size:
        part = part_of(stream, min(PIECE, size - len(data)), end)
        if not part:
            break
        data += part
    return bytes(data)


def datagrams_of(talk: Talk, end: float) -> Iterator[bytes]:
    """The datagrams of a stream: each tells its length. It ends at the first that is none."""
    data, total = b"", 0
    while total < MOST_STREAM and time.monotonic() < end:
        part = talk.read(end)
        data, total = data + part, total + len(part)
        at = 0
        while len(data) - at >= HEAD:
            size = HEAD + int.from_bytes(data[at + 4:at + HEAD], "big")
            if data[at:at + 2] != b"WB" or size > MOST_BYTES:
                return
            if len(data) - at < size:
                break
            yield data[at:at + size]
            at += size
        data = data[at:]
        if not part:
            return


class Joining:
    """What a member that lacks much takes: one stream at a time, of a member that has answered it."""

    def __init__(self, member: Member) -> None:
        self.member = member
        self.is_busy = False
        self.is_ended = False
        self.coming_until = 0.0
        self.next_at = 0  # from then on a stream may begin
        self.again_at: Dict[int, int] = {}  # from then on one of that member may
        self.brought = 0  # how many drawops of the stream were new
        self.tried: Marks = {}  # what a member reported when a stream of it came that brought little: it has no more of what is below

    def consider(self, report: Report, origin: Origin, is_named: bool) -> None:
        """A member has reported from there. A stream of it is taken if the host says so, or if that member holds much that is lacking here: the host
        counts what lies above the greatest numbers that it holds, and holes below them are lacking too. A hole that it has as well, since a number was
        left out or forged, brings no second stream."""
        now = self.member.board.moment
        if not is_named and (now < max(self.next_at, self.again_at.get(report.speaker, 0)) or self.lacking(report) < LACKING):
            return
        self.next_at = now + FETCH_PAUSE
        self.again_at = {number: at for number, at in self.again_at.items() if at > now}
        self.again_at[report.speaker] = now + FETCH_AGAIN
        self.fetch(origin, {(report.speaker, report.page, source): high for source, high in report.noted(self.member.me)})

    def lacking(self, report: Report) -> int:
        """How many numbers of others up to the marks of a report are not held, and may be had of who reports."""
        return sum(min(self.member.drawn.lacking(report.page, source, high), max(0, high - self.tried.get((report.speaker, report.page, source), 0)))
                   for source, high in report.noted(self.member.me))

    def took(self, new: int) -> None:
        """So many drawops of a stream were new."""
        self.brought += new
        if new >= MANY:
            self.coming_until = time.monotonic() + PAUSE

    def is_coming(self) -> bool:
        """Whether a stream brings much."""
        return self.is_busy and time.monotonic() < self.coming_until

    def note(self, marks: Marks) -> None:
        """A stream has come that was taken for these marks."""
        if self.brought < LACKING:
            self.tried.update(marks)
        while len(self.tried) > MOST_TRIED:
            del self.tried[next(iter(self.tried))]

    def fetch(self, origin: Origin, marks: Marks) -> None:
        """Takes a stream of the member that speaks from there, if it may be had."""
        streams, address = self.member.streams, origin.address
        if self.is_busy or streams is None or address is None or not streams.udp.is_there(address):
            return
        self.is_busy, self.brought = True, 0
        threading.Thread(target=self.join, args=(streams, origin, address, marks), daemon=True).start()

    def join(self, streams: Streams, origin: Origin, address: Address, marks: Marks) -> None:
        """Takes in a stream, as fast as the member's thread does."""
        try:
            with streams.udp.stream_to(address, SILENCE) as stream:
                talk, end = Talk(stream, streams.seal), time.monotonic() + LONGEST
                talk.ask(end)
                self.take_all(datagrams_of(talk, end), origin)
            self.member.inbox.call(partial(self.note, marks))
        except BROKEN:
            pass  # what is missing is asked for
        finally:
            self.is_busy = False

    def take_all(self, datagrams: Iterator[bytes], origin: Origin) -> None:
        """Has the member take them in, some at a time, and few at first, so that it shows soon whether the stream brings much."""
        for size in itertools.chain([MANY], itertools.repeat(SOME)):
            some = list(itertools.islice(datagrams, size))
            if not some or self.is_ended:
                return
            self.member.people.call(self.member.judging.take_stream, some, origin).result(LONGEST)

    def end(self) -> None:
        self.is_ended = True


class Offer:
    """What a member gives to who asks: each drawop that it holds, one after another."""

    def __init__(self, member: Member, streams: Streams) -> None:
        self.member = member
        self.streams = streams
        self.changed = threading.Lock()
        self.given: "Counter[str]" = Counter()  # how many streams each host has
        self.socket: Optional[socket.socket] = None
        self.is_ended = False

    def begin(self) -> None:
        """Listens beside the UDP port. If that port is taken, nothing is offered."""
        try:
            self.socket = self.streams.udp.listen_beside(MOST_GIVEN)
        except OSError:
            return
        threading.Thread(target=self.accept, args=(self.socket,), daemon=True).start()

    def accept(self, listening: socket.socket) -> None:
        while not self.is_ended:
            try:
                stream, address = listening.accept()
            except OSError:  # too many files are open, or who asked has gone
                time.sleep(NEXT_TRY)
                continue
            if self.streams.udp.may_ask(address) and self.take_place(address[0]):
                threading.Thread(target=self.give, args=(stream, address[0]), daemon=True).start()
            else:
                stream.close()

    def take_place(self, host: str) -> bool:
        """Whether there is room for one more stream, to that host."""
        with self.changed:
            has_room = sum(self.given.values()) < MOST_GIVEN and self.given[host] < self.streams.udp.streams_of_host
            self.given[host] += has_room
            return has_room

    def give_back(self, host: str) -> None:
        with self.changed:
            self.given[host] -= 1
            self.given += Counter()  # forgets who has none

    def give(self, stream: socket.socket, host: str) -> None:
        try:
            with stream:
                talk = Talk(stream, self.streams.seal)
                if talk.is_asked(time.monotonic() + QUESTION_TIME):
                    stream.settimeout(SILENCE)
                    self.send_all(talk)
        except BROKEN:
            pass  # who asked has gone, or this member ends
        finally:
            self.give_back(host)

    def send_all(self, talk: Talk) -> None:
        """By page, source and number, so that nothing seems to be missing on the way."""
        end = time.monotonic() + LONGEST
        held = self.member.people.call(lambda: list(self.member.drawn.all())).result(LONGEST)
        held.sort(key=lambda drawop: (drawop.name[1], drawop.name[0], drawop.name[2]))
        for start in range(0, len(held), SOME):
            if time.monotonic() > end:
                return
            talk.write(bytes.fromhex("".join(drawop.digits for drawop in held[start:start + SOME])))

    def end(self) -> None:
        self.is_ended = True
        if self.socket:
            with contextlib.suppress(OSError):
                self.socket.shutdown(socket.SHUT_RDWR)  # else its thread waits on
            self.socket.close()

