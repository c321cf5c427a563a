"""A host of the library libwb, in this process, by the calls of include/wb.h: by lines, and by bytes where there is a call for it."""
from __future__ import annotations

import ctypes
import struct
import subprocess
import threading
from typing import Any, Dict, Iterator, List, NoReturn, Optional, Sequence, Tuple

from .answers import Answer, Became, Fetch, Gap, drawn_in
from .blocks import Block, block_of, bytes_of
from .calls import Lines
from .child import HostEnded
from .drawings import Drawop, Page, draft_of, drawop_of
from .program import NoProgram, find_library, find_program

# what a call of the library answers (include/wb.h)
DONE, WAITS, NOT_DONE, CLOSED, MEMORY, OPEN, NOTHING = range(7)

# why a call was refused, by what it answers from 7 on, as a line of the same meaning says it; and from 200 on, why an operation was
REFUSALS = ("not kept", "number", "back in time", "listening", "ours", "too many", "no drawop", "no question", "judged", "not judged", "twin", "full", "number")
NO_DATAGRAM, NO_OPERATION, FULL = 100, 200, 18
FIELDS = ("sequence number 0", "coordinate over 4095", "glyph outside ! to ~", "text of 0 or over 64 bytes", "text byte outside space to ~",
          "target sequence number 0", "target is the drawop itself")

# the kinds of events
SENT, NEW, AGAIN, CLASH, LEFT, SHOWN, MISSING, GREATEST, PAGE, NEXT, PAINTED, DROPPED, RECORD, DREW, FETCH, WARN, DIGEST = range(1, 18)
FATES = {NEW: Became.NEW, AGAIN: Became.AGAIN, CLASH: Became.CLASH, LEFT: Became.FULL}
DROPS = ("datagram", "own", "speaks", "crowd", "mark", "stranger", "flood", "again", "ahead", "full", "share", "pages", "holes")
WARNINGS = ("speaks", "mark", "twin", "full", "share")

# the questions
ASK_NEXT, ASK_VIEW, ASK_GAPS, ASK_REPORT, ASK_PAGES, ASK_KNOWN, ASK_CANVAS, ASK_DIGEST = range(1, 9)

NEVER = 2**64 - 1
MOST_NUMBER = 2**32 - 1

# bytes of the room for a block or an event at first
ROOM = 1 << 14


class Held(ctypes.Structure):
    """`wb_host`: what the library keeps of one host."""

    _fields_ = [("at", ctypes.c_void_p), ("is_open", ctypes.c_bool)]


HOST, SIZE, TEXT, LENGTH, LONG, NUMBER, FLAG = (ctypes.POINTER(Held), ctypes.POINTER(ctypes.c_size_t), ctypes.c_char_p, ctypes.c_size_t, ctypes.c_uint64,
                                                ctypes.c_uint32, ctypes.c_bool)
CALLS: Dict[str, Tuple[Any, List[Any]]] = {
    "wb_open": (NUMBER, []), "wb_line": (NUMBER, [TEXT, LENGTH, TEXT, LENGTH, SIZE]), "wb_block": (NUMBER, [TEXT, LENGTH, SIZE]),
    "wb_came": (NUMBER, [LONG, TEXT, LENGTH]), "wb_came_from": (NUMBER, [LONG, LONG, LONG, FLAG, TEXT, LENGTH]), "wb_wall": (NUMBER, [LONG, LONG]),
    "wb_gone": (NUMBER, [LONG, LONG, LONG, FLAG]), "wb_tick": (NUMBER, [LONG]), "wb_add": (NUMBER, [LONG, TEXT, LENGTH]), "wb_ask": (NUMBER, [NUMBER] * 5),
    "wb_event": (NUMBER, [ctypes.POINTER(NUMBER), TEXT, LENGTH, SIZE]), "wb_due": (LONG, []), "wb_close": (None, []),
}


def load(path: Optional[str] = None) -> ctypes.CDLL:
    """The library. NoProgram where there is none, or this machine can't run it."""
    found = path or find_library()
    if not found:
        raise NoProgram("there is no library libwb.so: name it by WB_LIBRARY")
    try:
        library = ctypes.CDLL(found)
    except OSError as fault:
        raise NoProgram("%s is for Linux on x86-64 with glibc, and can't be loaded here: %s" % (found, fault)) from fault
    for name, (answer, words) in CALLS.items():
        call = getattr(library, name)
        call.restype, call.argtypes = answer, [HOST, *words]
    return library


def version() -> str:
    """What the library says of itself, in lines: its version, the digest of its sources, and whether they are proved. Where there is none, what the
    program says: the version at least."""
    if not find_library():
        words = [find_program(), "--version"]
        return subprocess.run(words, stdin=subprocess.DEVNULL, stdout=subprocess.PIPE, stderr=subprocess.STDOUT, check=False).stdout.decode()
    call = load().wb_version
    call.restype, call.argtypes = ctypes.c_char_p, []
    return bytes(call()).decode()


class LibraryHost:
    """A host in this process. Threads that ask it at once wait for one another."""

    def __init__(self, path: Optional[str] = None) -> None:
        self.library = load(path)
        self.lock = threading.RLock()
        self.held = Held(None, False)
        self.place = ctypes.byref(self.held)
        self.size, self.kind = ctypes.c_size_t(0), ctypes.c_uint32(0)
        self.its_size, self.its_kind = ctypes.byref(self.size), ctypes.byref(self.kind)
        self.make_room(ROOM)
        self.due: Optional[int] = None
        if self.library.wb_open(self.place) != DONE:
            raise HostEnded("there was no memory for a host")

    def make_room(self, size: int) -> None:
        self.room, self.has_room = ctypes.create_string_buffer(size), size

    # ---- by lines

    def text(self, line: bytes) -> bytes:
        """What a line prints: its block, each of whose lines has its line feed."""
        if b"\n" in line:
            raise ValueError("a line feed in a line")
        status = self.library.wb_line(self.place, line, len(line), self.room, self.has_room, self.its_size)
        if status == WAITS:
            self.make_room(self.size.value)
            status = self.library.wb_block(self.place, self.room, self.has_room, self.its_size)
        if status != DONE:
            self.end_by(status)
        return ctypes.string_at(self.room, self.size.value)

    def ask(self, line: str) -> Block:
        """The block of a line."""
        with self.lock:
            block = block_of(self.text(bytes_of(line)).decode("latin-1").split("\n")[:-1], self.due)
            self.due = block.due
        return block

    def ask_all(self, lines: Sequence[str]) -> List[Block]:
        """The block of each line."""
        return [self.ask(line) for line in lines]

    # ---- by bytes

    def call(self, name: str, *words: Any) -> Tuple[int, List[Tuple[int, bytes]]]:
        """What a call answers, and its events, each by its kind and its bytes (include/wb.h)."""
        with self.lock:
            status = getattr(self.library, name)(self.place, *words)
            if status in (CLOSED, MEMORY):
                self.end_by(status)
            events = list(self.events()) if status == DONE else []
            due = self.library.wb_due(self.place)
            self.due = None if due == NEVER else due
        return status, events

    def events(self) -> Iterator[Tuple[int, bytes]]:
        """The events that wait."""
        while True:
            status = self.library.wb_event(self.place, self.its_kind, self.room, self.has_room, self.its_size)
            if status == WAITS:
                self.make_room(self.size.value)
            elif status == DONE:
                yield self.kind.value, ctypes.string_at(self.room, self.size.value)
            elif status == NOTHING:
                return
            else:
                self.end_by(status)

    def end_by(self, status: int) -> NoReturn:
        raise HostEnded("the host ended" if status == CLOSED else "there was no memory for a call")

    def end(self) -> None:
        with self.lock:
            self.library.wb_close(self.place)


class Bytes(Lines):
    """The calls of a host of the library, as `Lines` has them, by bytes. What has no bytes, as a number that is too great, goes by its line."""

    def __init__(self, by: LibraryHost) -> None:
        self.by: Any = by
        self.is_judged = False

    # ---- what happens

    def came(self, now: int, datagram: bytes) -> Answer:
        return self.answer(self.by.call("wb_came", moment(now), datagram, len(datagram)), datagram)

    def came_from(self, now: int, place: int, datagram: bytes) -> Answer:
        return self.answer(self.by.call("wb_came_from", moment(now), place, 0, False, datagram, len(datagram)), datagram)

    def wall(self, now: int, time_of_day: int) -> Answer:
        return self.answer(self.by.call("wb_wall", moment(now), time_of_day))

    def tick(self, now: int) -> Answer:
        return self.answer(self.by.call("wb_tick", moment(now)))

    def add(self, now: int, time: int, member: int, page: Page, operation: str) -> Answer:
        draft = draft_of(page, time, operation)
        if draft is None:
            return super().add(now, time, member, page, operation)
        ended = self.by.call("wb_add", moment(now), draft, len(draft))
        if ended[0] == FULL:
            return Answer([], self.by.due, Became.FULL)
        answer = self.answer(ended)
        return answer._replace(drawop=drawn_in(answer.send, member) if answer.became is Became.NEW else None)

    def answer(self, ended: Tuple[int, Sequence[Tuple[int, bytes]]], datagram: bytes = b"") -> Answer:
        """What a call came to. Each kind comes once at most, but for what is sent, recorded and drawn."""
        (status, events), due = ended, self.by.due
        if status != DONE:
            return Answer([], due, refused=self.refusal(status))
        its = dict(events)
        became = next((FATES[kind] for kind, _ in events if kind in FATES), None)
        return Answer([each for kind, each in events if kind == SENT], due, became, None, warning_in(its[WARN]) if WARN in its else None,
                      drawop_of(datagram) if became is Became.NEW else None, DROPS[numbers(its[DROPPED])[0] - 1] if DROPPED in its else None,
                      [each.decode("latin-1") for kind, each in events if kind == RECORD], fetch_in(its[FETCH]) if FETCH in its else None)

    def refusal(self, status: int) -> str:
        """Why a call was refused, as its line says it: the line of a judged host has one word less before an operation."""
        if status > NO_OPERATION:
            return "word %d: %s" % (5 if self.is_judged else 6, FIELDS[status - NO_OPERATION - 1])
        if status > NO_DATAGRAM:
            return "datagram %d" % (status - NO_DATAGRAM)
        return REFUSALS[status - 7] if 7 <= status < 7 + len(REFUSALS) else "status %d" % status

    # ---- questions

    def asked(self, question: int, page: Tuple[int, int] = (0, 0), width: int = 0, height: int = 0) -> Optional[List[bytes]]:
        """The bytes of each item."""
        given = (*page, width, height)
        if not all(0 <= number <= MOST_NUMBER for number in given):
            return None
        status, events = self.by.call("wb_ask", question, *given)
        return [item for _, item in events] if status == DONE else None

    def show(self, page: Page, width: int, height: int) -> Optional[List[str]]:
        found = self.asked(ASK_CANVAS, page, width, height)
        return None if found is None else found[0].decode("latin-1").split("\n")[:-1]

    def view(self, page: Page) -> Optional[List[Drawop]]:
        found = self.asked(ASK_VIEW, page)
        return None if found is None else [drawop for drawop in map(drawop_of, found) if drawop]

    def gaps(self, page: Page) -> Optional[List[Gap]]:
        found = self.asked(ASK_GAPS, page)
        return None if found is None else [Gap(*numbers(item)) for item in found]

    def report(self, page: Page) -> Optional[Dict[int, int]]:
        found = self.asked(ASK_REPORT, page)
        rows = [numbers(item) for item in found or []]
        return None if found is None else {source: number for source, number in rows}

    def digest(self, page: Page) -> Optional[bytes]:
        found = self.asked(ASK_DIGEST, page)
        return found[0] if found else None

    def pages(self, word: str) -> Optional[List[Page]]:
        found = self.asked(ASK_PAGES if word == "pages" else ASK_KNOWN)
        return None if found is None else [Page(*numbers(item)) for item in found]

    def next_number(self, page: Page) -> Optional[int]:
        found = self.asked(ASK_NEXT, page)
        return numbers(found[0])[0] if found else None


def moment(now: int) -> int:
    """A moment as a call takes it: one that no host has stays one."""
    return now if 0 <= now < NEVER else NEVER


def numbers(told: bytes) -> Tuple[int, ...]:
    return struct.unpack(">%dI" % (len(told) // 4), told)


def warning_in(told: bytes) -> str:
    which, *member = numbers(told)
    return " ".join([WARNINGS[which - 1], *map(str, member)])


def fetch_in(told: bytes) -> Fetch:
    place, lacking, *owner = struct.unpack(">%dQ" % (len(told) // 8), told)
    return Fetch(place, owner[0] if owner else None, lacking)
