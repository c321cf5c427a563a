"""What stands beside a record, so that windows go on after a restart as if there had been none: the key of the page's address, the number of each
browser, and what windows asked to be drawn. A drawing is here before anybody else hears of it.

Each line has a word and what follows: `key KEY`, `guest COOKIE NUMBER`, `asked NAME DIGITS`, where NAME is the window's own for what it asked for,
and DIGITS are the drawop that came of it. Only the owner can read the file."""
from __future__ import annotations

import errno
import os
import re
import secrets
import stat
import threading
from contextlib import contextmanager
from typing import Dict, Iterator, List, Optional

from .record import NoRoom, RecordFault
from .views import NAMED

FIRST_LINE = "# wb page 1"
LINE = re.compile(r"key ([0-9a-f]{32})|guest ([0-9a-f]{32}) ([0-9]{1,10})|asked ([A-Za-z0-9_-]{1,40}) ((?:[0-9a-f]{2})+)")

# what a window calls something that it asks for
ASKED = re.compile("[A-Za-z0-9_-]{1,40}")

# browsers and things asked for that are remembered, those that came last
MOST_GUESTS, MOST_ASKED = 1_024, 65_536


class Kept:
    """Several threads may use it. Without a path it lasts as long as the program."""

    def __init__(self, path: Optional[str] = None, is_new: bool = True) -> None:
        self.path = path
        self.writing = threading.Lock()
        self.syncing = threading.Lock()
        self.key = ""
        self.guests: Dict[str, int] = {}
        self.asked: Dict[str, str] = {}
        self.places: Dict[str, int] = {}  # where the lines are of what was asked for since the start
        self.file = -1
        self.size = self.synced = 0
        if path:
            self.open(path, is_new)
        if not self.key:
            self.renew()

    # ---- the file

    def open(self, path: str, is_new: bool) -> None:
        """Reads what is there, unless it belongs to another record."""
        try:
            self.file = os.open(path, os.O_RDWR | os.O_CREAT | os.O_NOFOLLOW | os.O_NONBLOCK, 0o600)
            if not stat.S_ISREG(os.fstat(self.file).st_mode):
                raise RecordFault("%s is no file" % path)
            os.fchmod(self.file, 0o600)
            with open(os.dup(self.file), encoding="latin-1") as reader:
                text = reader.read()
        except OSError as fault:
            raise RecordFault("%s can't be written: %s" % (path, fault.strerror)) from fault
        if text and not text.startswith(FIRST_LINE + "\n"):
            raise RecordFault("%s is none of wb-live's: it stays as it is" % path)
        # a last line that a crash cut off was answered to nobody
        for line in text.split("\n")[1:-1] if not is_new else []:
            self.read(line)
        self.write_anew()

    def read(self, line: str) -> None:
        found = LINE.fullmatch(line)
        if not found:
            return
        key, cookie, number, asked, digits = found.groups()
        if key:
            self.key = key
        elif cookie:
            self.guests[cookie] = int(number)
        else:
            self.asked[asked] = digits

    def write_anew(self) -> None:
        """Writes what is remembered, in the place of what there was."""
        self.forget()
        lines = [FIRST_LINE, *(["key " + self.key] if self.key else []), *("guest %s %d" % each for each in self.guests.items()),
                 *("asked %s %s" % each for each in self.asked.items())]
        if self.path is None:
            return
        made = "%s.new" % self.path
        file = os.open(made, os.O_RDWR | os.O_CREAT | os.O_TRUNC | os.O_NOFOLLOW, 0o600)
        os.close(self.file)
        self.file, self.size = file, 0
        self.add(*lines)
        os.rename(made, self.path)

    def forget(self) -> None:
        """What came first of too many."""
        while len(self.guests) > MOST_GUESTS:
            del self.guests[next(iter(self.guests))]
        while len(self.asked) > MOST_ASKED:
            asked = next(iter(self.asked))
            del self.asked[asked]
            self.places.pop(asked, None)

    def add(self, *lines: str) -> int:
        """Puts lines into the file, all or none, and gives where they begin: a crash of this process does not lose them from now on."""
        begins, text = self.size, "".join(line + "\n" for line in lines).encode("latin-1")
        if self.file < 0:
            return begins
        try:
            if os.pwrite(self.file, text, begins) < len(text):
                raise OSError(errno.ENOSPC, "no room")
        except OSError as fault:
            os.ftruncate(self.file, begins)
            raise NoRoom(fault.strerror) from fault
        self.size += len(text)
        return begins

    def sync(self) -> None:
        """Puts all lines on the disk: a crash of the machine does not lose them from now on. Whoever comes meanwhile shares the next sync."""
        size = self.size
        with self.syncing:
            if self.file < 0 or self.synced >= size:
                return
            size = self.size
            try:
                os.fsync(self.file)
            except OSError as fault:
                raise NoRoom(fault.strerror) from fault
            self.synced = size

    def move(self, path: Optional[str]) -> None:
        """The record has another path."""
        if self.path and path and path != self.path:
            os.rename(self.path, path)
            self.path = path

    def close(self) -> None:
        if self.file >= 0:
            os.close(self.file)
        self.file = -1

    # ---- what is kept

    def renew(self) -> None:
        """Another key: whoever had the one before needs the new address."""
        with self.writing:
            self.key = secrets.token_hex(16)
            self.guests = {}
            self.add("key " + self.key)

    def admit(self, cookie: str, number: int) -> None:
        """A browser has this number from now on."""
        with self.writing:
            self.guests[cookie] = number
            self.add("guest %s %d" % (cookie, number))
            self.forget()

    def renumber(self, number: int, me: int) -> None:
        """Whichever browser had a number has another one from now on."""
        for cookie in [cookie for cookie, its in self.guests.items() if its == number]:
            self.admit(cookie, me)

    def keep(self, asked: str, digits: str) -> None:
        """Keeps what comes of something that a window asked for. NoRoom if there is none for it."""
        with self.writing:
            self.places[asked] = self.add("asked %s %s" % (asked, digits))
            self.asked[asked] = digits
            self.forget()

    @contextmanager
    def unless_lost(self, many: List[str]) -> Iterator[None]:
        """If there is no room for something else meanwhile, nothing came of what was asked for under these names."""
        try:
            yield
        except NoRoom:
            for asked in many:
                self.drop(asked)
            raise

    def drop(self, asked: str) -> None:
        """Makes its line one that says nothing, which needs no room."""
        with self.writing:
            if asked in self.places and self.file >= 0:
                os.pwrite(self.file, b"#", self.places[asked])
            self.places.pop(asked, None)
            self.asked.pop(asked, None)

    def drawn_by(self, number: int) -> List[str]:
        """What a browser of this number had drawn."""
        source = "%08x" % number
        return [digits for digits in list(self.asked.values()) if digits[NAMED[0]:NAMED[1]] == source]


def path_beside(path: Optional[str]) -> Optional[str]:
    """Where it stands for the record of this path."""
    return path and path + ".page"
