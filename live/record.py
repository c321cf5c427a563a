"""The record of a member: the lines that made its board, in a file that a host can be given again.

It has the line of the board, each drawop that was new, with the moment at which it came, marks of the member's own number that
were heard at its start, and who owns numbers where the network keeps names. Questions, what was refused, and what others asked for change nothing that is held: they are not there."""
from __future__ import annotations

import contextlib
import errno
import fcntl
import itertools
import os
import re
import stat
import tempfile
import time
from pathlib import Path
from typing import Iterator, List, Optional

# no line of a record is longer than this: the longest has a datagram of 65,507 bytes
MOST_LINE = 131_072

# lines of older records that change nothing
QUERIES = ("view", "show", "gaps", "report", "pages", "known", "next", "#")

# The first line of a record, with the version of its lines. Records before version 1 have none, and are read the same.
VERSION = 1
FIRST_LINE = "# wb record %d" % VERSION
WRITTEN_BY = re.compile(rb"# wb record ([0-9]{1,9})\n")

# the last line of a member that ended as it should, and more bytes than that has
ENDED = "ended"
MOST_END = 64

# how a record begins: comments, and then the line of the board
HEAD = re.compile(rb"(?:#[^\n]*\n)*board [0-9]{1,10} [0-9]{1,5} [0-9] [0-9]{1,20}\n")
MOST_HEAD = 65_536
BEGINNING = FIRST_LINE.encode() + b"\n"
CUT = re.compile(b"[a-z]{0,5}[0-9 ]{0,40}")  # of the line of the board

# The moments of a host are below 2^48 microseconds. A record has a day left until then, or it would start and draw nothing
MOST_MOMENT = 2**48 - 86_400 * 10**6

# the lines whose form is known here: a moment, who owns a number, and a datagram by its digits
MOMENT = re.compile("tick ([0-9]{1,15})")
OWNER = "owner "
OWNED = re.compile("owner [0-9]{1,10} [0-9]{1,20}@[0-9]{1,20}")
DIGITS = re.compile("(?:datagram|arrive|hear) (?:[0-9a-fA-F]{2})+")

# how many letters of an unreadable line a message has
TOLD = 40


class RecordFault(Exception):
    """The file is not a record, a line of it is wrong, or another member has it."""


class Act(str):
    """A line of a record that changes a host, and where it stands."""

    place = "the record"

    def fault(self, why: str) -> RecordFault:
        """By which a file that has this line is refused."""
        return RecordFault("%s: %s: %r%s" % (self.place, why, str(self)[:TOLD], " .." if len(self) > TOLD else ""))

    def check(self) -> None:
        """RecordFault if it is none of those whose form is known."""
        moment = MOMENT.fullmatch(self)
        if self.startswith("tick ") and not (moment and int(moment[1]) < MOST_MOMENT):
            raise self.fault("it is no moment of a board that goes on")
        if self.startswith(OWNER) and not OWNED.fullmatch(self):
            raise self.fault("it names no owner")
        if self.startswith(("datagram ", "arrive ", "hear ")) and not DIGITS.fullmatch(self):
            raise self.fault("it has no pairs of digits")


class NoRoom(Exception):
    """A line could not be written."""


def written(file: int) -> int:
    """How many bytes of a file come before the zeros at its end, which a crash of the machine may leave for what was not written."""
    end = os.fstat(file).st_size
    while end:
        start = max(0, end - MOST_HEAD)
        part = os.pread(file, end - start, start).rstrip(b"\0")
        if part:
            return start + len(part)
        end = start
    return 0


def is_cut(file: int) -> bool:
    """Whether a file has no more than a part of a head: a crash cut it off before anything was drawn."""
    size = written(file)
    text = os.pread(file, min(size, MOST_END), 0)
    rest = text[len(BEGINNING):]
    return size < MOST_END and BEGINNING.startswith(text[:len(BEGINNING)]) and b"board".startswith(rest[:5]) and bool(CUT.fullmatch(rest))


def check_head(file: int, path: Optional[str]) -> bool:
    """Whether a file is empty, or has a part of a head. One that does not begin as a record is refused, and one of a later version; its rest is not
    read."""
    head = os.pread(file, MOST_HEAD, 0)
    version = WRITTEN_BY.match(head)
    if version and int(version[1]) > VERSION:
        raise RecordFault("%s is a record of version %d, of a later wb; this one reads version %d. It stays as it is" % (path, int(version[1]), VERSION))
    if HEAD.match(head):
        return False
    if not is_cut(file):
        raise RecordFault("%s does not begin as a record: it stays as it is" % path)
    return True


def lines_of(file: int, path: Optional[str]) -> Iterator[str]:
    """All lines of a file, from the first. A last line that a crash cut off is none. RecordFault at one that is too long, of which no more is read."""
    number = at = 0
    with open(os.dup(file), "rb") as reader:
        reader.seek(0)
        end = written(file)
        while at < end:
            line = reader.readline(MOST_LINE + 1)
            number, at = number + 1, at + len(line)
            if line.endswith(b"\n"):
                yield line.rstrip(b"\r\n").decode("latin-1")
            elif at < end:
                raise RecordFault("%s, line %d: it has over %d bytes" % (path or "the record", number, MOST_LINE))


def acts_of(file: int, path: Optional[str]) -> Iterator[Act]:
    """The lines that change a host, from the first. RecordFault at one that is none."""
    for number, line in enumerate(lines_of(file, path), 1):
        if line and not line.startswith(QUERIES):
            act = Act(line)
            act.place = "%s, line %d" % (path or "the record", number)
            act.check()
            yield act


def read_played(path: str) -> Iterator[Act]:
    """The lines that change a host, of a record that is shown and not touched."""
    try:
        file = os.open(path, os.O_RDONLY | os.O_NONBLOCK)  # else a pipe that nobody writes to holds it
    except OSError as fault:
        raise RecordFault("%s can't be read: %s" % (path, fault.strerror)) from fault
    try:
        if not stat.S_ISREG(os.fstat(file).st_mode):
            raise RecordFault("%s is no file" % path)
        if check_head(file, path):
            raise RecordFault("%s is empty" % path)
        yield from acts_of(file, path)
    finally:
        os.close(file)


class Record:
    """A file that only grows. Without a path it is one that vanishes with this process."""

    def __init__(self, path: Optional[str]) -> None:
        self.path = path
        self.file = self.open(path)
        try:
            self.size = self.synced = self.good_size()
        except RecordFault:
            os.close(self.file)
            raise
        self.is_named = False  # whether its name is on the disk too, where it may be new
        self.given: List[str] = []  # lines that it shares with others: they stand after that of the board, and in no file

    def open(self, path: Optional[str]) -> int:
        if path is None:
            file, name = tempfile.mkstemp(prefix="wb-live-")
            os.unlink(name)
            return file
        try:
            file = os.open(path, os.O_RDWR | os.O_CREAT | os.O_NOFOLLOW | os.O_NONBLOCK, 0o600)
        except OSError as fault:
            why = "it is a link, and none is followed" if fault.errno == errno.ELOOP else fault.strerror
            raise RecordFault("%s can't be written: %s" % (path, why)) from fault
        try:
            if not stat.S_ISREG(os.fstat(file).st_mode):
                raise RecordFault("%s is no file" % path)
            fcntl.flock(file, fcntl.LOCK_EX | fcntl.LOCK_NB)
            check_head(file, path)
        except OSError as fault:
            os.close(file)
            raise RecordFault("%s is in use by another member" % path) from fault
        except RecordFault:
            os.close(file)
            raise
        return file

    def good_size(self) -> int:
        """Where the next line begins. A line that a crash cut off was answered to nobody: it is written over."""
        size = written(self.file)
        start = max(0, size - 2 * MOST_LINE)
        end = 0 if is_cut(self.file) else os.pread(self.file, size - start, start).rfind(b"\n") + 1
        if end == 0 and start > 0:
            raise RecordFault("%s is no record" % self.path)
        if start + end < os.fstat(self.file).st_size:
            os.ftruncate(self.file, start + end)
        return start + end

    def acts(self) -> Iterator[Act]:
        acts = acts_of(self.file, self.path)
        yield from itertools.islice(acts, 1)
        yield from map(Act, self.given)
        yield from acts

    def text(self) -> bytes:
        """All of it."""
        text = os.pread(self.file, self.size, 0)
        head = HEAD.match(text)
        end = head.end() if head else 0
        return text[:end] + "".join([line + "\n" for line in self.given]).encode("latin-1") + text[end:]

    def first(self) -> Optional[str]:
        """The line of the board, where there is one."""
        return next(self.acts(), None)

    def is_ended(self) -> bool:
        """Whether the member ended as it should, so that no line is lost."""
        return os.pread(self.file, MOST_END, max(0, self.size - MOST_END)).split(b"\n")[-2:][0].startswith(b"# " + ENDED.encode())

    def add(self, *lines: str) -> None:
        """Puts lines into the file, all or none: a crash of this process does not lose them from now on."""
        text = "".join(line + "\n" for line in lines).encode("latin-1")
        try:
            if os.pwrite(self.file, text, self.size) < len(text):
                raise OSError(errno.ENOSPC, "no room")
        except OSError as fault:
            self.cut(self.size)
            raise NoRoom(fault.strerror) from fault
        self.size += len(text)

    def cut(self, size: int) -> None:
        """Takes off what was written beyond a size."""
        os.ftruncate(self.file, size)
        self.size = size

    def sync(self) -> None:
        """Puts all lines on the disk: a crash of the machine does not lose them from now on. NoRoom if the disk does not take them: then those since
        the last sync are not in the record."""
        if self.path is not None and (self.synced < self.size or not self.is_named):
            try:
                os.fsync(self.file)
                if not self.is_named:
                    sync_folders(self.path)
            except OSError as fault:
                self.cut(self.synced)
                raise NoRoom(fault.strerror) from fault
            self.is_named = True
        self.synced = self.size

    def remove(self) -> None:
        """Closes it and removes it. OSError if its folder does not let it go."""
        try:
            if self.path is not None:
                os.unlink(self.path)
        except FileNotFoundError:
            pass
        finally:
            self.close()

    def end(self) -> None:
        """Closes it, and says that nothing was lost."""
        try:
            self.add(comment(ENDED))
        except NoRoom:
            pass
        self.close()

    def close(self) -> None:
        """Closes it, if it is open."""
        if self.file < 0:
            return
        try:
            self.sync()
        except NoRoom:
            pass
        os.close(self.file)
        self.file = -1


def sync_folders(path: str) -> None:
    """Puts the name of a file on the disk, and those of the folders that it is in. One that can't be opened was there before."""
    for folder in Path(os.path.abspath(path)).parents:
        try:
            opened = os.open(folder, os.O_RDONLY | os.O_DIRECTORY)
        except OSError:
            return
        try:
            os.fsync(opened)
        except OSError as fault:
            if fault.errno not in (errno.EINVAL, errno.EROFS):  # else there is nothing to sync
                raise
        finally:
            os.close(opened)


def comment(text: str) -> str:
    """A line with the time of day, which changes nothing."""
    return "# %s at %s" % (text, time.strftime("%Y-%m-%d %H:%M:%S"))


def write_record(path: Optional[str], lines: List[str]) -> Record:
    """A record of these lines in a file that is whole before it stands under its name. It replaces what stood there."""
    made = path and "%s.%d.new" % (path, os.getpid())
    if made:
        with contextlib.suppress(FileNotFoundError):
            os.unlink(made)  # of a process that had our number, and ended in the middle
    record = Record(made or None)
    try:
        record.add(*lines)
        record.sync()
        if made and path:
            os.rename(made, path)
            record.path, record.is_named = path, False
    except (NoRoom, OSError):
        record.remove()
        raise
    return record
