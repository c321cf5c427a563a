"""A member that goes on where it ended: a judged host, and the file of what it says is to be recorded."""
from __future__ import annotations

import errno
import fcntl
import os
import random
import re
import time
from pathlib import Path
from typing import Any, Iterable, List, Sequence, Union

from .answers import Answer, Refused
from .child import ChildHost
from .host import LISTENING, MOST_CELLS, AnyDrawing, AnyPage, Host, taken
from .library import LibraryHost

# how a record begins, the line of its board after that, and the last line of a member that ended as it should
FIRST_LINE = "# wb record 1"
BOARD = re.compile("board ([0-9]{1,10}) ([0-9]{1,5}) 1 ([0-9]{1,20})")
ENDED = "# ended"

# Moments of a host are below that. The clock of each start begins above the record, anywhere in one part in so many of those that are left,
# at one that nobody guesses: who echoes a moment of ours has heard it
MOST_MOMENT = 2**48
LEAD_PART = 512

# microseconds after which a host gets the time of day again
MINUTE = 60_000_000


class Record:
    """A file that only grows, and that one process has at a time."""

    def __init__(self, path: str) -> None:
        self.path = path
        self.file = os.open(path, os.O_RDWR | os.O_CREAT, 0o600)
        try:
            lock(self.file, path)
            text = os.pread(self.file, os.fstat(self.file).st_size, 0)
            if not text.startswith(FIRST_LINE.encode()[:len(text)]):
                raise Refused(path, "it is no record")
            # a last line without its line feed was cut off, and nothing of it was sent
            self.size = self.synced = text.rfind(b"\n") + 1
            os.ftruncate(self.file, self.size)
        except BaseException:
            os.close(self.file)
            raise
        self.lines = text[:self.size].decode("latin-1").splitlines()
        self.is_broken = False
        self.is_due = self.is_held = False  # whether lines wait for a sync, and whether that waits for more of them

    def add(self, lines: Sequence[str]) -> None:
        """Puts lines at the end, all or none; what this member drew is on the disk then. OSError where there is no room."""
        if not lines:
            return
        text = "".join(line + "\n" for line in lines).encode("latin-1")
        try:
            if os.pwrite(self.file, text, self.size) < len(text):
                raise OSError(errno.ENOSPC, "there is no room for the record", self.path)
        except OSError:
            self.cut(self.size)
            raise
        self.size += len(text)
        self.is_due = self.is_due or any(line.startswith(("say ", "#")) for line in lines)
        self.sync()

    def sync(self) -> None:
        """Puts on the disk what is due."""
        if not self.is_due or self.is_held:
            return
        try:
            os.fsync(self.file)
        except OSError:
            self.cut(self.synced)
            raise
        self.is_due, self.synced = False, self.size

    def cut(self, size: int) -> None:
        """Takes off what could not be written. Nothing is written from then on."""
        self.is_broken = True
        os.ftruncate(self.file, size)
        self.size = size

    def sync_name(self) -> None:
        """Puts the name of a new file on the disk."""
        folder = os.open(Path(self.path).resolve().parent, os.O_RDONLY)
        try:
            os.fsync(folder)
        finally:
            os.close(folder)

    def end(self) -> None:
        """Closes it, and says that nothing was lost."""
        if self.file >= 0:
            try:
                if not self.is_broken:
                    self.add([ENDED])
            finally:
                os.close(self.file)
                self.file = -1


def lock(file: int, path: str) -> None:
    try:
        fcntl.flock(file, fcntl.LOCK_EX | fcntl.LOCK_NB)
    except BlockingIOError as fault:
        raise Refused(path, "another member has this record") from fault


class RecordedHost(Host):
    """A judged host with a record: it decides also which datagrams it takes, by the place from which each came, and what it holds it holds
    again when it is started anew. What it drew is on the disk before an answer has it to be sent. If a record ends as it should, its host
    draws at once; else it listens first. OSError where the record can't be written: end it, and start again."""

    def __init__(self, member: int, record: str, *, cells: int = MOST_CELLS, rate: int = 4_000, listen: int = LISTENING,
                 by: Union[LibraryHost, ChildHost, None] = None, time_of_day: Any = time.time_ns) -> None:
        self.record = Record(record)
        self.time_of_day = time_of_day
        try:
            lines = self.record.lines
            board = BOARD.fullmatch(lines[1]) if len(lines) > 1 else None
            if len(lines) > 1 and not (board and int(board[1]) == member):
                raise Refused(record, "it is no record of member %d" % member)
            seed = int(board[3]) if board else random.SystemRandom().getrandbits(64)
            self.head = [] if board else [FIRST_LINE, "board %d %d 1 %d" % (member, cells, seed)][len(lines):]
            super().__init__(member, cells=int(board[2]) if board else cells, seed=seed, rate=rate, listen=0 if ENDED in lines[-1:] else listen, by=by)
        except BaseException:
            self.record.is_broken = True
            self.record.end()
            raise

    def keep_itself(self, rate: int, listen: int) -> None:
        last = max((int(line[5:]) for line in self.record.lines if line.startswith("tick ")), default=-1)
        self.begun = self.told_at = last + 1 + random.SystemRandom().randrange((MOST_MOMENT - last) // LEAD_PART)
        self.calls.is_judged = True
        self.must("judge %d %d %d %d - -" % (self.begun, rate, listen, self.time_of_day() // 1000))
        for line, block in zip(self.record.lines, self.by.ask_all(["held " + line for line in self.record.lines])):
            if block.fault is not None:
                raise Refused("%s: %s" % (self.record.path, line), block.fault)
        self.record.lines = []
        self.record.add([*self.head, "# started"])
        self.record.sync_name()

    def end(self) -> None:
        super().end()
        self.record.end()

    def kept(self, answer: Answer) -> Answer:
        """What a call came to, once its record is written. What is dropped was refused."""
        self.record.add(answer.records)
        return answer if answer.dropped is None else answer._replace(refused="dropped " + answer.dropped)

    def told(self, now: int, time_of_day: int) -> List[bytes]:
        """Tells it the time of day, in microseconds since 1970, and gives what is to be sent."""
        with self.by.lock:
            self.told_at = now
            return self.kept(self.calls.wall(now, time_of_day)).send

    def came(self, now: int, datagram: bytes, place: int = 0) -> Answer:
        with self.by.lock:
            return self.kept(self.calls.came_from(now, place, datagram))

    def tick(self, now: int) -> Answer:
        with self.by.lock:
            sent = self.told(now, self.time_of_day() // 1000) if now >= self.told_at + MINUTE else []
            answer = self.kept(taken("tick %d" % now, self.calls.tick(now)))
        return answer._replace(send=sent + answer.send)

    def add(self, now: int, time: int, page: AnyPage, drawing: AnyDrawing) -> Answer:
        with self.by.lock:
            sent = self.told(now, time)
            answer = super().add(now, time, page, drawing)
            self.record.add(answer.records)
        return answer._replace(send=sent + answer.send)

    def add_all(self, now: int, time: int, page: AnyPage, drawings: Iterable[AnyDrawing]) -> List[Answer]:
        """The same, by one sync of the disk."""
        with self.by.lock:
            self.record.is_held = True
            try:
                return super().add_all(now, time, page, drawings)
            finally:
                self.record.is_held = False
                self.record.sync()
