"""`wb host` as a child process: a line goes in, and its block comes out, each within a limit of time."""
from __future__ import annotations

import errno
import os
import select
import subprocess
import threading
import time
from collections import deque
from typing import Deque, List, Optional, Sequence

from .blocks import Block, block_of, bytes_of, is_closing, rows_of
from .program import NoProgram

# seconds in which a child has to print something that it owes
PATIENCE = 10.0

# bytes that are read at a time, and lines that are given before their blocks are read
PIECE = 1 << 16
LINES = 500


class HostEnded(Exception):
    """A host ended, or said nothing for too long and was ended: it answers no more."""


class Child:
    """A child process that is written and read by lines. What it prints is read while it is written, so neither waits
    for the other. It ends when this process does, since its input ends then."""

    def __init__(self, words: Sequence[str], patience: float = PATIENCE) -> None:
        self.patience = patience
        try:
            self.process = subprocess.Popen(list(words), stdin=subprocess.PIPE, stdout=subprocess.PIPE, bufsize=0, start_new_session=True)
        except OSError as fault:
            if fault.errno != errno.ENOEXEC:
                raise
            raise NoProgram("%s is for Linux on x86-64, and does not run here" % words[0]) from fault
        assert self.process.stdin and self.process.stdout
        self.input, self.output = self.process.stdin, self.process.stdout
        os.set_blocking(self.input.fileno(), False)
        self.reads, self.writes = self.output.fileno(), self.input.fileno()
        self.waits = select.poll()
        self.waits.register(self.reads, select.POLLIN)
        self.outgoing = b""
        self.partial = b""
        self.lines: Deque[bytes] = deque()

    def give(self, lines: Sequence[bytes]) -> None:
        """Writes lines, as far as the child takes them now; the rest goes while it is read."""
        if not lines:
            return
        text = b"\n".join(lines) + b"\n"
        if text.count(b"\n") != len(lines):
            raise ValueError("a line feed in a line")
        self.outgoing += text
        self.write()

    def write(self) -> None:
        try:
            while self.outgoing:
                self.outgoing = self.outgoing[os.write(self.writes, self.outgoing[:PIECE]):]
        except BlockingIOError:
            pass
        except (OSError, ValueError) as fault:
            raise HostEnded("the host ended") from fault

    def line(self) -> bytes:
        """The next line that it prints, without its line feed."""
        while not self.lines:
            self.read()
        return self.lines.popleft()

    def read(self) -> None:
        """Takes in what it printed, and waits for it within the patience."""
        if not self.outgoing:
            return self.take(self.piece())
        end = time.monotonic() + self.patience
        while True:
            poll = select.poll()
            poll.register(self.output, select.POLLIN)
            if self.outgoing:
                poll.register(self.input, select.POLLOUT)
            ready = dict(poll.poll(max(0.0, end - time.monotonic()) * 1000))
            if self.reads in ready:
                return self.take(os.read(self.reads, PIECE))
            if not ready:
                self.give_up()
            self.write()

    def piece(self) -> bytes:
        """What it printed, for which this waits within the patience."""
        if not self.waits.poll(self.patience * 1000):
            self.give_up()
        try:
            return os.read(self.reads, PIECE)
        except OSError as fault:
            raise HostEnded("the host ended") from fault

    def give_up(self) -> None:
        self.process.kill()
        raise HostEnded("the host said nothing for %g s" % self.patience)

    def take(self, data: bytes) -> None:
        if not data:
            raise HostEnded("the host ended")
        *whole, self.partial = (self.partial + data).split(b"\n")
        self.lines.extend(whole)

    def end(self) -> None:
        """Ends its input, and waits for its end."""
        # the system may give these numbers to other files from now on
        self.reads = self.writes = -1
        try:
            self.input.close()
        except OSError:
            pass
        try:
            self.process.wait(2)
        except subprocess.TimeoutExpired:
            self.process.kill()
            self.process.wait()
        self.output.close()


class ChildHost(Child):
    """`wb host` with these words after it. Threads that ask it at once wait for one another. If WB_LINES names a folder, the lines that it is
    given are kept there, in a file for each host: handed to `wb host` again, they have the same blocks."""

    def __init__(self, program: str, *words: str, patience: float = PATIENCE) -> None:
        super().__init__([program, "host", *words], patience)
        folder = os.environ.get("WB_LINES")
        self.kept = open(os.path.join(folder, "%d.lines" % self.process.pid), "wb", buffering=0) if folder else None
        if self.kept:
            self.kept.write(b"# wb " + " ".join(["host", *words]).encode() + b"\n")
        self.lock = threading.RLock()
        self.has_board = False
        self.due: Optional[int] = None  # behind the last line whose block was read

    def give(self, lines: Sequence[bytes]) -> None:
        if self.kept:
            self.kept.write(b"".join(line + b"\n" for line in lines))
        super().give(lines)

    def end(self) -> None:
        super().end()
        if self.kept:
            self.kept.close()

    def printed(self, line: bytes) -> List[bytes]:
        """What a line that was given prints: its block, the closing line at the end. Lines are read in the order of giving."""
        rows = rows_of(line) if self.has_board else 0
        block = [self.line()]
        while len(block) <= rows or not is_closing(block[-1]):
            block.append(self.line())
        self.has_board = self.has_board or (line.startswith(b"board ") and block[-1].startswith(b"ok "))
        return block

    def block(self, line: str) -> Block:
        block = block_of([text.decode("latin-1") for text in self.printed(bytes_of(line))], self.due)
        self.due = block.due
        return block

    def ask(self, line: str) -> Block:
        """The block of a line."""
        with self.lock:
            self.give([bytes_of(line)])
            # nothing else is under way, so most blocks come whole in one piece, of which no part waits
            if not (self.outgoing or self.lines or self.partial or "show" in line or "board" in line):
                lines = self.piece().decode("latin-1").split("\n")
                last = lines[-2] if len(lines) > 1 else ""
                if last.startswith("ok ") and not lines[-1]:
                    self.due = due = None if last == "ok never" else int(last[3:])
                    return Block(lines[:-2], due, None)
                self.take("\n".join(lines).encode("latin-1"))
            return self.block(line)

    def take_all(self, lines: bytes) -> List[bytes]:
        """What it prints for many lines, each with its line feed, that show no canvas: it is not taken apart, which takes less time still."""
        printed: List[bytes] = []
        with self.lock:
            if self.kept:
                self.kept.write(lines)
            for start in range(0, len(lines), PIECE):
                self.outgoing += lines[start:start + PIECE]
                self.write()
                while self.outgoing:
                    self.read()
            left = lines.count(b"\n")
            while left:
                if not self.lines:
                    self.read()
                printed += self.lines
                beginnings = [line[:3] for line in self.lines]
                left -= beginnings.count(b"ok ") + beginnings.count(b"ref")
                self.lines.clear()
            self.due = block_of([line.decode("latin-1") for line in printed[-1:]], self.due).due if printed else self.due
        return printed

    def ask_all(self, lines: Sequence[str]) -> List[Block]:
        """The block of each line. Many are given at a time, which takes less time than one after another."""
        if len(lines) == 1:
            return [self.ask(lines[0])]
        blocks: List[Block] = []
        with self.lock:
            for start in range(0, len(lines), LINES):
                some = lines[start:start + LINES]
                self.give([bytes_of(line) for line in some])
                blocks += [self.block(line) for line in some]
        return blocks
