"""A group of members of one kind at a hub, each in a process of its own.

A member is any program that is told its number, from 1, and the port of its place at the hub. It prints `hears PORT` once, where it hears.
Behind each line of its input it draws and sends once, and then prints `drew SOURCE NUMBER NANOSECONDS`, when it began to; of each drawing of another
that comes it prints `has SOURCE NUMBER NANOSECONDS`. These are of the machine's clock that never goes back. It ends when its input does.
"""

from __future__ import annotations

import os
import selectors
import subprocess
import sys
import time
from collections.abc import Callable, Sequence
from dataclasses import dataclass
from types import TracebackType
from typing import NamedTuple

from . import needs

PATIENCE = 120.0  # seconds that the processes of a session may take to begin
PIECE = 1 << 16
PATHS = os.pathsep.join((str(needs.TOP), str(needs.TOP / "python")))  # where a child finds this package, and that of python/


class Network(NamedTuple):
    """How many members there are, the share that is lost on the way to each, the milliseconds one way, and the seed of the losses."""

    members: int
    lose: float
    delay: float
    seed: int


@dataclass(frozen=True)
class Kind:
    """A kind of members: its name, what it needs, and the words that start one by its number, its place and how many there are."""

    name: str
    find: Callable[[], object]
    words: Callable[[int, int, int], list[str]]


class Ended(Exception):
    """A process of a session is gone that is needed."""


class Name(NamedTuple):
    source: int
    number: int


class Process:
    """A child that is written and read by lines."""

    def __init__(self, words: list[str]) -> None:
        self.child = subprocess.Popen(words, stdin=subprocess.PIPE, stdout=subprocess.PIPE, bufsize=0, env={**os.environ, "PYTHONPATH": PATHS})
        assert self.child.stdin and self.child.stdout
        self.input, self.output = self.child.stdin, self.child.stdout
        self.partial = b""
        self.is_over = False

    def tell(self, line: str) -> None:
        try:
            self.input.write(f"{line}\n".encode())
        except OSError as fault:
            raise Ended("a process of the session ended") from fault

    def lines(self) -> list[list[str]]:
        """The words of the lines that it printed; it is over where there are none."""
        data = os.read(self.output.fileno(), PIECE)
        self.is_over = not data
        *whole, self.partial = (self.partial + data).split(b"\n")
        return [line.decode().split() for line in whole]

    def end(self) -> None:
        try:
            self.input.close()
            self.child.wait(5)
        except (OSError, subprocess.TimeoutExpired):
            self.child.kill()
            self.child.wait()
        self.output.close()


class Group:
    """The members, and which drawings each has since when. To be used by `with`."""

    def __init__(self, kind: Kind, network: Network) -> None:
        self.processes: list[Process] = []
        self.drew: dict[Name, int] = {}
        self.has: list[dict[Name, int]] = [{} for _ in range(network.members)]
        self.heard: dict[int, int] = {}
        self.counts: list[tuple[int, int]] = []
        self.ports: list[int] = []
        self.ready = selectors.DefaultSelector()
        try:
            self.hub = self.begin([*python("hub"), *map(str, (network.members, network.lose, network.delay, network.seed))], -1)
            self.must(lambda: bool(self.ports))
            self.members = [self.begin(kind.words(at + 1, port, network.members), at) for at, port in enumerate(self.ports)]
            self.must(lambda: len(self.heard) == network.members)
        except BaseException:
            self.end()
            raise

    def begin(self, words: list[str], at: int) -> Process:
        process = Process(words)
        self.processes.append(process)
        self.ready.register(process.output, selectors.EVENT_READ, (process, at))
        return process

    def __enter__(self) -> Group:
        return self

    def __exit__(self, kind: type[BaseException] | None, fault: BaseException | None, trace: TracebackType | None) -> None:
        self.end()

    def end(self) -> None:
        for process in reversed(self.processes):
            process.end()
        self.ready.close()

    def must(self, is_enough: Callable[[], bool]) -> None:
        """Reads what processes print until it is enough, which takes all of them."""
        self.wait(lambda: is_enough() or any(process.is_over for process in self.processes), PATIENCE)
        if not is_enough():
            raise Ended("a process of the session ended, or told nothing for too long")

    def wait(self, is_enough: Callable[[], bool], seconds: float) -> bool:
        """Reads what processes print until it is enough, or the time is over."""
        end = time.monotonic() + seconds
        while not is_enough():
            left = end - time.monotonic()
            if left <= 0:
                return False
            for key, _ in self.ready.select(left):
                process, at = key.data
                for words in process.lines():
                    self.take(at, words)
                if process.is_over:
                    self.ready.unregister(process.output)
        return True

    def take(self, at: int, words: list[str]) -> None:
        """What the hub tells, or the member at a place."""
        word, numbers = words[0], list(map(int, words[1:]))
        if word == "ports":
            self.ports = numbers
        elif word == "hears":
            self.heard[at] = numbers[0]
            self.hub.tell(f"hears {at} {numbers[0]}")
        elif word == "count":
            self.counts.append((numbers[0], numbers[1]))
        else:
            name = Name(numbers[0], numbers[1])
            self.has[at].setdefault(name, numbers[2])
            if word == "drew":
                self.drew[name] = numbers[2]

    def draw(self, at: int) -> None:
        self.members[at].tell("draw")

    def kill(self, at: int) -> None:
        self.members[at].child.kill()

    def count(self) -> tuple[int, int]:
        """Datagrams that members have sent since the last time, and their bytes."""
        self.hub.tell("count")
        before = len(self.counts)
        self.wait(lambda: len(self.counts) > before or self.hub.is_over, PATIENCE)
        if len(self.counts) == before:
            raise Ended("the hub does not answer")
        return self.counts[-1]


def python(module: str) -> list[str]:
    """The words that start a module of this package."""
    return [sys.executable, "-B", "-m", f"{__package__}.{module}"]


def wb_kind(constants: str) -> Kind:
    """Members of wb whose timers have these constants, as 2,8,1,6, or with LIVE those that a member of wb-live takes by itself."""
    told = [] if constants == LIVE else [constants]

    def words(number: int, place: int, members: int) -> list[str]:
        return [*python("wb_member"), str(number), str(place), *told]

    return Kind(f"wb, {constants}" if told else "wb, as in wb-live", needs.program, words)


def norm_kind(parity: int) -> Kind:
    def words(number: int, place: int, members: int) -> list[str]:
        return [*python("norm_member"), str(number), str(place), str(members), str(parity)]

    return Kind(f"NORM, {parity} of parity beforehand" if parity else "NORM", needs.norm, words)


LIVE = "live"
CONSTANTS = (LIVE, "2,2,1,1", "2,8,1,6")


def kinds(constants: Sequence[str]) -> list[Kind]:
    return [norm_kind(0), norm_kind(1), *map(wb_kind, constants)]


KINDS = kinds(CONSTANTS)
