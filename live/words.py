"""Datagrams in words, by `wb words`, which is proved: what it can't say is none."""
from __future__ import annotations

import threading
from typing import Dict, List, NamedTuple, Optional, Sequence

from wbhost import LINES, Child, HostEnded

from .views import Datagram, datagram_of

# a line of the program has 65,536 bytes at most
MOST_DIGITS = 65_536 - len("send ")

# datagrams that are remembered for many members, and the digits of the longest of them
MOST_REMEMBERED = 1_024
MOST_LENGTH = 4_096


class Wording(NamedTuple):
    """The words of a datagram, or the fault of bytes that are not one."""

    words: Optional[str]
    fault: Optional[str]


class Words:
    """Remembers the last datagram, since what comes in is said more than once."""

    def __init__(self, program: str) -> None:
        self.command = [program, "words", "--keep-going"]
        self.child = Child(self.command)
        self.last = ""
        self.told = Wording(None, "datagram 1")

    def end(self) -> None:
        self.child.end()

    def change_over(self, program: str) -> None:
        """Goes on by another build of the program."""
        self.command = [program, *self.command[1:]]
        self.child.end()
        self.child = Child(self.command)

    def of(self, digits: str) -> Wording:
        if digits != self.last:
            self.told = self.all([digits])[0]
            self.last = digits
        return self.told

    def read(self, digits: str, words: str) -> Datagram:
        """A datagram by its words."""
        return datagram_of(words, digits)

    def all(self, many: Sequence[str]) -> List[Wording]:
        """Many at a time, which takes less time than one after another."""
        return [told for start in range(0, len(many), LINES) for told in self.some(many[start:start + LINES])]

    def some(self, many: Sequence[str]) -> List[Wording]:
        lines = [b"send " + digits.encode() for digits in many if len(digits) <= MOST_DIGITS]
        try:
            self.child.give(lines)
            said = iter([self.child.line().decode("latin-1") for _ in lines])
        except HostEnded:
            self.child.end()
            self.child = Child(self.command)
            return [Wording(None, "unread")] * len(many)
        return [wording_by(next(said)) if len(digits) <= MOST_DIGITS else Wording(None, "endless") for digits in many]


def wording_by(line: str) -> Wording:
    """What a line of the filter says: words after `send`, or a comment with the fault, as `# line 1: word 2: datagram 4`."""
    return Wording(line[5:], None) if line.startswith("send ") else Wording(None, line.rpartition(": ")[2])


class SharedWords(Words):
    """For many members of this program: each datagram comes to all of them, and is said and read once."""

    def __init__(self, program: str) -> None:
        super().__init__(program)
        self.lock = threading.Lock()
        self.remembered: Dict[str, Wording] = {}
        self.datagrams: Dict[str, Datagram] = {}

    def end(self) -> None:
        """It ends with the program."""

    def change_over(self, program: str) -> None:
        """The first of its members that changes over does so for all."""
        with self.lock:
            if self.command[0] != program:
                super().change_over(program)

    def of(self, digits: str) -> Wording:
        return self.all([digits])[0]

    def read(self, digits: str, words: str) -> Datagram:
        found = self.datagrams.get(digits)
        if found is None:
            found = super().read(digits, words)
            with self.lock:
                found = self.datagrams.setdefault(digits, found)
                while len(self.datagrams) > MOST_REMEMBERED:
                    del self.datagrams[next(iter(self.datagrams))]
        return found

    def all(self, many: Sequence[str]) -> List[Wording]:
        known = [self.remembered.get(digits) for digits in many]
        found = [told for told in known if told is not None]
        return found if len(found) == len(known) else self.say(many)

    def say(self, many: Sequence[str]) -> List[Wording]:
        """Those that are not known yet, one member after another."""
        with self.lock:
            new = [digits for digits in dict.fromkeys(many) if digits not in self.remembered]
            told = {digits: each for digits, each in zip(new, super().all(new))}
            found = [told.get(digits) or self.remembered[digits] for digits in many]
            self.remembered.update((digits, told[digits]) for digits in new[-MOST_REMEMBERED:] if len(digits) <= MOST_LENGTH)
            while len(self.remembered) > MOST_REMEMBERED:
                del self.remembered[next(iter(self.remembered))]
            return found
