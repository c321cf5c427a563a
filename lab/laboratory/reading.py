"""Datagrams as `wb words` tells them: what kind each is, and what it says of drawops."""
from __future__ import annotations

import functools
from collections.abc import Callable, Sequence
from dataclasses import dataclass

from live.words import Words

Name = tuple[int, int]  # the source of a drawop and its number: all drawops of a run stand on one page

KINDS = {"draw": "drawop", "session-message": "session", "request": "request", "ask-pages": "ask-pages", "page-state": "page-state"}

# turns the hexadecimal digits of datagrams into datagrams
Read = Callable[[Sequence[str]], "list[Datagram]"]


@dataclass(frozen=True)
class Datagram:
    """A datagram that was sent. `author` is the source of a drawop, and else who sends it.

    `name` is the drawop that it is or asks for; `marks` the greatest numbers that it tells of sources, of a drawop its own.
    """

    kind: str
    author: int
    name: Name | None = None
    marks: tuple[Name, ...] = ()
    size: int = 0
    digits: str = ""

    @functools.cached_property
    def tells(self) -> frozenset[int]:
        """The members of whom it tells: the author, and the sources of its marks."""
        return frozenset([self.author, *(source for source, _ in self.marks)])


def datagram_of(digits: str, words: str) -> Datagram:
    """The datagram of these words: `draw SOURCE PAGE NUMBER ..`, `request ASKER SOURCE PAGE NUMBER`, `session-message SENDER SENT PAGE
    MARK .. ECHO ..`, `page-state SENDER PAGE MARK ..` or `ask-pages SENDER`."""
    verb, author, *rest = words.split(" ", 5 if words.startswith("draw ") else -1)
    kind = KINDS[verb]
    name: Name | None = None
    marks: tuple[Name, ...] = ()
    if kind == "drawop":
        name = int(author), int(rest[1])
        marks = (name,)
    elif kind == "request":
        name = int(rest[0]), int(rest[2])
    elif kind != "ask-pages":
        marks = tuple(mark_of(word) for word in rest if "=" in word)
    return Datagram(kind, int(author), name, marks, len(digits) // 2, digits)


def mark_of(word: str) -> Name:
    source, high = word.split("=")
    return int(source), int(high)


class Reader:
    """Reads datagrams by one `wb words` for all members."""

    def __init__(self, program: str) -> None:
        self.words = Words(program)

    def read(self, many: Sequence[str]) -> list[Datagram]:
        found = []
        for digits, told in zip(many, self.words.all(many)):
            if told.words is None:
                raise ValueError(f"no datagram: {told.fault}: {digits[:60]}")
            found.append(datagram_of(digits, told.words))
        return found

    def end(self) -> None:
        self.words.end()
