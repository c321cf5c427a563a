"""Datagrams and pages at random."""

from __future__ import annotations

from random import Random
from typing import Callable

from .codec import (DELETE, FRAME, LINE, RESTORE, SIDE, Aim, AskPages, Datagram, Drawop, Echo, Mark, Operation, Page, PageState, Request, SessionMessage,
                    Shape, Text, write)

WIDTH, HEIGHT = 60, 24


def number(random: Random, bits: int, least: int = 0) -> int:
    """One of a random size, or at an end of its range."""
    most = (1 << bits) - 1
    return random.choice((least, least + 1, most, random.randrange(least, min(most, least + 9) + 1), random.randrange(least, (1 << random.randrange(1, bits + 1)))+ least)) & most or least


def page(random: Random) -> Page:
    return Page(number(random, 32), number(random, 32))


def operation(random: Random, side: int, target: Callable[[], tuple[int, int]]) -> Operation:
    kind = random.choice((LINE, LINE, FRAME, 3, 3, DELETE, RESTORE))
    if kind in (LINE, FRAME):
        x0, y0, x1, y1 = (random.randrange(side) for _ in range(4))
        return Shape(kind, x0, y0, x1, y1, random.randrange(0x21, 0x7F))
    if kind == 3:
        length = random.choice((1, 2, 40, 41, 64, random.randrange(1, 65)))
        return Text(random.randrange(side), random.randrange(side), bytes(random.randrange(0x20, 0x7F) for _ in range(length)))
    return Aim(kind, *target())


def drawop(random: Random) -> Drawop:
    source, seq = number(random, 32), number(random, 32, 1)
    target = number(random, 32), number(random, 32, 1)
    op = operation(random, SIDE, lambda: target if target != (source, seq) else (source ^ 1, seq))
    return Drawop(source, page(random), seq, number(random, 64), op)


def marks(random: Random) -> tuple[Mark, ...]:
    sources = sorted({number(random, 32) for _ in range(random.choice((0, 1, 2, 9)))})
    return tuple(Mark(source, number(random, 32, 1)) for source in sources)


def datagram(random: Random) -> Datagram:
    kind = random.randrange(7)
    if kind == 1:
        echoes = tuple(Echo(source, number(random, 64), number(random, 64)) for source in sorted({number(random, 32) for _ in range(random.randrange(4))}))
        return SessionMessage(number(random, 32), number(random, 64), page(random), marks(random), echoes)
    if kind == 2:
        return Request(number(random, 32), number(random, 32), page(random), number(random, 32, 1))
    if kind == 3:
        return AskPages(number(random, 32))
    if kind == 4:
        return PageState(number(random, 32), page(random), marks(random))
    return drawop(random)


def mutated(random: Random, datagram: Datagram) -> bytes:
    """Bytes that are nearly a datagram."""
    data = bytearray(write(datagram))
    for _ in range(random.randrange(1, 4)):
        at = random.choice((random.randrange(len(data)), random.randrange(min(8, len(data)))))
        way = random.randrange(4)
        if way == 0 and len(data) > 1:
            del data[at]
        elif way == 1:
            data.insert(at, random.randrange(256))
        elif way == 2:
            data[at] ^= 1 << random.randrange(8)
        else:
            data[at] = random.choice((0, 1, 2, 3, 4, 5, 0x20, 0x7F, 255))
    return bytes(data)


def session(random: Random) -> tuple[Page, list[Drawop]]:
    """A page, and drawops that came to a member: of three sources on two pages, repeated, reordered, and some with a name that was used before."""
    pages = [Page(7, 1), Page(7, 2)]
    came: list[Drawop] = []
    for _ in range(random.randrange(1, 60)):
        source, seq = random.choice((3, 7, 9)), random.randrange(1, 15)
        others = [(it.source, it.seq) for it in came if (it.source, it.seq) != (source, seq)] or [(1, 1)]
        op = operation(random, 40, lambda: random.choice(others))
        came.append(Drawop(source, random.choice(pages[:1] * 3 + pages), seq, random.randrange(1, 40), op))
    came += random.sample(came, len(came) // 3)
    random.shuffle(came)
    return pages[0], came
