"""What a page shows, from docs/PROTOCOL.md alone."""

from __future__ import annotations

import struct
from hashlib import sha256
from typing import Iterable, Iterator

from .codec import DELETE, LINE, Aim, Drawop, Page, Shape, Text, write

Cell = tuple[int, int]


def share(distance: int, k: int, steps: int) -> int:
    return (2 * k * distance + steps) // (2 * steps) if steps else 0


def line(shape: Shape) -> Iterator[Cell]:
    wide, high = abs(shape.x1 - shape.x0), abs(shape.y1 - shape.y0)
    steps = max(wide, high)
    right, down = (1 if shape.x1 >= shape.x0 else -1), (1 if shape.y1 >= shape.y0 else -1)
    for k in range(steps + 1):
        yield shape.x0 + right * share(wide, k, steps), shape.y0 + down * share(high, k, steps)


def frame(shape: Shape) -> Iterator[Cell]:
    (left, right), (top, bottom) = sorted((shape.x0, shape.x1)), sorted((shape.y0, shape.y1))
    for x in range(left, right + 1):
        yield x, top
        yield x, bottom
    for y in range(top, bottom + 1):
        yield left, y
        yield right, y


def glyphs(drawop: Drawop) -> Iterator[tuple[Cell, int]]:
    operation = drawop.operation
    if isinstance(operation, Text):
        for n, byte in enumerate(operation.letters):
            yield (operation.x + n, operation.y), byte
    elif isinstance(operation, Shape):
        for cell in line(operation) if operation.kind == LINE else frame(operation):
            yield cell, operation.glyph


def held(came: Iterable[Drawop]) -> list[Drawop]:
    """What a member holds of what came: the first of each name."""
    names: dict[tuple[int, Page, int], Drawop] = {}
    for drawop in came:
        names.setdefault((drawop.source, drawop.page, drawop.seq), drawop)
    return list(names.values())


def shown(drawops: Iterable[Drawop], page: Page) -> list[Drawop]:
    """The drawings of a page in the order of display. Of deletes and restores the last one decides."""
    ordered = sorted((it for it in drawops if it.page == page), key=lambda it: (it.time, it.source, it.seq))
    last: dict[tuple[int, int], int] = {}
    for it in ordered:
        if isinstance(it.operation, Aim):
            last[it.operation.source, it.operation.seq] = it.operation.kind
    return [it for it in ordered if not isinstance(it.operation, Aim) and last.get((it.source, it.seq)) != DELETE]


def canvas(drawops: Iterable[Drawop], page: Page, width: int, height: int) -> list[str]:
    cells = [[" "] * width for _ in range(height)]
    for drawop in shown(drawops, page):
        for (x, y), glyph in glyphs(drawop):
            if x < width and y < height:
                cells[y][x] = chr(glyph)
    return ["".join(row) for row in cells]


def marks(drawops: Iterable[Drawop], page: Page) -> dict[int, int]:
    """The greatest number that is held of each source."""
    highest: dict[int, int] = {}
    for it in drawops:
        if it.page == page:
            highest[it.source] = max(it.seq, highest.get(it.source, 0))
    return dict(sorted(highest.items()))


def missing(drawops: Iterable[Drawop], page: Page) -> list[tuple[int, int]]:
    """Each name that is missing below the tops of what is held, by source and number."""
    has = {(it.source, it.seq) for it in drawops if it.page == page}
    return [(source, seq) for source, high in marks(drawops, page).items() for seq in range(1, high + 1) if (source, seq) not in has]


def digest(drawops: Iterable[Drawop], page: Page) -> str:
    """The digest of a page, in hexadecimal."""
    ordered = sorted((it for it in drawops if it.page == page), key=lambda it: (it.source, it.seq))
    return sha256(b"".join(map(write, ordered))).hexdigest()


def told(drawops: list[Drawop], page: Page, member: int) -> bytes:
    """What a member that holds these drawops tells of a page."""
    short = 14_695_981_039_346_656_037
    for byte in b"".join(struct.pack(">II", *mark) for mark in marks(drawops, page).items()):
        short = ((short ^ byte) * 1_099_511_628_211) % (1 << 64)
    return struct.pack(">2sBBIIIIQ", b"WD", 1, 0, member, *page, len(missing(drawops, page)), short) + bytes.fromhex(digest(drawops, page))
