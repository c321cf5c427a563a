"""Ink on a page: which inks are one item (docs/INK.md). The package of python/ reads each; the page has a reader of its own."""
from __future__ import annotations

from typing import Iterable, List, Optional

from wbhost import FIRST_ROW, SIGNS, Ink
from wbhost import read_ink as read

from .views import Drawop, Key

__all__ = ["FIRST_ROW", "SIGNS", "Ink", "Item", "ink_of", "items_of", "read"]

# a multiple of this number begins another item, once the one before it has as many inks
CUT = 128


def ink_of(drawop: Drawop) -> Optional[Ink]:
    """The ink of a drawop, or None if it is none."""
    if drawop.kind != "text":
        return None
    told = drawop.fields()
    return read(told["text"]) if told["y"] >= FIRST_ROW else None


class Item:
    """An ink and those that go on from it."""

    def __init__(self, key: Key, ink: Ink) -> None:
        self.key = key
        self.first = ink
        self.many = 1
        self.points = list(ink.points)
        self.letters = ink.letters

    def belongs(self, ink: Ink, number: int) -> bool:
        """Whether an ink of this number goes on from those of the item, of whose last it has the next number."""
        if not ink.goes_on or ink.colour != self.first.colour or (number % CUT == 0 and self.many >= CUT):
            return False
        if ink.kind == "t":
            return self.first.kind in "trodn"
        return (ink.kind, ink.width) == (self.first.kind, self.first.width)

    def add(self, ink: Ink) -> None:
        self.many += 1
        self.letters += ink.letters
        if ink.kind != "t":
            first, last = ink.points[0], self.points[-1]
            is_there = (first.x, first.y) == (last.x, last.y)
            self.points += ink.points[1:] if is_there else (first._replace(is_lifted=True), *ink.points[1:])


def items_of(shown: Iterable[Drawop]) -> List[Item]:
    """The items of the ink that a page shows, in the order of painting."""
    inks = [(drawop, ink) for drawop, ink in ((drawop, ink_of(drawop)) for drawop in shown) if ink is not None]
    items: List[Item] = []
    before = (-1, -1)
    for drawop, ink in sorted(inks, key=lambda each: (each[0].name[0], each[0].name[2])):
        source, _, seq = drawop.name
        if before == (source, seq - 1) and items[-1].belongs(ink, seq):
            items[-1].add(ink)
        else:
            items.append(Item(drawop.key, ink))
        before = (source, seq)
    return sorted(items, key=lambda item: item.key)
