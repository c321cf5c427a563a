"""The letters of the ink of a page, as rows of a terminal."""
from __future__ import annotations

import unicodedata
from typing import Iterable, List

from .ink import Item, items_of
from .unseen import is_seen
from .views import Drawop

# what has letters, by the kind of ink
WHAT = {"t": "letters", "k": "link", "n": "note", "r": "frame", "o": "ellipse", "d": "diamond"}


def printable(text: str) -> str:
    """A text without what shows nothing, moves the cursor or turns the order of letters: each such letter is a question mark."""
    return "".join(letter if is_seen(letter) else "?" for letter in text)


def width_of(letter: str) -> int:
    """How many cells of a terminal a letter takes."""
    if unicodedata.combining(letter):
        return 0
    return 2 if unicodedata.east_asian_width(letter) in "WF" else 1


def fitting(text: str, columns: int) -> str:
    """As much of a text as this many cells of a terminal hold."""
    width = 0
    for at, letter in enumerate(text):
        width += width_of(letter)
        if width > columns:
            return text[:at]
    return text


def rows_of(item: Item) -> List[str]:
    """Who wrote what, and below it the lines after the first."""
    first, *others = [printable(line) for line in item.letters.split("\n")]
    return ["member %d, %s: %s" % (item.key[1], WHAT[item.first.kind], first), *("    " + line for line in others)]


def letter_rows(inks: Iterable[Drawop]) -> List[str]:
    """The letters of ink, from the top of the page to its end, and how much of it has none."""
    items = items_of(inks)
    written = sorted((item for item in items if item.letters), key=lambda item: (item.points[0].y, item.points[0].x))
    silent = len(items) - len(written)
    return ["%d with letters, %d without" % (len(written), silent), *(row for item in written for row in rows_of(item))]
