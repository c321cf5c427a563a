"""Drawings: what they draw, with types and in words, and the bytes of a drawop (docs/PROTOCOL.md)."""
from __future__ import annotations

import re
import struct
from typing import Any, Callable, Dict, List, NamedTuple, Optional, Tuple, Type, Union


class Page(NamedTuple):
    """A page: the member that created it, and its number."""

    creator: int
    number: int

    def __str__(self) -> str:
        return "%d/%d" % self

    @classmethod
    def of(cls, text: str) -> Page:
        """The page of a text such as 7/1."""
        creator, _, number = text.partition("/")
        return cls(int(creator), int(number))


class Name(NamedTuple):
    """The name of a drawop, which no other has: who drew it, on which page, and its number there."""

    source: int
    page: Page
    number: int


class Line(NamedTuple):
    """A line of a glyph between two cells. x is below 4096 and runs to the right, and so is y, which runs down."""

    x0: int
    y0: int
    x1: int
    y1: int
    glyph: str

    def __str__(self) -> str:
        return "line %d %d %d %d %s" % self


class Frame(NamedTuple):
    """The four sides of a rectangle, by two opposite corners."""

    x0: int
    y0: int
    x1: int
    y1: int
    glyph: str

    def __str__(self) -> str:
        return "frame %d %d %d %d %s" % self


class Text(NamedTuple):
    """A text of 1 to 64 characters, from the space to `~`, one a cell."""

    x: int
    y: int
    text: str

    def __str__(self) -> str:
        return 'text %d %d "%s"' % (self.x, self.y, re.sub(r'["\\]', r"\\\g<0>", self.text))


class Delete(NamedTuple):
    """Hides the drawop of this source and this number on its page."""

    source: int
    number: int

    def __str__(self) -> str:
        return "delete %d %d" % self


class Restore(NamedTuple):
    """Shows it again."""

    source: int
    number: int

    def __str__(self) -> str:
        return "restore %d %d" % self


Drawing = Union[Line, Frame, Text, Delete, Restore]


class Drawop(NamedTuple):
    """A drawop as a page shows it. Its operation is in words, as `line 0 0 4 0 *`."""

    source: int
    page: Page
    number: int
    time: int
    operation: str

    @property
    def name(self) -> Name:
        return Name(self.source, self.page, self.number)

    @property
    def drawing(self) -> Drawing:
        """What it draws, with types."""
        return drawing_in(self.operation)


# ---- words

NUMBER = "(0|[1-9][0-9]*)"

# of each word of an operation: its kind, how many numbers it begins with, and what follows these
FORMS: Dict[str, Tuple[Type[Any], int, str]] = {
    "line": (Line, 4, " ([!-~])"), "frame": (Frame, 4, " ([!-~])"), "text": (Text, 2, r' "((?:[ !#-\[\]-~]|\\["\\]){1,64})"'),
    "delete": (Delete, 2, ""), "restore": (Restore, 2, ""),
}
WORDS = {word: (kind, many, re.compile(" ".join([NUMBER] * many) + rest)) for word, (kind, many, rest) in FORMS.items()}


def drawing_in(operation: str) -> Drawing:
    """What an operation in words draws. ValueError where it is none."""
    word, _, rest = operation.partition(" ")
    kind, many, form = WORDS.get(word, (None, 0, None))
    found = form.fullmatch(rest) if form else None
    if kind is None or not found:
        raise ValueError("no operation: %r" % operation[:80])
    numbers, more = map(int, found.groups()[:many]), found.groups()[many:]
    made: Drawing = kind(*numbers, *(re.sub(r"\\(.)", r"\1", text) for text in more) if kind is Text else more)
    return made


# ---- bytes

HEAD, NAMED, CORNER_BYTES, TEXT_BYTES, TARGET_BYTES = (struct.Struct(form) for form in (">2sBBI", ">IIIIQB", ">HHHHB", ">HHB", ">II"))
MAGIC, DRAWOP, MOST_COORDINATE, SHORT_TEXT = b"WB", 1, 4095, 40
KINDS: List[Type[Any]] = [Line, Frame, Text, Delete, Restore]

# the name of a drawing that gets another
DRAFT = 2**32 - 1


def body_of(drawing: Drawing) -> bytes:
    """The fields of an operation. struct.error or ValueError where one is out of its range."""
    if isinstance(drawing, (Delete, Restore)):
        return TARGET_BYTES.pack(*drawing)
    if max(drawing[:2] if isinstance(drawing, Text) else drawing[:4]) > MOST_COORDINATE:
        raise ValueError("a coordinate over %d" % MOST_COORDINATE)
    if isinstance(drawing, Text):
        return TEXT_BYTES.pack(drawing.x, drawing.y, len(drawing.text)) + drawing.text.encode("ascii")
    return CORNER_BYTES.pack(*drawing[:4], ord(drawing.glyph))


def draft_of(page: Page, time: int, operation: str) -> Optional[bytes]:
    """The drawop of an operation that has no name yet. None where it is none, or not written as a host writes it: a line says what is wrong."""
    try:
        drawing = drawing_in(operation)
        body = NAMED.pack(DRAFT, *page, DRAFT, time, KINDS.index(type(drawing)) + 1) + body_of(drawing)
    except (ValueError, struct.error):
        return None
    if isinstance(drawing, (Delete, Restore)) and (drawing.number == 0 or tuple(drawing) == (DRAFT, DRAFT)):
        return None
    # what the first version can't say
    is_new = isinstance(drawing, Restore) or (isinstance(drawing, Text) and len(drawing.text) > SHORT_TEXT)
    return HEAD.pack(MAGIC, 1 + is_new, DRAWOP, len(body)) + body


def corners_at(kind: Type[Any]) -> Callable[[bytes], Drawing]:
    def read(body: bytes) -> Drawing:
        *corners, glyph = CORNER_BYTES.unpack(body)
        made: Drawing = kind(*corners, chr(glyph))
        return made

    return read


def text_at(body: bytes) -> Drawing:
    x, y, length = TEXT_BYTES.unpack_from(body)
    if len(body) != TEXT_BYTES.size + length:
        raise ValueError("the length of a text")
    return Text(x, y, body[TEXT_BYTES.size:].decode("ascii"))


READERS: List[Callable[[bytes], Drawing]] = [corners_at(Line), corners_at(Frame), text_at, lambda body: Delete(*TARGET_BYTES.unpack(body)),
                                             lambda body: Restore(*TARGET_BYTES.unpack(body))]


def drawop_of(datagram: bytes) -> Optional[Drawop]:
    """The drawop of a datagram, or None where it has none. A host says whether its numbers are in their ranges."""
    if len(datagram) < HEAD.size + NAMED.size or datagram[:2] != MAGIC or datagram[3] != DRAWOP:
        return None
    source, creator, page, number, time, kind = NAMED.unpack_from(datagram, HEAD.size)
    try:
        drawing = READERS[kind - 1](datagram[HEAD.size + NAMED.size:])
    except (IndexError, ValueError, struct.error):
        return None
    return Drawop(source, Page(creator, page), number, time, str(drawing))
