"""The datagrams of docs/PROTOCOL.md: bytes to values and back. Nothing of the program, or of another test, was looked at."""

from __future__ import annotations

import struct
from dataclasses import dataclass
from typing import NamedTuple, Optional, Union

HEADER = struct.Struct(">2sBBI")
LINE, FRAME, TEXT, DELETE, RESTORE = 1, 2, 3, 4, 5
MOST_ENTRIES = 65_535
MOST_LETTERS, LETTERS_OF_VERSION_1 = 64, 40
SIDE = 4_096


class Page(NamedTuple):
    creator: int
    number: int


class Mark(NamedTuple):
    source: int
    high: int


class Echo(NamedTuple):
    source: int
    sent: int
    held: int


@dataclass(frozen=True)
class Shape:
    """A line or a frame."""

    kind: int
    x0: int
    y0: int
    x1: int
    y1: int
    glyph: int


@dataclass(frozen=True)
class Text:
    x: int
    y: int
    letters: bytes


@dataclass(frozen=True)
class Aim:
    """A delete or a restore."""

    kind: int
    source: int
    seq: int


Operation = Union[Shape, Text, Aim]


@dataclass(frozen=True)
class Drawop:
    source: int
    page: Page
    seq: int
    time: int
    operation: Operation


@dataclass(frozen=True)
class SessionMessage:
    sender: int
    sent: int
    page: Page
    marks: tuple[Mark, ...]
    echoes: tuple[Echo, ...]


@dataclass(frozen=True)
class Request:
    asker: int
    source: int
    page: Page
    seq: int


@dataclass(frozen=True)
class AskPages:
    asker: int


@dataclass(frozen=True)
class PageState:
    sender: int
    page: Page
    marks: tuple[Mark, ...]


Datagram = Union[Drawop, SessionMessage, Request, AskPages, PageState]
KINDS = {Drawop: 1, SessionMessage: 2, Request: 3, AskPages: 4, PageState: 5}


class NotOne(Exception):
    """The bytes are not a datagram."""


# Values to bytes


def bytes_of_operation(operation: Operation) -> bytes:
    if isinstance(operation, Shape):
        return struct.pack(">BHHHHB", operation.kind, operation.x0, operation.y0, operation.x1, operation.y1, operation.glyph)
    if isinstance(operation, Text):
        return struct.pack(">BHHB", TEXT, operation.x, operation.y, len(operation.letters)) + operation.letters
    return struct.pack(">BII", operation.kind, operation.source, operation.seq)


def bytes_of_marks(marks: tuple[Mark, ...]) -> bytes:
    return struct.pack(">H", len(marks)) + b"".join(struct.pack(">II", *mark) for mark in marks)


def body_of(datagram: Datagram) -> bytes:
    if isinstance(datagram, Drawop):
        return struct.pack(">IIIIQ", datagram.source, *datagram.page, datagram.seq, datagram.time) + bytes_of_operation(datagram.operation)
    if isinstance(datagram, SessionMessage):
        echoes = b"".join(struct.pack(">IQQ", *echo) for echo in datagram.echoes)
        head = struct.pack(">IQII", datagram.sender, datagram.sent, *datagram.page)
        return head + bytes_of_marks(datagram.marks) + struct.pack(">H", len(datagram.echoes)) + echoes
    if isinstance(datagram, Request):
        return struct.pack(">IIIII", datagram.asker, datagram.source, *datagram.page, datagram.seq)
    if isinstance(datagram, AskPages):
        return struct.pack(">I", datagram.asker)
    return struct.pack(">III", datagram.sender, *datagram.page) + bytes_of_marks(datagram.marks)


def version_of(datagram: Datagram) -> int:
    """Version 2 is for what version 1 cannot say."""
    if not isinstance(datagram, Drawop):
        return 1
    operation = datagram.operation
    is_long = isinstance(operation, Text) and len(operation.letters) > LETTERS_OF_VERSION_1
    return 2 if is_long or isinstance(operation, Aim) and operation.kind == RESTORE else 1


def write(datagram: Datagram) -> bytes:
    body = body_of(datagram)
    return HEADER.pack(b"WB", version_of(datagram), KINDS[type(datagram)], len(body)) + body


# Bytes to values


class Reader:
    """Takes fields from the front."""

    def __init__(self, data: bytes) -> None:
        self.data = data
        self.at = 0

    def take(self, form: str) -> tuple[int, ...]:
        size = struct.calcsize(">" + form)
        return struct.unpack(">" + form, self.take_bytes(size))

    def take_bytes(self, size: int) -> bytes:
        if len(self.data) - self.at < size:
            raise NotOne
        self.at += size
        return self.data[self.at - size:self.at]

    def end(self) -> None:
        if self.at != len(self.data):
            raise NotOne


def must(holds: bool) -> None:
    if not holds:
        raise NotOne


def read_operation(reader: Reader, source: int, seq: int) -> Operation:
    kind, = reader.take("B")
    if kind in (LINE, FRAME):
        x0, y0, x1, y1, glyph = reader.take("HHHHB")
        must(max(x0, y0, x1, y1) < SIDE and 0x21 <= glyph <= 0x7E)
        return Shape(kind, x0, y0, x1, y1, glyph)
    if kind == TEXT:
        x, y, length = reader.take("HHB")
        letters = reader.take_bytes(length)
        must(max(x, y) < SIDE and 1 <= length <= MOST_LETTERS and all(0x20 <= byte <= 0x7E for byte in letters))
        return Text(x, y, letters)
    must(kind in (DELETE, RESTORE))
    target, number = reader.take("II")
    must(number > 0 and (target, number) != (source, seq))
    return Aim(kind, target, number)


def ascends(sources: list[int]) -> bool:
    return all(one < other for one, other in zip(sources, sources[1:]))


def read_marks(reader: Reader) -> tuple[Mark, ...]:
    count, = reader.take("H")
    marks = tuple(Mark(*reader.take("II")) for _ in range(count))
    must(all(mark.high > 0 for mark in marks) and ascends([mark.source for mark in marks]))
    return marks


def read_echoes(reader: Reader) -> tuple[Echo, ...]:
    count, = reader.take("H")
    echoes = tuple(Echo(*reader.take("IQQ")) for _ in range(count))
    must(ascends([echo.source for echo in echoes]))
    return echoes


def read_body(kind: int, reader: Reader) -> Datagram:
    if kind == 1:
        source, creator, number, seq, time = reader.take("IIIIQ")
        must(seq > 0)
        return Drawop(source, Page(creator, number), seq, time, read_operation(reader, source, seq))
    if kind == 2:
        sender, sent, creator, number = reader.take("IQII")
        marks = read_marks(reader)
        return SessionMessage(sender, sent, Page(creator, number), marks, read_echoes(reader))
    if kind == 3:
        asker, source, creator, number, seq = reader.take("IIIII")
        must(seq > 0)
        return Request(asker, source, Page(creator, number), seq)
    if kind == 4:
        return AskPages(*reader.take("I"))
    must(kind == 5)
    sender, creator, number = reader.take("III")
    return PageState(sender, Page(creator, number), read_marks(reader))


def read(data: bytes) -> Optional[Datagram]:
    """The datagram of these bytes, if they are one."""
    try:
        reader = Reader(data)
        mark, version, kind, size = HEADER.unpack(reader.take_bytes(HEADER.size))
        must(mark == b"WB" and size == len(data) - HEADER.size)
        datagram = read_body(kind, reader)
        reader.end()
        must(version == version_of(datagram))
        return datagram
    except NotOne:
        return None
