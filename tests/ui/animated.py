"""An animated PNG of frames with one palette: each frame has only the part that changed."""
from __future__ import annotations

import struct
import zlib
from typing import NamedTuple


class Frame(NamedTuple):
    """The colours of all points by their numbers in the palette, row by row, and how long they are shown, in milliseconds."""

    points: bytes
    lasts: int


class Part(NamedTuple):
    x: int
    y: int
    width: int
    height: int


def chunk(kind: bytes, data: bytes) -> bytes:
    return struct.pack(">I", len(data)) + kind + data + struct.pack(">I", zlib.crc32(kind + data))


def rows_of(points: bytes, width: int) -> list[bytes]:
    return [points[at:at + width] for at in range(0, len(points), width)]


def changed(before: list[bytes], after: list[bytes]) -> Part:
    """The least part in which two frames differ, or one point if they are equal."""
    rows = [y for y, (old, new) in enumerate(zip(before, after)) if old != new]
    if not rows:
        return Part(0, 0, 1, 1)
    columns = [x for y in rows for x, (old, new) in enumerate(zip(before[y], after[y])) if old != new]
    return Part(min(columns), rows[0], max(columns) - min(columns) + 1, rows[-1] - rows[0] + 1)


def packed(rows: list[bytes], part: Part) -> bytes:
    """The part's rows, each after the zero that stands for no filter."""
    return zlib.compress(b"".join(b"\0" + row[part.x:part.x + part.width] for row in rows[part.y:part.y + part.height]), 9)


def animated(width: int, height: int, palette: bytes, frames: list[Frame]) -> bytes:
    """The file, which repeats its frames without end. The palette has three bytes for each of at most 256 colours."""
    file = [b"\x89PNG\r\n\x1a\n", chunk(b"IHDR", struct.pack(">IIBBBBB", width, height, 8, 3, 0, 0, 0)),
            chunk(b"acTL", struct.pack(">II", len(frames), 0)), chunk(b"PLTE", palette)]
    before: list[bytes] = []
    count = 0
    for frame in frames:
        rows = rows_of(frame.points, width)
        part = changed(before, rows) if before else Part(0, 0, width, height)
        file.append(chunk(b"fcTL", struct.pack(">IIIIIHHBB", count, part.width, part.height, part.x, part.y, frame.lasts, 1000, 0, 0)))
        data = packed(rows, part)
        file.append(chunk(b"fdAT", struct.pack(">I", count + 1) + data) if before else chunk(b"IDAT", data))
        count += 2 if before else 1
        before = rows
    return b"".join([*file, chunk(b"IEND", b"")])
