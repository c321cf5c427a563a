"""Reads and writes the parts of a WebAssembly module that the build looks at."""
from __future__ import annotations

from typing import Iterator

MAGIC = b"\0asm\1\0\0\0"

# the sections, by their numbers
IMPORTS, TABLES, EXPORTS, ELEMENTS, CODE = 2, 4, 7, 9, 10

KINDS = ("func", "table", "memory", "global", "tag")


class Fault(Exception):
    """The bytes are no module, or one that has what is not known here."""


def number(data: bytes, at: int) -> tuple[int, int]:
    """The unsigned number that begins at a place, and the place behind it."""
    value = shift = 0
    while True:
        byte = data[at]
        at += 1
        value |= (byte & 127) << shift
        shift += 7
        if byte < 128:
            return value, at


def behind(data: bytes, at: int) -> int:
    """The place behind a number of either sign."""
    while data[at] >= 128:
        at += 1
    return at + 1


def spelled(value: int) -> bytes:
    """An unsigned number as its bytes."""
    made = bytearray()
    while value >= 128:
        made.append(value & 127 | 128)
        value >>= 7
    return bytes([*made, value])


def sections(module: bytes) -> Iterator[tuple[int, bytes]]:
    """Each section: its number and its bytes."""
    if not module.startswith(MAGIC):
        raise Fault("no module of WebAssembly")
    at = len(MAGIC)
    while at < len(module):
        size, start = number(module, at + 1)
        yield module[at], module[start:start + size]
        at = start + size


def joined(parts: Iterator[tuple[int, bytes]]) -> bytes:
    """A module of these sections."""
    return MAGIC + b"".join(bytes([kind]) + spelled(len(body)) + body for kind, body in parts)


def section(module: bytes, wanted: int) -> bytes:
    return next((body for kind, body in sections(module) if kind == wanted), b"\0")


def text(data: bytes, at: int) -> tuple[str, int]:
    size, at = number(data, at)
    return data[at:at + size].decode(), at + size


def imported(module: bytes) -> list[str]:
    """The functions that a module imports, as `env.read`. Fault where it imports anything else."""
    data, names = section(module, IMPORTS), []
    count, at = number(data, 0)
    for _ in range(count):
        space, at = text(data, at)
        name, at = text(data, at)
        if data[at]:
            raise Fault("imports the %s %s.%s" % (KINDS[data[at]], space, name))
        names.append("%s.%s" % (space, name))
        at = behind(data, at + 1)
    return names


def exported(module: bytes) -> list[str]:
    """The names that a module exports."""
    data, names = section(module, EXPORTS), []
    count, at = number(data, 0)
    for _ in range(count):
        name, at = text(data, at)
        names.append(name)
        at = behind(data, at + 1)
    return names
