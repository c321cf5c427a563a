"""Gives a module that has a 64-bit table a 32-bit one, for engines and tools that know only that.

The index of each indirect call is wrapped to 32 bits; a table has far fewer entries. Binaryen makes the same of the memory."""
from __future__ import annotations

from .wasm import CODE, ELEMENTS, TABLES, Fault, behind, joined, number, sections, spelled

CALL_INDIRECT = 0x11
WRAP = b"\xa7"  # i32.wrap_i64
I32_CONST, I64_CONST = 0x41, 0x42
FUNCREF = 0x70

# instructions by what follows: one number, a number twice (how memory is reached), bytes
ONE_NUMBER = {0x02, 0x03, 0x04, 0x0C, 0x0D, 0x10, 0x20, 0x21, 0x22, 0x23, 0x24, 0x25, 0x26, 0x3F, 0x40, I32_CONST, I64_CONST, 0xD0, 0xD2}
TWO_NUMBERS = {CALL_INDIRECT, *range(0x28, 0x3F)}
BYTES = {0x43: 4, 0x44: 8}
BR_TABLE, SELECT, PREFIXED = 0x0E, 0x1C, 0xFC

# numbers behind the prefixed ones: conversions have none, and those of memories and tables have these
OF_PREFIXED = {**dict.fromkeys(range(8), 0), 8: 2, 9: 1, 10: 2, 11: 1, 12: 2, 13: 1, 14: 2, 15: 1, 16: 1, 17: 1}

# instructions that nothing follows
ALONE = {0x00, 0x01, 0x05, 0x0B, 0x0F, 0x1A, 0x1B, 0xD1, *range(0x45, 0xC5)}


def end_of(data: bytes, at: int) -> int:
    """The place behind the instruction at a place. Fault where it is none that is known here, such as one of vectors."""
    operation, at = data[at], at + 1
    if operation in ALONE:
        return at
    if operation in ONE_NUMBER:
        return behind(data, at)
    if operation in TWO_NUMBERS:
        return behind(data, behind(data, at))
    if operation in BYTES:
        return at + BYTES[operation]
    if operation == PREFIXED:
        operation, at = number(data, at)
        count = OF_PREFIXED.get(operation, -1)
    elif operation in (BR_TABLE, SELECT):
        count, at = number(data, at)
        count += operation == BR_TABLE
    else:
        count = -1
    if count < 0:
        raise Fault("has the instruction %#x, which is not known here" % operation)
    for _ in range(count):
        at = behind(data, at)
    return at


def with_wraps(body: bytes, at: int) -> bytes:
    """The instructions from a place on, with a wrap before each indirect call."""
    made, start = bytearray(body[:at]), at
    while at < len(body):
        if body[at] == CALL_INDIRECT:
            made += body[start:at] + WRAP
            start = at
        at = end_of(body, at)
    return bytes(made + body[start:])


def function(body: bytes) -> bytes:
    """A function, behind its declarations of locals."""
    groups, at = number(body, 0)
    for _ in range(groups):
        at = behind(body, at) + 1
    return with_wraps(body, at)


def functions(section: bytes) -> bytes:
    count, at = number(section, 0)
    made = bytearray(spelled(count))
    for _ in range(count):
        size, at = number(section, at)
        narrowed = function(section[at:at + size])
        made += spelled(len(narrowed)) + narrowed
        at += size
    return bytes(made)


def table(section: bytes) -> bytes:
    if section[:2] != bytes([1, FUNCREF]) or not section[2] & 4:
        raise Fault("has other tables than one of 64 bits")
    return section[:2] + bytes([section[2] & 3]) + section[3:]


def elements(section: bytes) -> bytes:
    if section[:3] != bytes([1, 0, I64_CONST]):
        raise Fault("has other entries of its table than one run of functions")
    return section[:2] + bytes([I32_CONST]) + section[3:]


PARTS = {TABLES: table, ELEMENTS: elements, CODE: functions}


def narrow(module: bytes) -> bytes:
    """The same module with a 32-bit table."""
    return joined((kind, PARTS[kind](body) if kind in PARTS else body) for kind, body in sections(module))
