"""Datagrams in hexadecimal, from docs/SCRIPTS.md, and the random words of a seed. Nothing here comes from the program."""

from __future__ import annotations

Page = tuple[int, int]
Mark = tuple[int, int]
Echo = tuple[int, int, int]

DRAWOP, SESSION, REQUEST, ASK_PAGES, PAGE_STATE = 1, 2, 3, 4, 5


def number(value: int, size: int) -> bytes:
    return value.to_bytes(size, "big")


def datagram(kind: int, body: bytes, version: int = 1) -> str:
    return (b"WB" + bytes([version, kind]) + number(len(body), 4) + body).hex()


def page_bytes(page: Page) -> bytes:
    return number(page[0], 4) + number(page[1], 4)


def name_bytes(source: int, page: Page, seq: int) -> bytes:
    return number(source, 4) + page_bytes(page) + number(seq, 4)


def points(x0: int, y0: int, x1: int, y1: int) -> bytes:
    return b"".join(number(value, 2) for value in (x0, y0, x1, y1))


def line(x0: int, y0: int, x1: int, y1: int, glyph: str) -> bytes:
    return b"\x01" + points(x0, y0, x1, y1) + glyph.encode()


def frame(x0: int, y0: int, x1: int, y1: int, glyph: str) -> bytes:
    return b"\x02" + points(x0, y0, x1, y1) + glyph.encode()


def text(x: int, y: int, letters: str) -> bytes:
    return b"\x03" + number(x, 2) + number(y, 2) + bytes([len(letters)]) + letters.encode()


def delete(source: int, seq: int) -> bytes:
    return b"\x04" + number(source, 4) + number(seq, 4)


def restore(source: int, seq: int) -> bytes:
    return b"\x05" + number(source, 4) + number(seq, 4)


def drawop(source: int, page: Page, seq: int, time: int, operation: bytes) -> str:
    is_second = operation[0] == 5 or (operation[0] == 3 and operation[5] > 40)
    body = name_bytes(source, page, seq) + number(time, 8) + operation
    return datagram(DRAWOP, body, 2 if is_second else 1)


def marks_bytes(marks: list[Mark]) -> bytes:
    return number(len(marks), 2) + b"".join(number(source, 4) + number(high, 4) for source, high in marks)


def echoes_bytes(echoes: list[Echo]) -> bytes:
    entries = (number(source, 4) + number(sent, 8) + number(held, 8) for source, sent, held in echoes)
    return number(len(echoes), 2) + b"".join(entries)


def session(sender: int, sent: int, page: Page, marks: list[Mark], echoes: list[Echo]) -> str:
    body = number(sender, 4) + number(sent, 8) + page_bytes(page) + marks_bytes(marks) + echoes_bytes(echoes)
    return datagram(SESSION, body)


def request(asker: int, source: int, page: Page, seq: int) -> str:
    return datagram(REQUEST, number(asker, 4) + name_bytes(source, page, seq))


def ask_pages(asker: int) -> str:
    return datagram(ASK_PAGES, number(asker, 4))


def page_state(sender: int, page: Page, marks: list[Mark]) -> str:
    return datagram(PAGE_STATE, number(sender, 4) + page_bytes(page) + marks_bytes(marks))


class Words:
    """The random words of a seed: PCG with 64 bits of state and words of 32 bits, two of which are one. Timers have those of
    stream 54, and the policy of a host that keeps itself those of stream 55."""

    def __init__(self, seed: int, stream: int = 54) -> None:
        self.increment = stream << 1 | 1
        self.state = (seed + self.increment) % 2**64
        self.step()

    def step(self) -> None:
        self.state = (self.state * 6364136223846793005 + self.increment) % 2**64

    def half(self) -> int:
        state = self.state
        self.step()
        mixed = ((state >> 18) ^ state) >> 27 & 0xFFFFFFFF
        turn = state >> 59
        return (mixed >> turn | mixed << (32 - turn)) & 0xFFFFFFFF

    def next(self) -> int:
        low = self.half()
        return low | self.half() << 32


def drawn(now: int, delay: int, word: int, lead: int, span: int, level: int = 0) -> int:
    """A moment drawn at random, as docs/PROTOCOL.md has it: with C1 and C2 of a request, with D1 and D2 of a repair."""
    return now + (lead * delay << level) + word % ((span * delay << level) + 1)
