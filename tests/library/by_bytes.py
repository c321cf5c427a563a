"""The calls by bytes of the library, and the blocks that lines would have for them: what came as events is written as `wb host` writes it."""

from __future__ import annotations

import ctypes
import re
import subprocess
from pathlib import Path

from ..host.program import program
from .calls import Host

SENT, NEW, AGAIN, CLASH, LEFT, SHOWN, MISSING, GREATEST, PAGE, NEXT, PAINTED, DROPPED, RECORD, DREW, FETCH, WARN = range(1, 17)
NEVER = 2**64 - 1
BATCHES = {NEW: "batch 1 0 0 0", AGAIN: "batch 0 1 0 0", CLASH: "batch 0 0 1 0", LEFT: "batch 0 0 0 1"}
QUESTIONS = {"next": 1, "view": 2, "gaps": 3, "report": 4, "pages": 5, "known": 6, "show": 7, "digest": 8}
REFUSED = {7: "not kept", 8: "number", 9: "back in time", 10: "listening", 11: "ours", 12: "too many", 17: "twin", 18: "full", 19: "number"}
FIELDS = ["sequence number 0", "coordinate over 4095", "glyph outside ! to ~", "text of 0 or over 64 bytes", "text byte outside space to ~",
          "target sequence number 0", "target is the drawop itself"]
# the name of a drawing that is handed in: the drawing gets another, and is aimed at no such name
DRAFT = "draw 4294967295 {page} 4294967295 {time} {operation}"

# at a judged host: what became of a drawop, why what came is dropped, and what people are warned of
FATES = {NEW: "new", AGAIN: "again", CLASH: "clash", LEFT: "left"}
DROPS = ["datagram", "own", "speaks", "crowd", "mark", "stranger", "flood", "again", "ahead", "full", "share", "pages", "holes"]
WARNINGS = ["speaks", "mark", "twin", "full", "share"]
JUDGED = re.compile(r"came \d+ \d+(?:@\d+)? (?:[0-9a-fA-F]{2})+|tick \d+|wall \d+ \d+|gone \d+ \d+(?:@\d+)?|add \d+ \d+/\d+ .*")


def refusal(status: int) -> str:
    if status >= 200:
        return f"word 6: {FIELDS[status - 201]}"
    return f"datagram {status - 100}" if status >= 100 else REFUSED[status]


def in_hex(lines: list[str]) -> list[str]:
    """The digits of datagrams in words, by `wb hex`."""
    told = subprocess.run([program(), "hex"], input="".join(f"{line}\n" for line in lines), stdout=subprocess.PIPE, text=True, check=True).stdout
    return [line.split()[1] for line in told.splitlines()]


def in_words(digits: list[str]) -> list[str]:
    told = subprocess.run([program(), "words"], input="".join(f"send {it}\n" for it in digits), stdout=subprocess.PIPE, text=True, check=True).stdout
    return [line.removeprefix("send ") for line in told.splitlines()]


def drafts(lines: list[str]) -> dict[str, bytes]:
    """For each line `add` the drawop whose page, time and operation it names."""
    adds = [line for line in dict.fromkeys(lines) if line.startswith("add ")]
    parts = [line.split(" ", 4) for line in adds]
    made = in_hex([DRAFT.format(time=time, page=page, operation=operation) for _, _, time, page, operation in parts]) if adds else []
    return {line: bytes.fromhex(digits) for line, digits in zip(adds, made)}


def judged_drafts(lines: list[str]) -> dict[str, bytes]:
    """The same of lines of a judged host, which have no time."""
    adds = [line for line in dict.fromkeys(lines) if line.startswith("add ")]
    parts = [line.split(" ", 3) for line in adds]
    made = in_hex([DRAFT.format(time=77, page=page, operation=operation) for _, _, page, operation in parts]) if adds else []
    return {line: bytes.fromhex(digits) for line, digits in zip(adds, made)}


def numbers(told: bytes) -> list[int]:
    return [int.from_bytes(told[at:at + 4], "big") for at in range(0, len(told), 4)]


class ByBytes(Host):
    """A host whose lines `came`, `tick`, `add` and questions become calls by bytes, and the events make each block."""

    drafts_of = staticmethod(drafts)

    def __init__(self, library: Path) -> None:
        super().__init__(library)
        self.calls.wb_due.restype = ctypes.c_uint64
        self.drafts: dict[str, bytes] = {}
        self.made = 0

    def events(self) -> list[tuple[int, bytes]]:
        """All events that wait. A buffer without room for one leaves it, and says how large it is."""
        found = []
        buffer = ctypes.create_string_buffer(1)
        while (event := self.event(buffer))[0] != 6:
            status, kind, size = event
            assert status == (size > len(buffer))
            if status == 0:
                found.append((kind, buffer.raw[:size]))
            else:
                buffer = ctypes.create_string_buffer(size)
        return found

    def event(self, buffer: ctypes.Array[ctypes.c_char]) -> tuple[int, int, int]:
        """Fetches the next event: the status, the kind and the size."""
        kind, size = ctypes.c_uint32(77), ctypes.c_size_t(77)
        status = self.calls.wb_event(ctypes.byref(self.held), ctypes.byref(kind), buffer, ctypes.c_size_t(len(buffer)), ctypes.byref(size))
        return int(status), kind.value, size.value

    def due(self) -> str:
        due = int(self.calls.wb_due(ctypes.byref(self.held)))
        return "ok never" if due == NEVER else f"ok {due}"

    def said(self, status: int, rows: list[str]) -> str:
        """A block: these rows, and the next moment that is due; or why the call was refused."""
        self.made += 1
        assert not (status and rows)
        return "\n".join([*rows, f"refused {refusal(status)}" if status else self.due()]) + "\n"

    def told(self, status: int, is_drawing: bool) -> str:
        rows = []
        for kind, its in self.events():
            if kind == SENT:
                rows.append(f"send {its.hex()}")
            elif not is_drawing or kind in (CLASH, LEFT):
                rows.append(BATCHES[kind])
        return self.said(status, rows)

    def came(self, now: int, datagram: bytes) -> int:
        return int(self.calls.wb_came(ctypes.byref(self.held), ctypes.c_uint64(now), datagram, ctypes.c_size_t(len(datagram))))

    def add(self, now: int, drawop: bytes) -> int:
        return int(self.calls.wb_add(ctypes.byref(self.held), ctypes.c_uint64(now), drawop, ctypes.c_size_t(len(drawop))))

    def tick(self, now: int) -> int:
        return int(self.calls.wb_tick(ctypes.byref(self.held), ctypes.c_uint64(now)))

    def ask(self, word: str, arguments: list[int]) -> str:
        given = (*arguments, 0, 0, 0, 0)[:4]
        status = int(self.calls.wb_ask(ctypes.byref(self.held), ctypes.c_uint32(QUESTIONS[word]), *(ctypes.c_uint32(it) for it in given)))
        events = [its for _, its in self.events()]
        if word == "show":
            return self.said(status, events[0].decode().splitlines())
        if word == "next":
            return self.said(status, [f"next {numbers(its)[0]}" for its in events])
        if word == "digest":
            return self.said(status, [f"digest {its.hex()}" for its in events])
        rows = in_words([its.hex() for its in events]) if word == "view" and events else [" ".join(map(str, numbers(its))) for its in events]
        return self.said(status, [f"{word} {len(rows)}", *rows])

    def block_of(self, line: str) -> str:
        """The block of a line, by a call by bytes where there is one for it."""
        word, *arguments = line.split(" ")
        if word == "came":
            return self.told(self.came(int(arguments[0]), bytes.fromhex(arguments[1])), False)
        if word == "add":
            return self.told(self.add(int(arguments[0]), self.drafts[line]), True)
        if word == "tick":
            return self.told(self.tick(int(arguments[0])), True)
        if word in QUESTIONS:
            return self.ask(word, [int(it) for it in arguments])
        return self.text(line)

    def text(self, line: str) -> str:
        """The block of a line, by a line."""
        status, size, block = self.line(line.encode(), 1 << 16)
        assert status == 0
        return block[:size].decode()


class JudgedByBytes(ByBytes):
    """A judged host whose lines `came`, `tick`, `add`, `wall`, `gone` and questions become calls by bytes."""

    drafts_of = staticmethod(judged_drafts)

    def row(self, kind: int, its: bytes) -> str:
        """The line of an event."""
        if kind == SENT:
            return f"send {its.hex()}"
        if kind in FATES:
            assert its == b""
            return f"became {FATES[kind]}"
        if kind == RECORD:
            return f"record {its.decode('latin-1')}"
        if kind == FETCH:
            place, lacking, *owner = (int.from_bytes(its[at:at + 8], "big") for at in range(0, len(its), 8))
            return f"fetch {place}{''.join(f'@{it}' for it in owner)} {lacking}"
        first, *more = numbers(its)
        if kind == DREW:
            creator, number, seq = more
            return f"drew {creator} {number} {first} {seq}"
        if kind == DROPPED:
            return f"dropped {DROPS[first - 1]}"
        assert kind == WARN
        return " ".join(["warn", WARNINGS[first - 1], *map(str, more)])

    def judged(self, status: int) -> str:
        return self.said(status, [self.row(*event) for event in self.events()])

    def origin(self, word: str) -> tuple[ctypes.c_uint64, ctypes.c_uint64, ctypes.c_bool]:
        place, _, owner = word.partition("@")
        return ctypes.c_uint64(int(place)), ctypes.c_uint64(int(owner or 77)), ctypes.c_bool(bool(owner))

    def came_from(self, now: int, origin: str, told: bytes) -> int:
        return int(self.calls.wb_came_from(ctypes.byref(self.held), ctypes.c_uint64(now), *self.origin(origin), told, ctypes.c_size_t(len(told))))

    def wall(self, now: int, wall: int) -> int:
        return int(self.calls.wb_wall(ctypes.byref(self.held), ctypes.c_uint64(now), ctypes.c_uint64(wall)))

    def gone(self, now: int, origin: str) -> int:
        return int(self.calls.wb_gone(ctypes.byref(self.held), ctypes.c_uint64(now), *self.origin(origin)))

    def block_of(self, line: str) -> str:
        if not JUDGED.fullmatch(line) or (line.startswith("add ") and line not in self.drafts):
            return super().block_of(line) if line.split(" ")[0] in QUESTIONS else self.text(line)
        word, now, *rest = line.split(" ")
        if word == "came":
            return self.judged(self.came_from(int(now), rest[0], bytes.fromhex(rest[1])))
        if word == "tick":
            return self.judged(self.tick(int(now)))
        if word == "wall":
            return self.judged(self.wall(int(now), int(rest[0])))
        if word == "gone":
            return self.judged(self.gone(int(now), rest[0]))
        # by bytes the place of a wrong word is that in a line of a host that is not judged, which has the time too
        return self.judged(self.add(int(now), self.drafts[line])).replace("refused word 6", "refused word 5")


def compare(library: Path, kind: type[ByBytes], given: list[str]) -> int:
    """How many lines of a conversation were made calls by bytes; each block is that of the line."""
    lines, calls = Host(library), kind(library)
    calls.drafts = kind.drafts_of(given)
    assert (lines.open(), calls.open()) == (0, 0)
    for line in given:
        _, size, block = lines.line(line.encode(), 1 << 16)
        assert calls.block_of(line) == block[:size].decode(), line
    lines.close()
    calls.close()
    return calls.made
