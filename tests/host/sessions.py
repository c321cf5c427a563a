"""Makes sessions at random: their lines, and what the host in plain Python answers."""

from __future__ import annotations

import random

from . import datagrams
from .datagrams import Echo, Mark, Page, Words
from .model import Drawop, Model, Name

LINES = 400
PAGES: list[Page] = [(7, 1), (4_294_967_295, 0)]
NUMBERS = 7
ME = 8
MEMBERS = [7, ME, 9, 4_294_967_295]
TEXT = 'say "noon" in the room \\ beside the hall, or at one'


class Session:
    """Makes one line after the other, and what the host is to print for it."""

    def __init__(self, numbers: random.Random) -> None:
        self.random = numbers
        self.cells = self.below(60) + 10
        self.seed = self.random.getrandbits(64)
        self.model = Model(ME, self.cells, Words(self.seed))
        self.lines = [self.arrive, self.arrive, self.say, self.told, self.asked, self.asked, self.state, self.tick, self.tick]
        self.lines += [self.named, self.page_line, self.page_line, self.other]

    def below(self, bound: int) -> int:
        return self.random.randrange(bound)

    def page(self) -> Page:
        return self.random.choice(PAGES)

    def name(self, source: int | None = None) -> Name:
        return Name(source or self.random.choice(MEMBERS), self.page(), 1 + self.below(NUMBERS))

    def operation(self) -> tuple[bytes, str]:
        """An operation as bytes and in words."""
        numbers = self.below(9), self.below(5), self.below(9), self.below(5)
        kind = self.below(6)
        if kind < 2:
            word, make = [("line", datagrams.line), ("frame", datagrams.frame)][kind]
            return make(*numbers, "*"), f"{word} {' '.join(map(str, numbers))} *"
        if kind == 2:
            text = TEXT[: 1 + self.below(len(TEXT))]
            quoted = text.replace("\\", "\\\\").replace('"', '\\"')
            return datagrams.text(*numbers[:2], text), f'text {numbers[0]} {numbers[1]} "{quoted}"'
        word, aim = [("delete", datagrams.delete), ("restore", datagrams.restore)][kind % 2]
        target = self.random.choice(MEMBERS), 1 + self.below(NUMBERS + 1)
        return aim(*target), f"{word} {target[0]} {target[1]}"

    def drawop(self, source: int | None = None) -> Drawop:
        """A drawop whose name and fields come again now and then, and which does not name itself."""
        held = [drawop for drawop in self.model.held.values() if source in (None, drawop.name.source)]
        if held and self.below(5) == 0:
            return self.random.choice(held)
        name, (operation, told) = self.name(source), self.operation()
        own = datagrams.number(name.source, 4) + datagrams.number(name.seq, 4)
        if operation[0] > 3 and operation[1:] == own:
            operation, told = datagrams.text(0, 0, "x"), 'text 0 0 "x"'
        return Drawop(name, self.below(30), operation, told)

    def marks(self) -> list[Mark]:
        return [(source, 1 + self.below(NUMBERS)) for source in MEMBERS if self.below(3) == 0]

    # ---- lines, each with what it prints

    def arrive(self) -> tuple[str, str]:
        drawop = self.drawop()
        line = self.random.choice([drawop.words(), f"datagram {drawop.digits()}", f"arrive {drawop.digits()}"])
        return line, self.model.arrive(drawop)

    def say(self) -> tuple[str, str]:
        drawop = self.drawop(ME)
        return f"say {drawop.words()}", self.model.say(drawop)

    def told(self) -> tuple[str, str]:
        sender, sent, page, marks = self.random.choice(MEMBERS), self.below(10**9), self.page(), self.marks()
        ago = self.below(400_000)
        echoes: list[Echo] = [(ME, max(0, self.model.now - ago), self.below(ago + 5))] if self.below(2) else []
        digits = datagrams.session(sender, sent, page, marks, echoes)
        return f"hear {digits}", self.model.session_message(sender, sent, page, marks, echoes)

    def state(self) -> tuple[str, str]:
        sender, page, marks = self.random.choice(MEMBERS), self.page(), self.marks()
        return f"datagram {datagrams.page_state(sender, page, marks)}", self.model.page_state(sender, page, marks)

    def asked(self) -> tuple[str, str]:
        asker, name = self.random.choice(MEMBERS), self.name()
        if self.model.held and self.below(2):
            name = self.random.choice(list(self.model.held))
        source, (creator, number), seq = name
        if self.below(8) == 0:
            return f"ask-pages {asker}", self.model.ask_pages(asker)
        return f"request {asker} {source} {creator}/{number} {seq}", self.model.request(asker, name)

    def tick(self) -> tuple[str, str]:
        due = self.model.due()
        moment = self.model.now + self.below(150_000)
        if due != "never" and self.below(2):
            moment = max(self.model.now, int(due) - self.below(2))
        return f"tick {moment}", self.model.tick(moment)

    def named(self) -> tuple[str, str]:
        name = self.name()
        source, (creator, number), seq = name
        word = self.random.choice(["ask", "stop"])
        return f"{word} {creator} {number} {source} {seq}", getattr(self.model, word)(name)

    def page_line(self) -> tuple[str, str]:
        page = self.page()
        word = self.random.choice(["look", "look", "session", "gaps", "report", "digest", "next", "view"])
        return f"{word} {page[0]} {page[1]}", getattr(self.model, word)(page)

    def other(self) -> tuple[str, str]:
        source, delay = self.random.choice(MEMBERS), self.below(200_000)
        if self.below(3) == 0:
            self.model.delays[source] = delay
            return f"distance {source} {delay}", ""
        word = self.random.choice(["pages", "known", "version"])
        return word, getattr(self.model, word)()

    def conversation(self, count: int = LINES) -> tuple[str, str]:
        """The lines that are given, and what is to be printed."""
        given, printed = f"board {ME} {self.cells} 1 {self.seed}\n", "ok never\n"
        for _ in range(count):
            line, block = self.random.choice(self.lines)()
            given += f"{line}\n"
            printed += f"{block}ok {self.model.due()}\n"
        return given, printed


def spoiled(numbers: random.Random, line: bytes) -> bytes:
    """A line of which a few bytes are others, are left out, or come twice."""
    for _ in range(1 + numbers.randrange(3)):
        at = numbers.randrange(len(line) + 1)
        other = bytes([numbers.choice([32, 34, 92, 48, 255, 0, 13, 65 + numbers.randrange(58)])])
        line = numbers.choice([line[:at] + other + line[at + 1 :], line[:at] + line[at + 1 :], line[:at] + line[at - 3 :], line[:at]])
    return line
