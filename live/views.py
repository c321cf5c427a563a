"""What words say: the fields of drawops, and of other datagrams what a member and its views need of them."""
from __future__ import annotations

import json
import re
from typing import Any, Dict, List, Optional, Tuple, Union

# of a page: its creator and its number
Page = Tuple[int, int]

# the page that a convention reserves for names, titles and the chat
NOTES: Page = (0, 0)

# of a drawop: its source, its page and its number there
Name = Tuple[int, Page, int]

# where a drawop stands in the order of display: its time, its source and its number
Key = Tuple[int, int, int]

# a delete or a restore of another drawop
AIMED = ("delete", "restore")

# marks of a report of which note is taken, as many as a host tells
MARKS = 64

# how a drawop begins in hexadecimal, in either version, and where its source, the two numbers of its page and its own number stand
DRAWOPS, NAMED = ("57420101", "57420201"), range(16, 48, 8)

# how a request begins, and where it has the same
REQUEST, ASKED = "57420103", range(24, 56, 8)

# and a session message
SESSION = "57420102"


def page_of(text: str) -> Page:
    """A page from `C/N`. ValueError where it is none."""
    found = re.fullmatch("([0-9]{1,10})/([0-9]{1,10})", text)
    if not found or max(int(found[1]), int(found[2])) >= 2**32:
        raise ValueError("page")
    return int(found[1]), int(found[2])


def page_text(page: Page) -> str:
    return "%d/%d" % page


class Drawop:
    """A drawop, by its words; `digits` are its datagram."""

    __slots__ = ("name", "time", "kind", "words", "digits", "json")

    def __init__(self, words: str, digits: str = "") -> None:
        _, source, page, seq, time, kind = words.split(" ", 6)[:6]
        self.name: Name = (int(source), page_of(page), int(seq))
        self.time = int(time)
        self.kind = kind
        self.words = words
        self.digits = digits
        self.json: Optional[str] = None

    @property
    def speaker(self) -> int:
        return self.name[0]

    @property
    def key(self) -> Key:
        return self.time, self.name[0], self.name[2]

    def is_drawing(self) -> bool:
        """It puts glyphs on the page: it is neither a delete nor a restore."""
        return self.kind not in AIMED

    def aimed(self) -> Name:
        """What a delete or a restore is aimed at."""
        source, seq = self.words.split(" ")[6:8]
        return int(source), self.name[1], int(seq)

    def begins_within(self, columns: int, rows: int) -> bool:
        """Whether a drawing may cover one of the first columns and rows."""
        numbers = [int(word) for word in self.words.split(" ", 10)[6:8 if self.kind == "text" else 10]]
        return min(numbers[::2]) < columns and min(numbers[1::2]) < rows

    def fields(self) -> Dict[str, Any]:
        """What a page of a browser gets of it."""
        rest = self.words.split(" ", 6)[6]
        told: Dict[str, Any] = {"source": self.name[0], "seq": self.name[2], "time": str(self.time), "op": self.kind}
        if self.kind == "text":
            x, y, quoted = rest.split(" ", 2)
            # a backslash stands before each quote and each backslash in it
            told.update(x=int(x), y=int(y), text=re.sub(r"\\(.)", r"\1", quoted[1:-1]))
        else:
            *numbers, glyph = rest.split(" ")
            told.update(zip(("x0", "y0", "x1", "y1"), map(int, numbers)), glyph=glyph)
        told["words"] = self.words
        return told

    def text(self) -> str:
        """The same as JSON, which is made once."""
        if self.json is None:
            self.json = json.dumps(self.fields(), separators=(",", ":"))
        return self.json


def speaker_of(words: str) -> int:
    """The source, sender or asker of a datagram."""
    return int(words.split(" ", 2)[1])


def name_in(words: str) -> Optional[Name]:
    """The name of a drawop, or the one that a request asks for."""
    parts = words.split(" ", 5)
    if parts[0] == "draw":
        return int(parts[1]), page_of(parts[2]), int(parts[3])
    if parts[0] == "request":
        return int(parts[2]), page_of(parts[3]), int(parts[4])
    return None


def name_on(page: Page, words: str) -> Name:
    """The name of a drawop on this page."""
    _, source, _, seq, _ = words.split(" ", 4)
    return int(source), page, int(seq)


def name_of(digits: str) -> Optional[Name]:
    """The name of a drawop in hexadecimal; none of any other datagram."""
    if not digits.startswith(DRAWOPS) or len(digits) < NAMED.stop:
        return None
    source, creator, number, seq = (int(digits[at:at + 8], 16) for at in NAMED)
    return source, (creator, number), seq


def asked_in(digits: str) -> Name:
    """The name that a request in hexadecimal asks for."""
    source, creator, number, seq = (int(digits[at:at + 8], 16) for at in ASKED)
    return source, (creator, number), seq


def reported_in(digits: str) -> Optional[Page]:
    """The page of a session message in hexadecimal; none of any other datagram."""
    return (int(digits[40:48], 16), int(digits[48:56], 16)) if digits.startswith(SESSION) else None


class Report:
    """What a session message or a page state tells: the page, the greatest number of each source, and whom the speaker heard."""

    def __init__(self, words: str) -> None:
        kind, speaker, *rest = words.split(" ")
        self.is_session = kind == "session-message"
        self.speaker = int(speaker)
        self.sent = int(rest.pop(0)) if self.is_session else 0
        self.page = page_of(rest.pop(0))
        self.marks: Dict[int, int] = {}
        self.echoes: Dict[int, Tuple[int, int]] = {}
        for word in rest:
            source, sign, told = word.partition("@")
            if sign:
                sent, held = told.split("+")
                self.echoes[int(source)] = int(sent), int(held)
            else:
                source, _, high = word.partition("=")
                self.marks[int(source)] = int(high)

    def noted(self, me: int) -> List[Tuple[int, int]]:
        """The marks of others of which note is taken."""
        return [(source, high) for source, high in list(self.marks.items())[:MARKS] if source != me]


class Question:
    """A request for a drawop, or a question for pages, which has no name."""

    def __init__(self, words: str) -> None:
        self.speaker = speaker_of(words)
        self.name = name_in(words)


Datagram = Union[Drawop, Report, Question]


def datagram_of(words: str, digits: str = "") -> Datagram:
    """A datagram by its words."""
    kind = words.split(" ", 1)[0]
    if kind == "draw":
        return Drawop(words, digits)
    return Report(words) if kind in ("session-message", "page-state") else Question(words)
