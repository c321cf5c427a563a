"""The vectors of docs/vectors: what they are, and how their files are written."""

from __future__ import annotations

import json
from pathlib import Path

from . import painting, sealed_vectors, timer_vectors
from .codec import DELETE, FRAME, LINE, RESTORE, Aim, AskPages, Datagram, Drawop, Echo, Mark, Operation, Page, PageState, Request, SessionMessage, Shape, Text, write
from .random_values import HEIGHT, WIDTH
from .words import page_words, words_of

FIRST, TELLER = Page(7, 1), 9
LAST = (1 << 32) - 1
LONGEST = (1 << 64) - 1


def drawn(seq: int, operation: Operation, source: int = 7, time: int = 10, page: Page = FIRST) -> Drawop:
    return Drawop(source, page, seq, time, operation)


def line(x0: int, y0: int, x1: int, y1: int, glyph: str = "*") -> Shape:
    return Shape(LINE, x0, y0, x1, y1, ord(glyph))


def frame(x0: int, y0: int, x1: int, y1: int, glyph: str = "#") -> Shape:
    return Shape(FRAME, x0, y0, x1, y1, ord(glyph))


def text(x: int, y: int, letters: str) -> Text:
    return Text(x, y, letters.encode())


DATAGRAMS: list[Datagram] = [
    drawn(1, line(0, 1, 4, 1)),
    drawn(LAST, line(4095, 4095, 0, 0, "~"), LAST, LONGEST, Page(LAST, LAST)),
    drawn(2, frame(3, 2, 10, 6, "!")),
    drawn(3, text(1, 1, 'say "hi" \\')),
    drawn(4, text(0, 4000, " " * 40)),
    drawn(5, text(0, 4000, "a" * 41)),
    drawn(6, text(4095, 0, "z" * 64)),
    drawn(7, Aim(DELETE, 7, 1)),
    drawn(8, Aim(DELETE, 0, 8)),
    drawn(9, Aim(RESTORE, LAST, LAST)),
    SessionMessage(1, 50, Page(7, 4), (Mark(7, 1),), (Echo(8, 0, 50),)),
    SessionMessage(0, 0, Page(0, 0), (), ()),
    SessionMessage(LAST, LONGEST, Page(LAST, 0), (Mark(0, 1), Mark(1, LAST), Mark(LAST, 2)), (Echo(0, LONGEST, 0), Echo(5, 1, LONGEST))),
    Request(8, 7, Page(7, 4), 2),
    AskPages(9),
    PageState(1, FIRST, (Mark(7, 3), Mark(8, 12))),
]


def changed(datagram: Datagram | str, at: int, value: str) -> str:
    """The digits of a datagram with other bytes at a place."""
    digits = datagram if isinstance(datagram, str) else write(datagram).hex()
    return digits[:2 * at] + value + digits[2 * at + len(value):]


# what is not a datagram: the digits, the number of the fault in docs/SCRIPTS.md, and why
BASE, MARKS = DATAGRAMS[0], DATAGRAMS[-1]
TWO_MARKS = SessionMessage(8, 0, Page(7, 4), (Mark(7, 1), Mark(9, 1)), ())
NOT_DATAGRAMS = [
    ("574201", 1, "fewer than 8 bytes"),
    (changed(BASE, 0, "5743"), 2, "another mark"),
    (changed(BASE, 2, "03"), 3, "version 3"),
    (changed(BASE, 3, "06"), 4, "kind 6"),
    (changed(MARKS, 2, "02"), 4, "a page state of version 2"),
    (write(BASE).hex()[:-2], 1, "a byte is missing"),
    (write(BASE).hex() + "00", 5, "a byte too many"),
    (changed(AskPages(9), 7, "05") + "00", 6, "a question for pages with five bytes"),
    (changed(BASE, 32, "06"), 7, "operation 6"),
    (changed(drawn(9, Aim(RESTORE, 7, 1)), 2, "01"), 7, "a restore of version 1"),
    (changed(BASE, 20, "00000000"), 8, "sequence number 0"),
    (changed(BASE, 33, "1000"), 8, "column 4,096"),
    (changed(BASE, 41, "20"), 8, "a glyph that is a space"),
    (changed(drawn(5, text(0, 0, "a" * 41)), 2, "01"), 8, "41 letters of version 1"),
    (changed(drawn(4, text(0, 0, "a" * 40)), 2, "02"), 8, "40 letters of version 2"),
    (changed(drawn(4, text(0, 0, "ab")), 39, "7f"), 8, "a letter beyond ASCII's printable ones"),
    (changed(drawn(7, Aim(DELETE, 7, 1)), 33, "0000000700000007"), 8, "a delete of itself"),
    (changed(MARKS, 30, "00000007"), 9, "two marks of one source"),
    # of two faults, the one that is looked for first
    (changed(BASE, 0, "584209"), 2, "another mark, before another version"),
    (changed(BASE, 2, "0909"), 3, "version 9, before another kind"),
    (changed(BASE, 3, "06")[:40], 4, "kind 6, before bytes that are missing"),
    (changed(BASE, 7, "19")[:64] + "06", 7, "operation 6, before its fields, which are missing"),
    (changed(changed(BASE, 20, "00000000") + "00", 7, "23"), 6, "a byte behind a line, before its sequence number 0"),
    (changed(changed(drawn(5, text(0, 0, "a" * 41)), 2, "01"), 33, "1000"), 8, "column 4,096, before 41 letters of version 1"),
    (changed(TWO_MARKS, 30, "00000009000000010000000700000000"), 8, "a mark of 0, before its source out of order"),
    (changed(TWO_MARKS, 7, "22")[:84], 6, "a mark that is cut off"),
    (changed(changed(TWO_MARKS, 7, "22")[:84], 34, "00000000"), 8, "a mark of 0, before one that is cut off"),
    # sizes
    (changed(BASE, 7, "21")[:-2], 6, "a line without its glyph"),
    (changed(BASE, 7, "23") + "00", 6, "a line with one byte more"),
    (changed(Request(8, 7, Page(7, 4), 2), 7, "13")[:-2], 6, "a request of 19 bytes"),
    (changed(drawn(5, text(0, 0, "a" * 41)), 37, "40"), 6, "a text with fewer letters than it tells"),
    (changed(TWO_MARKS, 28, "ffff"), 6, "fewer marks than are told"),
    (changed(TWO_MARKS, 7, "29") + "00", 6, "a byte behind the lists"),
    # kinds and numbers of each version
    (changed(BASE, 2, "00"), 3, "version 0"),
    (changed(BASE, 3, "00"), 4, "kind 0"),
    (changed(TWO_MARKS, 2, "02"), 4, "a session message of version 2"),
    (changed(BASE, 2, "02"), 7, "a line of version 2"),
    (changed(drawn(7, Aim(DELETE, 7, 1)), 2, "02"), 7, "a delete of version 2"),
    (changed(BASE, 32, "05"), 7, "operation 5 of version 1, before its size"),
    # fields
    (changed(Request(8, 7, Page(7, 4), 2), 24, "00000000"), 8, "a request for sequence number 0"),
    *((f"57420{version}010000{24 + 6 + size:04x}{'00000007' * 3}{1:08x}{10:016x}0300000000{size:02x}{'61' * size}", 8, f"{size} letters of version {version}")
      for version in (1, 2) for size in (0, 65, 255)),
    (changed(drawn(6, text(0, 0, "z" * 64)), 101, "7f"), 8, "the last of 64 letters beyond ASCII's printable ones"),
    # lists
    (changed(TWO_MARKS, 30, "0000000a"), 9, "marks of falling sources"),
    (changed(SessionMessage(8, 0, FIRST, (), (Echo(7, 0, 0), Echo(9, 0, 0))), 32, "0000000a"), 9, "echoes of falling sources"),
    (changed(SessionMessage(8, 0, FIRST, (), (Echo(7, 0, 0), Echo(9, 0, 0))), 32, "00000009"), 9, "two echoes of one source"),
    (changed(TWO_MARKS, 34, "00000000"), 8, "a mark of 0"),
]

# lines without a datagram in words, and which word is wrong
NOT_WORDS = [(line, fault) for fault, lines in {
    "word 1: unknown": ["", "board 1 16 1 42", " request 8 7 7/4 2", "Request 8 7 7/4 2"],
    "word 2: missing": ["request"],
    "word 2: number": ["request  8 7 7/4 2", "request 08 7 7/4 2", "request +8 7 7/4 2", "request 4294967296 7 7/4 2"],
    "word 4: page": ["request 8 7 7 4 2", "request 8 7 7/ 2", "request 8 7 7/4/1 2"],
    "word 4: sequence number 0": ["draw 7 7/1 0 10 line 0 1 4 1 *"],
    "word 5: sequence number 0": ["request 8 7 7/4 0", "request 8 7 7/4 0 9", "session-message 8 0 7/4 7=0"],
    "word 5: number": ["draw 7 7/1 1 18446744073709551616 line 0 1 4 1 *"],
    "word 6: one too many": ["request 8 7 7/4 2 "],
    "word 6: operation": ["draw 7 7/1 1 10 circle 0 1 4 1 *"],
    "word 9: number": ["draw 7 7/1 1 10 line 0 1 4096 1 *"],
    "word 11: glyph": ["draw 7 7/1 1 10 line 0 1 4 1 **"],
    "word 11: glyph outside ! to ~": ["draw 7 7/1 1 10 line 0 1 4 1 \x7f"],
    "word 12: one too many": ["draw 7 7/1 1 10 line 0 1 4 1 * *"],
    "word 9: missing": ["draw 8 7/1 1 10 text 1 1"],
    "word 9: text": [f"draw 8 7/1 1 10 text 1 1 {text}" for text in ('ab', '"ab', '"a"b"', '"a\\b"', '"ab" ')],
    "word 9: text of 0 or over 64 bytes": ['draw 8 7/1 1 10 text 1 1 ""'],
    "word 8: target is the drawop itself": ["draw 7 7/1 2 5 delete 7 2"],
    "word 8: target sequence number 0": ["draw 7 7/1 2 5 delete 7 0"],
    "word 6: order": ["session-message 8 0 7/4 7=7 7=8"],
    "word 6: echo": ["session-message 8 0 7/4 8@0+50 7=7"],
    "word 5: echo": ["session-message 8 0 7/4 8@0"],
    "word 5: mark": ["session-message 8 0 7/4 x"],
    "word 5: one too many": ["page-state 1 7/4 7=1 8@0+50"],
}.items() for line in lines]

PAGES: list[tuple[str, list[Drawop]]] = [
    ("a line, a frame and a text", [drawn(1, line(0, 1, 4, 1)), drawn(2, frame(3, 2, 10, 6)), drawn(3, text(1, 3, 'say "hi"'))]),
    ("a steep line, and the same backwards", [drawn(1, line(0, 0, 2, 7, "a")), drawn(2, line(12, 7, 10, 0, "b"))]),
    ("halves are rounded away from the start", [drawn(1, line(0, 0, 10, 5, "a")), drawn(2, line(30, 5, 20, 0, "b")), drawn(3, line(20, 8, 30, 13, "c"))]),
    ("a point, and a frame of one row", [drawn(1, line(3, 3, 3, 3, "o")), drawn(2, frame(8, 5, 2, 5, "-"))]),
    ("a space covers what lies below", [drawn(1, frame(0, 0, 9, 2)), drawn(2, text(2, 0, "a  b"), time=11)]),
    ("the later time lies on top, whatever came first", [drawn(2, text(0, 0, "late"), time=20), drawn(1, text(2, 0, "early"), time=10)]),
    ("at one time the greater source lies on top", [drawn(1, text(0, 0, "nine"), 9), drawn(1, text(2, 0, "eight"), 8)]),
    ("at one time and of one source the greater number lies on top", [drawn(2, text(0, 0, "two")), drawn(1, text(1, 0, "one"))]),
    ("a delete by another source", [drawn(1, text(0, 0, "gone")), drawn(2, text(0, 1, "stays")), drawn(1, Aim(DELETE, 7, 1), 8, 11)]),
    ("a delete that came before what it deletes", [drawn(1, Aim(DELETE, 7, 1), 8, 11), drawn(1, text(0, 0, "gone"))]),
    ("a delete with an earlier time deletes as well", [drawn(1, text(0, 0, "gone"), time=20), drawn(1, Aim(DELETE, 7, 1), 8, 10)]),
    ("a later restore", [drawn(1, text(0, 0, "back")), drawn(1, Aim(DELETE, 7, 1), 8, 11), drawn(2, Aim(RESTORE, 7, 1), 9, 12)]),
    ("of a delete and a restore of one time the greater source decides", [drawn(1, text(0, 0, "gone")), drawn(1, Aim(RESTORE, 7, 1), 8, 11), drawn(1, Aim(DELETE, 7, 1), 9, 11)]),
    ("a delete of a delete has no effect", [drawn(1, text(0, 0, "gone")), drawn(1, Aim(DELETE, 7, 1), 8, 11), drawn(2, Aim(DELETE, 8, 1), 9, 12)]),
    ("the first drawop of a name counts", [drawn(1, text(0, 0, "first")), drawn(1, text(0, 1, "second")), drawn(1, text(0, 0, "first"))]),
    ("another page is another sheet", [drawn(1, text(0, 0, "here")), drawn(1, text(0, 1, "there"), page=Page(7, 2))]),
    ("numbers below the greatest are missing", [drawn(5, text(0, 0, "five")), drawn(2, text(0, 1, "two")), drawn(3, text(0, 2, "three"), 9)]),
    ("what lies outside the canvas is not shown", [drawn(1, line(55, 0, 65, 0)), drawn(2, text(58, 1, "cut off")), drawn(3, frame(50, 20, 4095, 4095))]),
]


def datagram_vectors() -> dict[str, object]:
    return {
        "what": "Datagrams in hexadecimal and in words; bytes that are no datagrams, with the number of the fault; and lines that are none, with the word that is wrong (docs/PROTOCOL.md, docs/SCRIPTS.md)",
        "datagrams": [{"words": words_of(it), "hex": write(it).hex()} for it in DATAGRAMS],
        "not datagrams": [{"why": why, "fault": fault, "hex": digits} for digits, fault, why in NOT_DATAGRAMS],
        "not words": [{"words": words, "fault": fault} for words, fault in NOT_WORDS],
    }


def page_vector(shows: str, came: list[Drawop]) -> dict[str, object]:
    held = painting.held(came)
    rows = [row.rstrip() for row in painting.canvas(held, FIRST, WIDTH, HEIGHT)]
    while rows and not rows[-1]:
        rows.pop()
    return {
        "shows": shows,
        "page": page_words(FIRST),
        "came": [words_of(it) for it in came],
        "rows": rows,
        "marks": [f"{source} {high}" for source, high in painting.marks(held, FIRST).items()],
        "missing": [f"{source} {seq}" for source, seq in painting.missing(held, FIRST)],
        "digest": painting.digest(held, FIRST),
        "told": painting.told(held, FIRST, TELLER).hex(),
    }


def write_all(folder: Path) -> None:
    what = f"Drawops in the order in which they came, and what page 7/1 then shows in {WIDTH} columns and {HEIGHT} rows (spaces at the ends are left out), reports and lacks, its digest, and the datagram by which member {TELLER} tells it (docs/PROTOCOL.md)"
    pages = {"what": what, "pages": [page_vector(shows, came) for shows, came in PAGES]}
    timers, sealed, tagged = timer_vectors.all_vectors(), sealed_vectors.all_vectors(), sealed_vectors.tagged_vectors()
    for name, content in (("datagrams.json", datagram_vectors()), ("pages.json", pages), ("timers.json", timers), ("sealed.json", sealed), ("tagged.json", tagged)):
        (folder / name).write_text(json.dumps(content, indent=1) + "\n")


if __name__ == "__main__":
    write_all(Path(__file__).resolve().parents[2] / "docs/vectors")
