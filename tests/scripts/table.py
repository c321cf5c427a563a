"""Scripts, what each prints and how it ends, worked out by hand: those of transcripts/*.md, and those that are made here. In a line `board`, W stands for
the number of workers."""

from __future__ import annotations

import re
from dataclasses import dataclass
from itertools import permutations
from pathlib import Path

from ..host import datagrams
from ..host.datagrams import Words, delete, drawn, drawop, line, request, restore, session, text
from ..transcripts import SCRIPT, parted, read


@dataclass(frozen=True)
class Script:
    """What a script shows, its lines, what it prints, and its line at standard error: none where it runs to its end."""

    shows: str
    lines: str
    prints: str
    ends: str = ""


PAGE, SLOPES, FRAMED, DOTS = (7, 1), (7, 2), (7, 3), (7, 4)
HIGHEST = 2**32 - 1

# Three drawops of one time: a line, and two texts that meet in one cell
STARS = drawop(7, PAGE, 1, 10, line(0, 1, 4, 1, "*"))
AB = drawop(8, PAGE, 1, 10, text(1, 1, "ab"))
CD = drawop(9, PAGE, 1, 10, text(2, 1, "cd"))
# What takes the stars off the page, what puts them back, and what takes them off once more. The first is older than they are,
# and the other two have one time, so that the source decides
DELETED = drawop(7, PAGE, 2, 5, delete(7, 1))
RESTORED = drawop(8, PAGE, 4, 6, restore(7, 1))
DELETED_AGAIN = drawop(9, PAGE, 2, 6, delete(7, 1))
# A delete of a delete, and of what never comes
DELETE_DELETED = drawop(8, PAGE, 2, 20, delete(7, 2))
NOTHING_DELETED = drawop(8, PAGE, 3, 20, delete(9, 9))
# One letter more than version 1 can say
LONG = drawop(8, PAGE, 5, 30, text(0, 0, 41 * "x"))


def arrivals(*datagrams: str) -> str:
    """Lines of a transcript, behind the mark of the first."""
    return "\n> ".join(f"arrive {datagram}" for datagram in datagrams)


def dot(seq: int) -> str:
    return drawop(7, DOTS, seq, seq, line(0, 0, 0, 0, "."))


def told(high: int) -> str:
    """Member 8 reports that source 7 drew this many dots."""
    return session(8, 0, DOTS, [(7, high)], [])


def many_sources() -> str:
    """Seventeen lines that tell of 4,000 sources each, 68,000 in all: a page has 65,535 at most."""
    each = (session(8, 0, DOTS, [(4000 * part + at, 1) for at in range(1, 4001)], []) for part in range(17))
    return "\n".join(f"hear {datagram}" for datagram in each)


def of_version(version: int, datagram: str) -> str:
    """The datagram, with another version in its header."""
    return f"{datagram[:4]}{version:02x}{datagram[6:]}"


def written(file: str) -> list[Script]:
    """Those of a file of transcripts."""
    found = []
    for it in read(Path(__file__).parent / "transcripts" / file, SCRIPT, {**vars(datagrams), **globals()}):
        lines, prints = parted(it.text)
        found.append(Script(it.shows, lines, prints, "".join(re.findall(r"^! (.*)", it.text, re.MULTILINE))))
    return found


DRAWN, KNOWN, WORDED = written("drawn.md"), written("known.md"), written("worded.md")
REFUSED = [*written("refused.md"), Script("more sources than a page has", f"board 1 16 W 42\n{many_sources()}", "", "wb: line 18: too many")]

# A page is the same in whatever order its drawops arrive
ORDERS = [
    Script(f"deletes and restores, order {number}", "\n".join(["board 1 16 W 42", *(f"arrive {it}" for it in order), "show 7 1 5 3"]),
           "batch 4 0 0 0\n" + "     \n" * 3)
    for number, order in enumerate(permutations([DELETED, STARS, RESTORED, DELETED_AGAIN]), 1)
]


def refused(line: str, fault: str) -> Script:
    """A batch ends before the line is refused."""
    return Script(f"{line[:60] or 'nothing'}: {fault}", f"board 1 16 W 42\narrive {STARS}\n{line}", "batch 1 0 0 0", f"wb: line 3: {fault}")


NOT_WORDED = [
    refused("datagram", "words"),
    refused(f"datagram {STARS} {STARS}", "words"),
    refused("datagram 5", "hex"),
    refused("datagram 5g", "hex"),
    refused("datagram 57", "datagram 1"),
    refused(f"datagram {of_version(3, STARS)}", "datagram 3"),
    refused("datagrams 57", "unknown"),
    refused("Datagram 57", "unknown"),
    refused("draw", "unknown"),
    refused("draw ", "word 2: number"),
    refused("draw 07 7/1 1 10 line 0 1 4 1 *", "word 2: number"),
    refused("draw 7 7 1 10 line 0 1 4 1 *", "word 3: page"),
    refused("draw 7 7/1 0 10 line 0 1 4 1 *", "word 4: sequence number 0"),
    refused("draw 7 7/1 1 18446744073709551616 line 0 1 4 1 *", "word 5: number"),
    refused("draw 7 7/1 1 10 circle 0 1 4", "word 6: operation"),
    refused("draw 7 7/1 1 10 line 0 1 4096 1 *", "word 9: number"),
    refused("draw 7 7/1 1 10 line 0 1 4 1 **", "word 11: glyph"),
    refused("draw 7 7/1 1 10 line 0 1 4 1 * *", "word 12: one too many"),
    refused("draw 7 7/1 1 10 text 0 1 ab", "word 9: text"),
    refused("draw 7 7/1 1 10 text 0 1 \"\"", "word 9: text of 0 or over 64 bytes"),
    refused("draw 7 7/1 1 10 delete 7 1", "word 8: target is the drawop itself"),
    refused("draw 7 7/1 1 10 line 0 1 4 1 *\r\r", "word 11: glyph"),
    refused("draw  7 7/1 1 10 line 0 1 4 1 *", "word 2: number"),
    refused(" draw 7 7/1 1 10 line 0 1 4 1 *", "unknown"),
    refused("draw\t7", "unknown"),
    refused("request 8 7 7 4", "word 4: page"),
    refused("request 8 7 7/4 0", "word 5: sequence number 0"),
    refused("ask-pages 8 9", "word 3: one too many"),
    refused("page-state 8 7/1 7:3", "word 4: mark"),
    refused("session-message 8 0 7/4 7=3 7=4", "word 6: order"),
    refused("session-message 8 0 7/4 7=3 8@1", "word 6: echo"),
]

# Each datagram has one version, the first that can say it
VERSIONS = [
    Script(f"{what} as version {version}", f"board 1 16 W 42\narrive {of_version(version, datagram)}", "", f"wb: line 2: datagram {fault}")
    for what, datagram, version, fault in [
        ("a text of 41 letters", LONG, 1, 8),
        ("a short text", AB, 2, 8),
        ("a restore", RESTORED, 1, 7),
        ("a line", STARS, 2, 7),
        ("a delete", DELETED, 2, 7),
        ("a session message", told(7), 2, 4),
        ("a line", STARS, 3, 3),
    ]
]

# The greatest delay to a source, so that the moments at which requests are due tell their random words apart
DELAY = 2**24 - 1


def due_by(seed: int) -> list[tuple[int, int]]:
    """When each of the three dots that a host looks for first is asked for, the earliest first: with C1 = C2 = 2, a word each."""
    words = Words(seed)
    return sorted((drawn(0, DELAY, words.next(), 2, 2), number) for number in (1, 2, 3))


def asked(number: int) -> str:
    return f"send {request(1, 7, DOTS, number)}"


def looked_for(seed: int) -> str:
    """Source 7 drew three dots, and none of them is here."""
    return f"board 1 16 W {seed}\ndistance 7 {DELAY}\nhear {told(3)}\nlook 7 4"


def asks_in_time(seed: int) -> Script:
    """Nothing is asked for one microsecond before it is due."""
    ticks = "\n".join(f"tick {moment - 1}\ntick {moment}" for moment, _ in due_by(seed))
    asks = "\n".join(asked(number) for _, number in due_by(seed))
    return Script(f"the random words of the seed {seed}", f"{looked_for(seed)}\n{ticks}", f"look 3\n{asks}")


TUNING = (3, 16, 1, 11)


def retuned(seed: int) -> Script:
    """A timer that stands keeps its moment. The name that is asked for again behind it, and the one that is missed later, have other
    constants, and the words that come next."""
    words = Words(seed)
    first = drawn(0, DELAY, words.next(), 2, 2)
    again = drawn(first, DELAY, words.next(), 3, 16, 1)
    later = drawn(first, DELAY, words.next(), 3, 16)
    ticks = [first - 1, first, *sorted([again - 1, again, later - 1, later])]
    asks = [asked(number) for _, number in sorted([(first, 1), (again, 1), (later, 2)])]
    lines = [f"board 1 16 W {seed}", f"distance 7 {DELAY}", f"hear {told(1)}", "look 7 4", "tuning 3 16 1 11",
             f"tick {ticks[0]}", f"tick {ticks[1]}", f"hear {told(2)}", "look 7 4", *(f"tick {moment}" for moment in ticks[2:])]
    return Script(f"other constants while a timer stands, with the seed {seed}", "\n".join(lines), "\n".join(["look 1", asks[0], "look 1", *asks[1:]]))


RANDOM = [
    *(retuned(seed) for seed in (1, 42)),
    *(asks_in_time(seed) for seed in (0, 42, 2**64 - 1)),
    Script("what is due at once is asked for in the order of the names", f"{looked_for(42)}\ntick {4 * DELAY}", "\n".join(["look 3", asked(1), asked(2), asked(3)])),
]
