"""What a record has made: its board, the moment of its last line, and the datagrams that came in or went out."""
from __future__ import annotations

import subprocess
from typing import Dict, Iterable, List, NamedTuple, Optional, Sequence, Set

from .record import OWNER, Act, RecordFault
from .views import Name, Report, name_in, name_of, page_text

# what of a datagram in words changes what is held, or the next number
REPORTS = ("page-state ", "session-message ")
WORDS = ("draw ", *REPORTS)
HEX = ("datagram ", "arrive ", "hear ")


# a line of a record that changes nothing
NOTHING = "#"


class Held(NamedTuple):
    """The line of a board, a moment, datagrams in hexadecimal, the line of each of these that a judged host takes, which drawops of these no
    member gave, and who owns numbers."""

    board: str
    moment: int
    datagrams: List[str]
    lines: List[str]
    strange: Set[Name]
    owners: List[str]


def held_of(program: str, acts: Iterable[Act]) -> Held:
    """Of the lines of a record. What a drawop in words is as a datagram, `wb hex` says. One that no member gave is in words, and once more in
    hexadecimal if a member came to be known that gave it."""
    board, *lines = acts
    for line in lines:
        if line.startswith("keep "):
            raise line.fault("another driver's host kept itself by it: the record stays as it is")
    told = iter(digits_of(program, said_in(lines)))
    datagrams: List[str] = []
    given: List[str] = []
    strange: Dict[str, Optional[Name]] = {}
    for line, said in [(line, next(told) if words_in(line) else str(line)) for line in lines]:
        if said.startswith(HEX):
            digits = said.split(" ")[1]
            datagrams.append(digits)
            given.append(drawop_in(line, digits) if name_of(digits) else mark_in(line, int(board.split(" ")[1])))
            strange[digits] = name_in(line) if line.startswith("draw ") else None
    moments = [int(line[5:]) for line in lines if line.startswith("tick ")]
    owners = [str(line) for line in lines if line.startswith(OWNER)]
    return Held(board, max(moments, default=0), datagrams, given, {name for name in strange.values() if name}, owners)


def drawop_in(line: str, digits: str) -> str:
    """The line of a drawop: as it stands if it says it in words."""
    return str(line) if words_in(line) else "datagram " + digits


def mark_in(line: str, me: int) -> str:
    """The line of a report that has our mark alone, if one in words has it."""
    words = words_in(line)
    report = Report(words) if words.startswith(REPORTS) else None
    if report is None or me not in report.marks:
        return NOTHING
    return "page-state %d %s %d=%d" % (report.speaker, page_text(report.page), me, report.marks[me])


def words_in(line: str) -> str:
    """The datagram that a line says in words; empty if it says none."""
    words = line[4:] if line.startswith("say ") else line
    return words if words.startswith(WORDS) else ""


def said_in(lines: Iterable[Act]) -> List[Act]:
    return [line for line in lines if words_in(line)]


def checked(program: str, acts: Iterable[Act]) -> List[Act]:
    """The lines of a record, each datagram of which is one."""
    lines = list(acts)
    digits_of(program, said_in(lines))
    return lines


def digits_of(program: str, lines: Sequence[Act]) -> List[str]:
    """The digits of lines that say datagrams. RecordFault at one that says none."""
    if not lines:
        return []
    given = "".join(words_in(line) + "\n" for line in lines)
    told = subprocess.run([program, "hex", "--keep-going"], input=given, stdout=subprocess.PIPE, encoding="latin-1", check=False).stdout.split("\n")[:-1]
    if len(told) != len(lines):
        raise RecordFault("the record can't be read: wb hex ended")
    for line, digits in zip(lines, told):
        if not digits.startswith(HEX):
            raise line.fault("it says no datagram (%s)" % digits.split(": ", 1)[-1])
    return told
