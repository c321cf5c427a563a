"""What the judgement of a host rests on: each datagram of the table of cases is one, and a start hands on what the record says of strangers."""
from __future__ import annotations

import os
import subprocess
from typing import List

from live.board import owners_in
from live.held import held_of
from live.record import Act
from ..facts import Facts
from ..judging.cases import cases


def test_datagrams(facts: Facts) -> None:
    """What comes in the cases is what the program says."""
    said = [step["came"] for case in cases() for step in case["steps"] if "came" in step]
    lines = sorted({line.replace("{}", "7") for line in said})
    given = "".join(line + "\n" for line in lines)
    hexed = subprocess.run([os.environ["WB_PROGRAM"], "hex"], input=given, stdout=subprocess.PIPE, text=True, check=False).stdout
    told = subprocess.run([os.environ["WB_PROGRAM"], "words"], input=hexed, stdout=subprocess.PIPE, text=True, check=False).stdout
    facts("each datagram of the table is one", told.replace("arrive ", ""), given)


def digits_of(words: List[str]) -> List[str]:
    told = subprocess.run([os.environ["WB_PROGRAM"], "hex"], input="".join(line + "\n" for line in words), stdout=subprocess.PIPE, text=True, check=False)
    return [line.split(" ")[1] for line in told.stdout.split("\n")[:-1]]


def test_record(facts: Facts) -> None:
    """In a record a stranger's drawop is in words, until it is there once more in hexadecimal."""
    lines = ["draw 9 1/1 %d 5 line 0 0 4 0 o" % number for number in (1, 2, 3)]
    digits = digits_of(lines)
    acts = ["board 7 100 1 42", *lines, "say draw 7 1/1 1 5 line 0 0 4 0 o", "datagram " + digits[1]]
    made = held_of(os.environ["WB_PROGRAM"], map(Act, acts))
    facts("what is a stranger's", made.strange, {(9, (1, 1), 1), (9, (1, 1), 3)})
    facts("what is held", made.datagrams[:3], digits)
    facts("the host gets what the record has", made.lines, acts[1:])


def test_owners(facts: Facts) -> None:
    """Who owns numbers a host gets beside what is held, in the order of the record."""
    owners = ["owner 9 5@6", "owner 8 7@18446744073709551615", "owner 9 7@8"]
    made = held_of("", map(Act, ["board 7 100 1 42", "tick 5", *owners]))
    facts("each line", (made.owners, made.lines, made.datagrams), (owners, [], []))
    facts("of each number the first holds", owners_in(owners), {"9": owners[0], "8": owners[1]})


def test_moment(facts: Facts) -> None:
    """A start goes on after the greatest moment of the record, wherever that stands."""
    facts("the moment", held_of("", map(Act, ["board 7 100 1 42", "tick 5", "tick 9", "tick 7"])).moment, 9)
    facts("of a board on which nothing came", held_of("", [Act("board 7 100 1 42")]).moment, 0)


def test_marks(facts: Facts) -> None:
    """Of reports in a record the host gets the mark of our number alone."""
    words = ["session-message 9 5 1/1 7=4 8=3", "page-state 9 1/1 8=3", "say page-state 7 1/1 7=5", "page-state 9 1/1 7=5"]
    hexed = ["hear " + digits_of(["page-state 9 1/1 8=3"])[0], "datagram 5742"]
    made = held_of(os.environ["WB_PROGRAM"], map(Act, ["board 7 100 1 42", *words, *hexed]))
    facts("of each", made.lines, ["page-state 9 1/1 7=4", "#", "page-state 7 1/1 7=5", "page-state 9 1/1 7=5", "#", "#"])
    facts("none is left out", len(made.datagrams), len(made.lines))
