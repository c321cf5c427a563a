"""The sessions of `terms_can_be_kept`: the program is handed their lines, and prints what the other host is handed by them."""

from __future__ import annotations

import re
from typing import NamedTuple

import pytest

from ..host import datagrams
from ..host.program import TOP, Dialog

SPECS = TOP / "crates/wb_kept_progress/specs"
PAGE, NOWHERE = (10, 1), (0, 0)
FRAME = "frame 0 0 4 2 *"
DELIVERY = 50_000
LINE = re.compile(r"    call (\d+) ([01]) \((\w+) (\d+)(?: (.*))?\) ∷")


class Example(NamedTuple):
    """The file that has the lines of a session; from when on nothing is lost; the rate of reports; how many drawings there are; which gaps the second
    host has until then; and how many datagrams come in before that no host sent."""

    file: str
    quiet: int
    rate: int
    drawings: int
    gaps: list[str]
    forged: int = 0


EXAMPLES = {
    "lively": Example("Examples.antt", 2_000_000, 4_000, 1, ["gaps 0"]),
    "patient": Example("Examples.antt", 70_000_000, 4_000, 1, ["gaps 0"]),
    "holed": Example("Holed.antt", 2_000_000, 1, 3, ["gaps 1", "10 1 2"]),
    "once_far": Example("OnceFar.antt", 8_000_000, 4_000, 1, ["gaps 0"], 1),
}


class Called(NamedTuple):
    """A line of a session: when, at which host, and what it says."""

    time: int
    place: int
    word: str
    rest: str


def digits(term: str, drawings: int) -> str:
    """The bytes of a datagram that stands there as a term. Marks are those of all drawings, and without a number the first drawing is meant."""
    kind, *words = term.replace("(", "").replace(")", "").split()
    marks = [(10, drawings)] if {"marks", "tops"} & {*words} else []
    numbers = [int(word) for word in words if word.isdigit()]
    if kind == "Draw":
        drawn = numbers[0] if numbers else 1
        return datagrams.drawop(10, PAGE, drawn, 4 + drawn, datagrams.frame(0, 0, 4, 2, "*"))
    if kind == "Session":
        sender, sent, *heard = numbers
        echoes = [(heard[0], heard[1], heard[2])] if heard else []
        return datagrams.session(sender, sent, PAGE if "page" in words else NOWHERE, marks, echoes)
    if kind == "Request":
        return datagrams.request(numbers[0], 10, PAGE, numbers[1] if "numbered" in words else 1)
    if kind == "PageState":
        return datagrams.page_state(numbers[0], PAGE, marks)
    assert kind == "AskPages"
    return datagrams.ask_pages(numbers[0])


def lines_of(name: str) -> list[Called]:
    """The lines of a session, the oldest first."""
    example = EXAMPLES[name]
    _, _, text = (SPECS / example.file).read_text().partition(f"\n{name}_lines =\n")
    called = []
    for line in text.partition("    []\n")[0].splitlines():
        found = LINE.fullmatch(line)
        assert found, line
        time, place, kind, moment, rest = found.groups()
        if kind == "Ticked":
            word, more = "tick", ""
        elif kind == "Added":
            page, at, figure = rest.split()
            assert (page, figure) == ("page", "frame")
            word, more = "add", f" {at} 10/1 {FRAME}"
        else:
            word, more = "came", f" {digits(rest, example.drawings)}"
        called.append(Called(int(time), int(place), word, moment + more))
    return called[::-1]


def opened(place: int, rate: int) -> Dialog:
    host = Dialog()
    for line in f"board {10 + place} 8 1 {100 + place}", "tick 1", f"keep {rate} 0":
        host.ask(line)
    return host


def shown(host: Dialog, question: str) -> list[str]:
    return host.ask(f"{question} 10 1").splitlines()[:-1]


@pytest.mark.parametrize("name", EXAMPLES)
def test_lines(name: str) -> None:
    """What is handed in was printed by the other host shortly before, and what is printed from T on is handed in; drawings are lost, and come."""
    example = EXAMPLES[name]
    hosts = [opened(place, example.rate) for place in (0, 1)]
    way: list[tuple[int, int, str]] = []  # what was printed and is not handed in yet, from when, and for whom
    lines = lines_of(name)
    gaps: list[str] = []
    forged: list[Called] = []
    assert [line.word for line in lines].count("add") == example.drawings
    for line in lines:
        *block, closing = hosts[line.place].ask(f"{line.word} {line.rest}").splitlines()
        assert closing.startswith("ok "), f"{line}: {closing}"
        if line.word == "came":
            found = [sent for sent in way if sent[1:] == (line.place, line.rest.split()[1]) and line.time <= sent[0] + DELIVERY]
            if found:
                way.remove(found[0])
            else:
                forged.append(line)
        printed = [told.removeprefix("send ") for told in block if told.startswith("send ")]
        way += [(line.time, 1 - line.place, told) for told in printed]
        if line.time <= example.quiet:
            gaps = shown(hosts[1], "gaps")
            assert shown(hosts[1], "view")[0] != f"view {example.drawings}", "it lacks a drawing"
    assert gaps == example.gaps
    assert (len(forged), all(line.time <= example.quiet for line in forged)) == (example.forged, True), f"nobody printed {forged} shortly before"
    assert [sent for sent in way if example.quiet < sent[0] and sent[0] + DELIVERY < lines[-1].time] == []
    view = [f"view {example.drawings}", *(f"draw 10 10/1 {number} {4 + number} {FRAME}" for number in range(1, example.drawings + 1))]
    shows = [[shown(host, question) for question in ("report", "gaps", "view")] for host in hosts]
    assert shows == [[["report 1", f"10 {example.drawings}"], ["gaps 0"], view]] * 2
