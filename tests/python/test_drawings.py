"""Drawings and ink, beside the vectors of the protocol."""

from __future__ import annotations

import json
import math
from typing import Any

import pytest
import wb
from wb.drawings import draft_of

from ..host.program import TOP
from .conftest import raised

VECTORS = TOP / "docs/vectors"
DATAGRAMS = json.loads((VECTORS / "datagrams.json").read_text())["datagrams"]
INK = json.loads((VECTORS / "ink.json").read_text())
NAMELESS = b"\xff" * 4
LETTERS = "Größe\n≈ 漢 \U0001f600, and more than one text of the board takes at most"


@pytest.mark.parametrize("each", DATAGRAMS, ids=[each["words"][:60] for each in DATAGRAMS])
def test_datagrams(each: dict[str, str]) -> None:
    told, datagram = each["words"], bytes.fromhex(each["hex"])
    drawop = wb.drawop_of(datagram)
    assert (drawop and "draw %d %s %d %d %s" % drawop) == (told if told.startswith("draw ") else None)
    if drawop:
        assert str(drawop.drawing) == drawop.operation
        nameless = datagram[:8] + NAMELESS + datagram[12:20] + NAMELESS + datagram[24:]
        is_own = datagram[32] in (4, 5) and datagram[33:] == 2 * NAMELESS
        assert draft_of(drawop.page, drawop.time, drawop.operation) == (None if is_own else nameless)


@pytest.mark.parametrize("words", ["line 0 0 4096 0 *", "line 0 0 4 0 **", 'text 0 0 ""', 'text 0 0 "\U0001f600"', 'text 0 0 "%s"' % ("x" * 65), "delete 1 0",
                                   "frame 0 0 1 1", "circle 1 2 3"])
def test_no_drawing(words: str) -> None:
    assert draft_of(wb.Page(1, 1), 1, words) is None


@pytest.mark.parametrize("each", INK["reads"], ids=[each["what"] for each in INK["reads"]])
def test_ink(each: dict[str, Any]) -> None:
    found, told = wb.ink.read(each["text"]), each["ink"]
    assert found
    points = [(point["x"], point["y"]) for point in told["points"]]
    wanted = (told["kind"], told["colour"], told["width"], told["flag"], told["goesOn"], points, told["letters"])
    assert (*found[:5], [point[:2] for point in found.points], found.letters) == wanted


def test_no_ink() -> None:
    assert [each["text"] for each in INK["plain"] if wb.ink.read(each["text"])] == []


@pytest.mark.parametrize("kind, pressures", [("s", None), ("v", [at % 11 / 10 for at in range(200)])])
def test_strokes(kind: str, pressures: list[float] | None) -> None:
    """A stroke goes by all its points, each text after the first goes on, and pressures are kept."""
    way = [(6400 + 40 * at, 12_000 + round(900 * math.sin(at / 9))) for at in range(200)]
    inks = [ink for text in wb.ink.stroke(way, colour=1, kind=kind, pressures=pressures) if (ink := wb.ink.read(text))]
    points = [point for ink in inks for point in (ink.points[1:] if ink.goes_on else ink.points)]
    assert max(min(max(abs(x - point.x), abs(y - point.y)) for point in points) for x, y in way) <= 4
    assert [ink.goes_on for ink in inks] == [False] + [True] * (len(inks) - 1)
    if pressures:
        assert [point.pressure for point in points] == [round(90 * each) for each in pressures]


def test_long_stroke() -> None:
    """It comes to its end."""
    last = wb.ink.read(wb.ink.stroke([(0, 0), (262_143, 491_519)], scale=7)[-1])
    assert last and max(abs(last.points[-1].x - 262_143), abs(last.points[-1].y - 491_519)) < 640


def test_letters() -> None:
    """Those of all languages."""
    inks = [wb.ink.read(text) for text in wb.ink.words((1, 2), LETTERS)]
    assert ("".join(each.letters for each in inks if each), len(inks)) == (LETTERS, 2)


def test_not_written() -> None:
    """What is no ink."""
    calls = [lambda: wb.ink.stroke([]), lambda: wb.ink.link((0, 0), "ftp://x"), lambda: wb.ink.shape("r", [(0, 0)]), lambda: wb.ink.words((0, 0), "a", colour=10)]
    assert [raised(call) for call in calls] == ["ValueError"] * 4
