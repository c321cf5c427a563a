"""Plots: their numbers, names and words."""

from __future__ import annotations

import xml.etree.ElementTree as xml
from collections import Counter

from laboratory.network import by_delay
from laboratory.plots import Panel, Plot, Point, Series, log_ticks, spread, ticks


def test_numbers_of_plots_are_round() -> None:
    assert ticks(7) == [0, 2, 4, 6, 8] and ticks(1) == [0, 0.2, 0.4, 0.6, 0.8, 1], (ticks(7), ticks(1))
    assert log_ticks(3, 40) == [2, 5, 10, 20, 50] and log_ticks(1, 100) == [1, 2, 5, 10, 20, 50, 100], (log_ticks(3, 40), log_ticks(1, 100))
    assert by_delay([(1, 5), (2, 3), (3, 5)]) == [(3, (2,)), (5, (1, 3))], "groups of one delay"


def test_names_of_series_do_not_meet() -> None:
    """Four names want to stand at 10, 12, 14 and 100, 15 apart and from 0 to 100: the first three move down."""
    assert spread([10, 12, 14, 100], 0, 100, 15) == [10, 25, 40, 100]
    assert spread([99, 98], 0, 100, 15) == [100, 85]


def test_plots_join_what_follows_and_name_each_series() -> None:
    series = [Series("one < two", [Point(1, 1, 0.5, 1.5), Point(2, 3)]), Series("alone", [Point(4, 2)], line=False)]
    text = Plot("a < b", [Panel("left", "x", "y", series, log_x=True)]).svg()
    root = xml.fromstring(text)
    tags = Counter(part.tag.rpartition("}")[2] for part in root.iter())
    assert "prefers-color-scheme" in text and tags["polyline"] == 1 and ">one &lt; two<" in text and ">alone<" in text, text
    words = Plot("t", [Panel("", "x", "y", [Series("s", [Point(0, 1), Point(1, 2)])], words=("LAN", "broker"))]).svg()
    assert "polyline" not in words and ">LAN<" in words and ">broker<" in words, "networks are not joined by a line"


def test_long_words_stand_on_two_lines() -> None:
    """Below seven networks there is room for six letters each. If there are more, the next word is 15 lower; no word is cut."""
    series = [Series("s", [Point(place, 1) for place in range(3)])]
    root = xml.fromstring(Plot("t", [Panel("", "", "y", series, words=("one machine", "5 to 50 ms", "indivisible"))]).svg())
    found = {part.text: float(part.get("y", "0")) for part in root.iter() if part.get("text-anchor") == "middle" and part.text}
    assert found["machine"] == found["50 ms"] == found["one"] + 15 and found["5 to"] == found["indivisible"] == found["one"], found
