"""A record as a film: its moments, its scenes, and where it is."""
from __future__ import annotations

from types import SimpleNamespace
from typing import Any, List

from live.film import Film, scenes_of, times_of

from ..facts import Facts

LINES = ["tick 1000000", "say draw a", "tick 3000000", "say draw b", "tick 90000000", "say draw c"]


class Clock:
    def __init__(self) -> None:
        self.moment = 0

    def __call__(self) -> int:
        return self.moment


def test_times(facts: Facts) -> None:
    facts("moments of the lines, with pauses shortened", times_of(LINES), [0, 0, 2_000_000, 2_000_000, 7_000_000, 7_000_000])
    facts("of none", times_of([]), [])


def test_film(facts: Facts) -> None:
    clock = Clock()
    film = Film(LINES, clock)
    facts("at first", (film.at(), film.last, film.due()), (0, 7_000_000, 0))
    facts("the lines at the beginning", list(film.take(100)), LINES[:2])
    facts("the next is due", film.due(), 2_000_000)
    clock.moment = 1_500_000
    film.change(speed=4.0)
    facts("faster", (film.at(), film.due()), (1_500_000, 1_625_000))
    clock.moment = 1_700_000
    facts("lines that are due", list(film.take(1)), LINES[2:3])
    film.change(is_stopped=True)
    clock.moment = 99_000_000
    facts("stopped", (film.at(), film.due()), (2_300_000, None))
    film.begin_at(10**9)
    rest: List[str] = list(film.take(100))
    facts("a jump to the end", (film.at(), rest, film.due()), (7_000_000, LINES[3:], None))


def test_scenes(facts: Facts) -> None:
    """Who drew what when: a drawop that stands in a record twice, first as a stranger's, is one scene, at its first moment."""
    def line(source: int, seq: int, kind: str = "line 0 0 4 0 *") -> str:
        return "draw %d 7/1 %d 10 %s" % (source, seq, kind)

    told = {"aa": line(9, 2), "bb": line(8, 1), "cc": "session-message 9 5 7/1", "dd": None}
    words: Any = SimpleNamespace(all=lambda digits: [SimpleNamespace(words=told[each]) for each in digits])
    lines = [line(9, 2), "tick 1000000", "say " + line(7, 1, "delete 9 2"), "tick 2000000", "datagram aa", "datagram bb", "datagram cc", "datagram dd", "tick 2500000", line(9, 1), "tick 4000000"]
    facts("each once, and one that came after a later one of its source was late", scenes_of(Film(lines, Clock()), words), {
        "last": 3_000, "scenes": [[0, 9, "line", False], [0, 7, "delete", False], [1_000, 8, "line", False], [1_500, 9, "line", True]],
    })
