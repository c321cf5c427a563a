"""A record as a film: where it is, how fast it goes, and what is to be seen when."""
from __future__ import annotations

from bisect import bisect_right
from typing import Any, Callable, Dict, List, Optional, Sequence, Tuple

from .clock import SECOND
from .views import Drawop
from .words import Words

# a longer pause of the record is shortened to this
MOST_PAUSE = 5 * SECOND

# scenes that are shown; of more, some are left out
MOST_SCENES = 2_000

SPEEDS = (0.1, 100.0)


class Film:
    """The lines of a record, each with its moment in the film, in microseconds from the first; and the place where it is."""

    def __init__(self, lines: Sequence[str], clock: Callable[[], int]) -> None:
        self.lines = lines
        self.times = times_of(lines)
        self.last = self.times[-1] if self.times else 0
        self.clock = clock
        self.next = 0
        self.speed = 1.0
        self.is_stopped = False
        self.begin_at(0)

    def begin_at(self, moment: int) -> None:
        """From now on it goes on from this moment."""
        self.from_moment = min(max(moment, 0), self.last)
        self.since = self.clock()

    def at(self) -> int:
        """The moment where it is."""
        passed = 0 if self.is_stopped else int((self.clock() - self.since) * self.speed)
        return min(self.last, self.from_moment + passed)

    def due(self) -> Optional[int]:
        """When the next line is due by the clock; None where it is stopped, or at its end."""
        if self.is_stopped or self.next >= len(self.lines):
            return None
        return self.since + int((self.times[self.next] - self.from_moment) / self.speed)

    def change(self, speed: Optional[float] = None, is_stopped: Optional[bool] = None) -> None:
        """Goes on from where it is in another way."""
        self.begin_at(self.at())
        self.speed = self.speed if speed is None else speed
        self.is_stopped = self.is_stopped if is_stopped is None else is_stopped

    def take(self, most: int) -> Sequence[str]:
        """The lines up to where it is that were not taken yet, some at a time."""
        end = min(bisect_right(self.times, self.at()), self.next + most)
        taken = self.lines[self.next:end]
        self.next = max(self.next, end)
        return taken


def times_of(lines: Sequence[str]) -> List[int]:
    """The moment of each line in the film: a tick passes time, any other line is due at once."""
    times: List[int] = []
    moment: Optional[int] = None
    at = 0
    for line in lines:
        if line.startswith("tick "):
            now = int(line[5:])
            at += 0 if moment is None else min(max(0, now - moment), MOST_PAUSE)
            moment = now
        times.append(at)
    return times


def drawops_of(film: Film, words: Words) -> List[Tuple[int, Drawop]]:
    """The drawops of a record, each with its moment."""
    said = [(time, line[line.index("draw "):]) for time, line in zip(film.times, film.lines) if line.startswith(("say draw ", "draw "))]
    came = [(time, line[9:]) for time, line in zip(film.times, film.lines) if line.startswith("datagram ")]
    told = [(time, each.words) for (time, _), each in zip(came, words.all([digits for _, digits in came]))]
    first: Dict[str, int] = {}  # what a stranger gave stands there again once it is a member's
    for time, text in sorted(said + told, key=lambda each: each[0]):
        if text and text.startswith("draw "):
            first.setdefault(text, time)
    return [(time, Drawop(text)) for text, time in first.items()]


def scenes_of(film: Film, words: Words) -> Dict[str, Any]:
    """Who drew what when, in milliseconds. One that came after a later one of its source was lost at first, or late."""
    tops: Dict[Any, int] = {}
    scenes: List[List[Any]] = []
    for time, drawop in drawops_of(film, words):
        source, page, seq = drawop.name
        top = tops.get((source, page), 0)
        tops[source, page] = max(top, seq)
        scenes.append([time // 1000, source, drawop.kind, seq < top])
    step = 1 + len(scenes) // MOST_SCENES
    return {"last": film.last // 1000, "scenes": scenes[::step]}
