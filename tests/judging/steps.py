"""How cases are written: a member of number 1 with 4,096 cells, whose clock begins at 0, and what comes to it."""

from __future__ import annotations

from typing import Any, Dict, List

from .reference import SECOND

S = SECOND
WALL = 1_764_000_000 * S

Step = Dict[str, Any]


def case(name: str, *steps: Any, **start: Any) -> Dict[str, Any]:
    """A case, of steps and lists of steps."""
    flat: List[Step] = []
    for step in steps:
        flat += step if isinstance(step, list) else [step]
    return {"name": name, "judge": {"me": 1, "cells": 4096, "now": 0, "wall": WALL, **start}, "steps": flat}


def came(now: int, origin: str, words: str, want: str, **facts: Any) -> Step:
    """A datagram in words came from an origin, with facts about the host; `want` is what becomes of it."""
    return {"now": now, "from": origin, "came": words, **facts, "want": want}


def loop(first: int, last: int, pause: int, step: Step) -> Step:
    """The step once for each number, which replaces `{}`, with a pause in microseconds."""
    return {"for": [first, last, pause], **step}


def sent(now: int) -> Step:
    return {"now": now, "sent": True}


def ask(now: int, want: Any, **question: Any) -> Step:
    return {"now": now, **question, "want": want}


def report(number: Any, *more: str) -> str:
    """A session message of a number, with marks and echoes in words."""
    return " ".join(["session-message %s 5 1/1" % number, *more])


def line(source: Any, number: Any = 1, time: int = WALL, page: str = "1/1") -> str:
    return "draw %s %s %s %d line 0 0 4 0 *" % (source, page, number, time)


def delete(source: Any, number: Any = 1, time: int = WALL) -> str:
    return "draw %s 1/1 %s %d delete 7 77" % (source, number, time)


def met(number: int = 2, origin: str = "b", now: int = 0) -> List[Step]:
    """We report, and a member answers at once."""
    return [sent(now), came(now, origin, report(number, "1@%d+0" % now), "in")]
