"""Walks at random: whatever comes, in any order. What becomes of each step the reference says."""

from __future__ import annotations

import random
from typing import Any, Dict, List

from .steps import S, WALL, case, delete, line, report
from .table import Player

WALKS, STEPS = 16, 60

PAUSES = [0, 1, 1_000, 200_000, 3 * S, 70 * S]
ORIGINS = ["a", "b", "c", "kept/anna", "kept/bob", "kept/bob/t"]


class Walk:
    """One member to which anything comes."""

    def __init__(self, seed: int) -> None:
        self.random = random.Random(seed)
        self.now = 0
        self.reports = [0]

    def number(self) -> int:
        return self.random.randrange(1, 6)

    def datagram(self) -> str:
        number, time = self.number(), WALL + self.random.choice([0, self.now, 1_800 * S, 3 * 86_400 * S])
        kind, seq = self.random.randrange(8), self.random.randrange(1, 30) + self.random.choice([0, 0, 0, 60])
        if kind < 3:
            return line(number, seq, time, "1/%d" % self.random.randrange(3))
        if kind == 3:
            return delete(number, seq, time)
        if kind < 6:
            return report(number, *self.marks(), *self.echo())
        return self.random.choice(["request %d %d 1/1 %d" % (number, self.number(), seq), "ask-pages %d" % number, "page-state %d 1/1 3=%d" % (number, seq + 60)])

    def marks(self) -> List[str]:
        return ["1=%d" % self.random.choice([1, 9, 70_000])] if self.random.random() < 0.3 else []

    def echo(self) -> List[str]:
        return ["1@%d+0" % self.random.choice([*self.reports[-3:], self.now])] if self.random.random() < 0.6 else []

    def step(self) -> Dict[str, Any]:
        self.now += self.random.choice(PAUSES)
        what = self.random.randrange(20)
        if what < 15:
            facts = {"held": self.random.choice([0, 0, 0, 61, 62]), "listens": self.now < 6 * S, "holds": self.random.random() < 0.2, "above": self.random.random() < 0.2, "top": 8,
                     "lacking": self.random.choice([0, 600])}
            return {"now": self.now, "from": self.random.choice(ORIGINS), "came": self.datagram(), **facts}
        if what < 17:
            self.reports.append(self.now)
            return {"now": self.now, "sent": True}
        return {"now": self.now, **self.random.choice([
            {"add": "drawing", "held": 61}, {"echo": True}, {"time": True}, {"strange": True}, {"known": self.random.choice(ORIGINS)},
            {"gone": self.random.choice(ORIGINS)}, {"wall": WALL + self.now}, {"owner": self.number(), "from": self.random.choice(ORIGINS)}])}

    def case(self, name: str) -> Dict[str, Any]:
        made = case(name, cells=64, here=self.random.choice([None, "anna"]))
        player = Player(made["judge"])
        for _ in range(STEPS):
            step = self.step()
            given = player.answer(step)
            made["steps"].append(step if given is None else {**step, "want": given})
        return made


def cases() -> List[Dict[str, Any]]:
    return [Walk(seed).case("walk %d" % seed) for seed in range(WALKS)]
