"""The constants of the live board where all members are at one distance: which of many wait least, and what they do in other groups,
beside timers that adapt."""
from __future__ import annotations

from itertools import product
from typing import NamedTuple

from laboratory.adapting import MOST
from laboratory.figures.cases import Case, Figure, Measured, Record, Scale, of_many, of_one
from laboratory.figures.words import paragraph, sure
from laboratory.figures.words import table as table_of
from laboratory.level import AT_MEMBERS, AT_SOURCE, IN_TURN, LEAST, run_level
from laboratory.measures import Row
from laboratory.runs import DEFAULT_TUNING, Settings
from laboratory.theory import exact_senders
from live.constants import FAR, NEAR

FEW = 6  # the most requests of a loss, and the most repairs
DISTANCES = (1, 5, 40)  # milliseconds
SEARCHED = {5: NEAR, 40: FAR}
LOSSES, TRIED = 40, 5
ADAPTING = "adapting"
HEADS = ("Distance", "Members", "Losses", "Constants", "Requests, if all lack it", "Repairs, if one does", "Until the last has it")


class Key(NamedTuple):
    """A point: a group, its distance in milliseconds, its constants or that they adapt, and where its losses are."""

    group: int
    distance: int
    policy: str
    loss: str = IN_TURN

    @property
    def name(self) -> str:
        return f"{self.group} at {self.distance} ms, {self.policy}, {self.loss}"

    def case(self, losses: int, runs: int) -> Case:
        """What adapts begins at the constants of a host, and has as many losses before those that count."""
        delay, adapts = self.distance / 2_000, self.policy == ADAPTING
        adapt, tuning, draws = ("published", DEFAULT_TUNING, 2 * losses) if adapts else ("fixed", self.policy, losses)
        settings = Settings(members=self.group, delay=(delay, delay), loss=self.loss, tuning=tuning, who="timers", adapt=adapt, draws=draws)
        return Case(settings, runs, run_level)

    def record(self, measured: Measured, losses: int) -> Record:
        """What a point measured, and where; adapting timers count after as many losses again."""
        first = losses if self.policy == ADAPTING else 0

        def counts(row: Row) -> bool:
            return row.number > first

        record: Record = {"group": self.group, "milliseconds": self.distance, "losses": self.loss, "tuning": self.policy.replace(",", " ")}
        record["count"] = measured.losses(counts)
        record |= measured.mean("requests", "requests", lambda row: of_many(row) and counts(row))
        record |= measured.mean("repairs", "repairs", lambda row: of_one(row) and counts(row))
        return record | measured.mean("seconds", "seconds", counts)


def least_width(group: int, distance: int) -> int:
    """The least spread of timers of which only few fire, by the exact mean of one round."""
    return next((width for width in range(1, MOST) if exact_senders(group - 1, width, min(1, distance * 1_000 / LEAST)) <= FEW), MOST)


def candidates(group: int, distance: int) -> list[str]:
    """The longer D1, the later each repair: so it is 1."""
    least = least_width(group, distance)
    found = product(range(1, TRIED), range(least, min(MOST, least + 6) + 1), (1,), range(least, min(MOST, least + 1) + 1))
    return [",".join(map(str, constants)) for constants in found]


def points_told(groups: tuple[int, ...], most: int) -> list[Key]:
    """Those of the page's table. In the largest group nothing adapts; and in one group losses of one kind alone are tried too."""
    told = []
    for distance, group in product(DISTANCES, groups):
        told += [Key(group, distance, policy) for policy in (DEFAULT_TUNING, NEAR, FAR)] + [Key(group, distance, ADAPTING)] * (group <= most)
        if (group, distance) == (most, DISTANCES[-1]):
            told += [Key(group, distance, policy, loss) for loss in (AT_SOURCE, AT_MEMBERS) for policy in (FAR, ADAPTING)]
    return told


def level(scale: Scale) -> Figure:
    """Members are timers that are reckoned in the laboratory."""
    small, most = len(scale.constants) <= 2, scale.group
    losses = 4 if small else LOSSES
    told = points_told((4, most) if small else (10, most, 200), most)
    searched = [Key(most, distance, tuning) for distance in SEARCHED for tuning in candidates(most, distance)]
    keys = list(dict.fromkeys(told + searched))

    def table(measured: dict[str, Measured]) -> list[Record]:
        return [key.record(measured[key.name], losses) for key in keys]

    def section(records: list[Record]) -> str:
        of = dict(zip(keys, records))
        parts = [search_told(distance, [of[key] for key in searched if key.distance == distance], of[Key(most, distance, tuning)])
                 for distance, tuning in SEARCHED.items()]
        width = least_width(most, 40)
        least = of[Key(most, 40, f"2,{width},1,{width}")]
        text = paragraph(f"""{most} members at one distance, with D1 = 1, C1 from 1 to {TRIED - 1}, and C2 and D2 from the least with which at most {FEW}
            timers fire in one round: {'; '.join(parts)}. Constants count only if all of the interval is at most {FEW}. The least by the formula of one
            round at 40 ms, {least['tuning'].replace(' ', ',')}, takes {sure(least, 'requests')} requests and {sure(least, 'repairs')} repairs:
            timers that backed off are due again before a late repair comes.""")
        return f"{text}\n\n{table_of(HEADS, [of[key] for key in told], cells_of)}"

    cases = {key.name: key.case(losses if key.group <= most else losses // 4, scale.runs) for key in keys}
    return Figure("level", cases, table, lambda records: {}, section)


def cells_of(record: Record) -> list[str]:
    numbers = [sure(record, column) for column in ("requests", "repairs")]
    return [f"{record['milliseconds']} ms", str(record["group"]), record["losses"], record["tuning"].replace(" ", ","), *numbers, waits(record)]


def waits(record: Record) -> str:
    return sure({name: 1_000 * record[name] for name in ("seconds", "seconds_95")}, "seconds") + " ms"


def search_told(distance: int, records: list[Record], ours: Record) -> str:
    """Which of the constants that were tried wait least, of those with few requests and repairs."""
    few = [r for r in records if all(r[what] + r[f"{what}_95"] <= FEW for what in ("requests", "repairs"))]
    least = min(few, key=lambda r: float(r["seconds"]), default=None)
    told = "none of" if least is None else f"{least['tuning'].replace(' ', ',')} waits least, {waits(least)}, of"
    return f"""at {distance} ms {told} {len(records)}; that of wb-live, {ours['tuning'].replace(' ', ',')}, waits {waits(ours)} with
        {sure(ours, 'requests')} requests and {sure(ours, 'repairs')} repairs"""
