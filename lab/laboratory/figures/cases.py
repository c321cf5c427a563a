"""Cases that are run with many seeds, and what is made of their runs."""
from __future__ import annotations

from collections.abc import Callable, Sequence
from dataclasses import dataclass, replace
from typing import Any

from laboratory.intervals import difference, estimate, quartiles
from laboratory.measures import Row
from laboratory.plots import Plot, Point, Series
from laboratory.runs import Result, Settings, run

Record = dict[str, Any]  # a line of a table


@dataclass(frozen=True)
class Scale:
    """How much is run: sizes of groups, constants, rounds, and runs of other seeds for each point."""

    runs: int = 20
    stars: tuple[int, ...] = (8, 32, 100)
    constants: tuple[int, ...] = (1, 2, 4, 8, 16)
    losses: int = 3
    trees: tuple[int, ...] = (10, 20, 40, 60, 80, 100)
    tree_nodes: int = 1000
    chain: int = 12
    classes: tuple[int, ...] = (10, 50, 100, 200)
    group: int = 50
    rounds: int = 80


SMALL = Scale(2, (4, 8), (1, 4), 2, (5, 8), 60, 4, (4, 6), 6, 20)


@dataclass(frozen=True)
class Case:
    """What a point is: settings, of which runs differ in the seed alone, and how one of these is run by a program."""

    settings: Settings
    runs: int
    how: Callable[[Settings, str], Result] = run

    def seeds(self, with_hosts: bool) -> list[Settings]:
        """The sessions of driven members have timers that are reckoned here, or with the same seeds hosts, which send the same."""
        who = "hosts" if with_hosts and self.how is run else self.settings.who
        return [replace(self.settings, who=who, seed=seed) for seed in range(1, self.runs + 1)]


@dataclass(frozen=True)
class Run:
    """What one run measured, and the seconds that it took."""

    rows: list[Row]
    totals: dict[str, Any]
    took: float = 0.0


Which = Callable[[Row], bool]


def every(row: Row) -> bool:
    return True


def of_many(row: Row) -> bool:
    """A loss near the source, that many members lack."""
    return row.lost > 1


def of_one(row: Row) -> bool:
    """A loss on the way to one member."""
    return row.lost == 1


@dataclass(frozen=True)
class Measured:
    """The runs of a case."""

    runs: list[Run]

    def draws(self, what: str, which: Which = every, scale: float = 1) -> list[float]:
        """The mean of each run over its losses, for the runs that have one. A `what` that is joined by a plus is a sum."""
        means = []
        for one in self.runs:
            values = [value for row in one.rows if which(row) and (value := value_of(row, what)) is not None]
            if values:
                means.append(scale * sum(values) / len(values))
        return means

    def mean(self, name: str, what: str, which: Which = every, scale: float = 1) -> Record:
        """The columns of a mean and of how far the true one may be from it."""
        return estimated(name, self.draws(what, which, scale))

    def quarters(self, name: str, what: str, which: Which = every) -> Record:
        """The columns of the quartiles over all losses."""
        found = quartiles([value for run in self.runs for row in run.rows if which(row) and (value := value_of(row, what)) is not None])
        return dict(zip((f"{name}_lower", f"{name}_median", f"{name}_upper"), (rounded(value) for value in found or (None, None, None))))

    def losses(self, which: Which = every) -> int:
        return sum(which(row) for run in self.runs for row in run.rows)


def value_of(row: Row, what: str) -> float | None:
    values = [getattr(row, part) for part in what.split("+")]
    return None if None in values else sum(values)


def rounded(value: float | None) -> float | None:
    return None if value is None else float(f"{value:.4g}")


def estimated(name: str, draws: Sequence[float]) -> Record:
    found = estimate(draws)
    return {name: rounded(found.mean) if found else None, f"{name}_95": rounded(found.half) if found else None}


def compared(name: str, draws: Sequence[float], others: Sequence[float]) -> Record:
    """By how much a mean differs from that of another case with the same seeds, and how far the true difference may be from that."""
    found = difference(draws, others)
    return {name: rounded(found.mean) if found else None, f"{name}_95": rounded(found.half) if found else None}


def series(name: str, records: Sequence[Record], x: str, y: str, line: bool = True, marks: bool = True, style: int | None = None) -> Series:
    """The values of a column, with its interval where the table has one."""
    points = []
    for record in records:
        if record[y] is not None:
            half = record.get(f"{y}_95")
            points.append(Point(record[x], record[y], *((record[y] - half, record[y] + half) if half is not None else ())))
    return Series(name, points, line, marks, style)


def medians(name: str, records: Sequence[Record], x: str, y: str, line: bool = True, style: int | None = None) -> Series:
    """The medians of a column, with its quartiles as bars."""
    points = [Point(r[x], r[f"{y}_median"], r[f"{y}_lower"], r[f"{y}_upper"]) for r in records if r[f"{y}_median"] is not None]
    return Series(name, points, line, style=style)


@dataclass(frozen=True)
class Figure:
    """Cases by name, the table of what they measure, plots of the table by the names of their files, and its section of the page."""

    name: str
    cases: dict[str, Case]
    table: Callable[[dict[str, Measured]], list[Record]]
    plots: Callable[[list[Record]], dict[str, Plot]]
    section: Callable[[list[Record]], str]
