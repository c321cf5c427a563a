"""Figures of many measurements, and how busy the machine is."""

from __future__ import annotations

import math
import os
import statistics
from collections.abc import Sequence


def percentile(values: Sequence[float], percent: int) -> float:
    """The least of the values that this percentage of them does not pass (the nearest rank)."""
    if not values or not 0 < percent <= 100:
        raise ValueError("there is no such percentile")
    return sorted(values)[math.ceil(percent * len(values) / 100) - 1]


def least_and_median(values: Sequence[float]) -> str:
    return f"{min(values):,.0f} ({statistics.median(values):,.0f})"


def load() -> str:
    """How much other work there is."""
    return f"load {os.getloadavg()[0]:.0f} on {os.cpu_count()} processors"


class Table:
    """A table as the documents have it, printed row by row."""

    def __init__(self, title: str, *heads: str) -> None:
        print(f"\n{title}; {load()}\n", flush=True)
        self.row(*heads)
        self.row(*("---" for _ in heads))

    def row(self, *cells: str) -> None:
        print(f"| {' | '.join(cells)} |", flush=True)
