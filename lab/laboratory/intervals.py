"""Means with their intervals, medians and quartiles.

The runs of a point differ in their seeds alone, so their means are independent draws of one law; the losses of one run are not.
Each interval is of the mean of such draws, by Student's law: in 95 of 100 repetitions of the whole point it holds the true mean.
"""
from __future__ import annotations

import functools
import math
from collections.abc import Sequence
from dataclasses import dataclass

SURE = 0.95


@dataclass(frozen=True)
class Estimate:
    """A mean of independent draws, and by how much the true one may differ; infinite where there is one draw."""

    mean: float
    half: float
    draws: int

    @property
    def low(self) -> float:
        return self.mean - self.half

    @property
    def high(self) -> float:
        return self.mean + self.half

    def words(self, digits: int = 1) -> str:
        return f"{self.mean:.{digits}f} ± {self.half:.{digits}f}"


def within(t: float, freedom: int) -> float:
    """The share of Student's law between -t and t, by its finite sums for whole degrees of freedom."""
    angle = math.atan(t / math.sqrt(freedom))
    cosine, term, total = math.cos(angle), 1.0, 0.0
    if freedom % 2:
        term = cosine
        for step in range(3, freedom + 1, 2):
            total += term
            term *= (step - 1) / step * cosine * cosine
        return 2 / math.pi * (angle + math.sin(angle) * total)
    for step in range(2, freedom + 1, 2):
        total += term
        term *= (step - 1) / step * cosine * cosine
    return math.sin(angle) * total


@functools.cache
def bound(freedom: int, share: float = SURE) -> float:
    """The t between which and -t Student's law has this share."""
    low, high = 0.0, 1e6
    for _ in range(200):
        middle = (low + high) / 2
        low, high = (middle, high) if within(middle, freedom) < share else (low, middle)
    return high


def estimate(draws: Sequence[float]) -> Estimate | None:
    """The mean of draws that are independent of one another."""
    if not draws:
        return None
    mean = math.fsum(draws) / len(draws)
    if len(draws) == 1:
        return Estimate(mean, math.inf, 1)
    variance = math.fsum((draw - mean) ** 2 for draw in draws) / (len(draws) - 1)
    return Estimate(mean, bound(len(draws) - 1) * math.sqrt(variance / len(draws)), len(draws))


def difference(one: Sequence[float], other: Sequence[float]) -> Estimate | None:
    """By how much the first draws are above the others, where draw i of both has the same seed, and so the same network and losses."""
    return estimate([a - b for a, b in zip(one, other, strict=True)])


def quantile(values: Sequence[float], share: float) -> float | None:
    """The least value that is not below this share of the values."""
    if not values:
        return None
    ordered = sorted(values)
    return ordered[min(len(ordered) - 1, max(0, math.ceil(round(share * len(ordered), 9)) - 1))]


def quartiles(values: Sequence[float]) -> tuple[float, float, float] | None:
    """The lower quartile, the median and the upper one."""
    if not values:
        return None
    lower, middle, upper = (quantile(values, share) for share in (0.25, 0.5, 0.75))
    assert lower is not None and middle is not None and upper is not None
    return lower, middle, upper
