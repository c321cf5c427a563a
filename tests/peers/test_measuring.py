"""Percentiles and rows of tables, against values by hand."""

from __future__ import annotations

import pytest

from ..figures.peers import measuring
from ..figures.peers.arrivals import Result, cells
from ..figures.peers.group import Name
from ..figures.peers.sessions import Outcome, cells_of, times

HUNDRED = list(range(100, 0, -1))
ONE, TWO = Name(1, 1), Name(2, 1)


@pytest.mark.parametrize(
    ("values", "percent", "wanted"),
    [
        (HUNDRED, 99, 99),
        (HUNDRED, 100, 100),
        (HUNDRED, 50, 50),
        (HUNDRED, 1, 1),
        ([10, 30, 20], 99, 30),
        ([10, 30, 20], 67, 30),
        ([10, 30, 20], 66, 20),
        ([10, 30, 20], 34, 20),
        ([10, 30, 20], 33, 10),
        ([7], 1, 7),
        (list(range(1, 301)), 99, 297),
        # 7 of 100 ways in hundredths are no whole number of a binary fraction
        (HUNDRED, 7, 7),
    ],
)
def test_percentile(values: list[float], percent: int, wanted: float) -> None:
    assert measuring.percentile(values, percent) == wanted


@pytest.mark.parametrize(("values", "percent"), [([], 50), ([1.0], 0), ([1.0], 101)])
def test_no_percentile(values: list[float], percent: int) -> None:
    with pytest.raises(ValueError):
        measuring.percentile(values, percent)


def test_least_and_median() -> None:
    assert measuring.least_and_median([3, 1_000, 1]) == "1 (3)"
    assert measuring.least_and_median([1_001, 3_000]) == "1,001 (2,000)"


def test_times() -> None:
    """The second drawing comes to the last member 40 ms behind its drawing; nobody but its source has the third."""
    drew = {ONE: 1_000_000, TWO: 5_000_000, Name(1, 2): 6_000_000}
    held = [{ONE: 1_000_000, TWO: 45_000_000, Name(1, 2): 6_000_000}, {ONE: 3_500_000, TWO: 5_000_000}, {TWO: 30_000_000, ONE: 2_000_000}]
    assert times(drew, held) == [2.5, 40.0]


def test_row_of_sessions() -> None:
    """Medians over sessions; the times of all their drawings together."""
    outcomes = [Outcome(10, 420, [20.0, 30.0], 0), Outcome(30, 1_260, [1_000.0], 1), Outcome(14, 500, [], 2)]
    assert cells_of(outcomes) == ["14", "500", "30", "1,000", "1,000", "3"]
    assert cells_of([Outcome(5, 200, [], 2)]) == ["5", "200", "-", "-", "-", "2"]
    assert cells_of([]) == ["-"] * 6


def test_row_of_arrivals() -> None:
    results = [Result([20.4, 10.2, 40.0]), Result([], fault="given up"), Result([1.0], (36, 41.5, 58))]
    assert cells(results) == ["10 (20)", "given up", "1 (1)", "36 to 58, 42"]
