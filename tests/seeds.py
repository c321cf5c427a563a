"""The seeds of tests at random: the same ones each time, or new ones with `--fresh`, of which the first is printed."""

from __future__ import annotations

import os


def first_seed() -> int:
    return int(os.environ.get("WB_FRESH", 1))


def seeds(count: int) -> range:
    return range(first_seed(), first_seed() + count)
