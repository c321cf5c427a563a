"""Prints the tests that failed in the last run, a line each, if they are few and all wait for browsers or for many processes: such a test may have
been late because of those beside it, and `./test` tries it once more, alone."""

from __future__ import annotations

import json
from pathlib import Path

FAILED = Path(__file__).resolve().parent.parent / "out/pytest/v/cache/lastfailed"
BY_THE_CLOCK = ("tests/live/", "tests/ui/", "tests/browser/", "tests/python/", "tests/javascript/", "tests/programs/")
FEW = 3


def late(failed: list[str]) -> list[str]:
    """Of tests that failed those to try alone, without the group that pytest-xdist adds to a name."""
    names = [name.partition("@")[0] for name in failed]
    return names if len(names) <= FEW and all(name.startswith(BY_THE_CLOCK) for name in names) else []


if __name__ == "__main__":
    for name in late(list(json.loads(FAILED.read_text())) if FAILED.exists() else []):
        print(name)
