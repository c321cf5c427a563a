"""Each line of shell on the pages for users is run by a test, or it is said why none can."""

from __future__ import annotations

import re

from .shell import NOT_RUN, PAGES, RUN, shell_lines
from .sources import TOP, nothing_is_wrong


def test_lines() -> None:
    lines = {line for page in PAGES for line in shell_lines(page)}
    known = RUN.keys() | NOT_RUN.keys()
    nothing_is_wrong([f"no test runs: {it}" for it in sorted(lines - known)] + [f"no page has: {it}" for it in sorted(known - lines)])


def test_tests() -> None:
    wrong = []
    for line, where in RUN.items():
        file, _, name = where.partition(": ")
        path = TOP / "tests" / file
        if not path.exists() or not re.search(rf"^def {name}\b", path.read_text(), re.MULTILINE):
            wrong.append(f"{where} is not there, for: {line}")
    nothing_is_wrong(wrong)
