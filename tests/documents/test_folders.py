"""Each folder of tests has its row in docs/TESTING.md, and `./test` runs it."""

from __future__ import annotations

import re

from .sources import TOP

FOLDERS = sorted({path.parent.name for path in (TOP / "tests").glob("*/test_*.py")})


def test_rows() -> None:
    rows = re.findall(r"^\| ((?:`\w+`(?:, )?)+) \|", (TOP / "docs/TESTING.md").read_text(), re.MULTILINE)
    assert sorted(name for row in rows for name in re.findall(r"`(\w+)`", row)) == FOLDERS


def test_each_is_run() -> None:
    """`./test` and `./test --quick` name their folders one by one."""
    lists = re.findall(r"^(?:without_program|long_over_program|over_page|short_over_program)='?([^'\n]*)'?$", (TOP / "test").read_text(), re.MULTILINE)
    named = [name for each in lists for name in each.split()]
    # the edits come after the proofs, and have their step
    assert sorted([*named, "tests/edits"]) == [f"tests/{name}" for name in FOLDERS]
