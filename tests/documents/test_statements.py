"""The statements that docs/PROOFS.md shows are those of the crates, letter by letter."""

from __future__ import annotations

import re

import pytest

from .sources import CRATES, TOP

SHOWN = re.findall(r"<!-- of (\S+) -->\n```\n(.*?)\n```", (TOP / "docs/PROOFS.md").read_text(), re.DOTALL)


def test_statements_are_shown() -> None:
    assert len(SHOWN) >= 4


@pytest.mark.parametrize("file, text", SHOWN, ids=[file for file, _ in SHOWN])
def test_statement(file: str, text: str) -> None:
    source = (CRATES / file).read_text()
    assert [part for part in text.split("\n\n") if f"{part}\n" not in source] == []
