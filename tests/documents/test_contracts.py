"""The pages of docs/proofs: each table is what the sources give, and what stands before it is short."""

from __future__ import annotations

import pytest

from .contracts import crates, page_of, prose_of, tables
from .sources import PAGES

MOST_WORDS = 400


@pytest.mark.parametrize("crate", crates())
def test_tables(crate: str) -> None:
    text, prose = page_of(crate).read_text(), prose_of(crate)
    assert text == f"{prose.rstrip()}\n\n{tables(crate)}", "python3 -m tests.documents.contracts writes the tables anew"


@pytest.mark.parametrize("crate", crates())
def test_prose_is_short(crate: str) -> None:
    assert 0 < len(prose_of(crate).split()) <= MOST_WORDS


def test_each_page_is_of_a_crate() -> None:
    assert [it.stem for it in PAGES] == sorted(crates())
