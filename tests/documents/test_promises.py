"""The names in code type that a document has are names of the sources."""

from __future__ import annotations

import re
from pathlib import Path

import pytest

from .sources import DOCUMENTS, PAGES, SPAN, TOP, all_clauses, all_words, nothing_is_wrong, short, words_beside


def wrong_words(document: Path, known: set[str]) -> list[str]:
    """Names in code type that stand nowhere in the sources, and clauses that no contract has. CRATE stands for any name."""
    text = " ".join(document.read_text().split())
    lists = re.findall(r"clauses? ((?:`\w+`(?:, | and )?)+)", text)
    clauses = {it for names in lists for it in SPAN.findall(names)}
    names = {it for it in SPAN.findall(text) if re.fullmatch(r"[A-Za-z_]\w*(::\w+)*", it)}
    wrong = [f"no clause {it}" for it in sorted(clauses - all_clauses())]
    return wrong + [f"no name {it}" for it in sorted(names) if "CRATE" not in it and not set(it.split("::")) <= known]


# these speak of the crates alone
STRICT = [TOP / "docs/PROOFS.md", *PAGES]


@pytest.mark.parametrize("document", DOCUMENTS, ids=short)
def test_names(document: Path) -> None:
    nothing_is_wrong(wrong_words(document, all_words() if document in STRICT else all_words() | words_beside()))
