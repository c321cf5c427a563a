"""What the documents are held to: the sources, definitions and proofs of the crates, and what stands beside them."""

from __future__ import annotations

import re
from functools import cache
from pathlib import Path

import pytest

TOP = Path(__file__).resolve().parents[2]
CRATES = TOP / "crates"
README = TOP / "README.md"
PAGES = sorted((TOP / "docs/proofs").glob("*.md"))
DOCUMENTS = sorted([*TOP.glob("*.md"), *(TOP / "docs").glob("*.md"), *PAGES])

SPAN = re.compile(r"`([^`\n]+)`")


def short(document: Path) -> str:
    return str(document.relative_to(TOP))


def is_tests(crate: str) -> bool:
    return crate.endswith("_tests")


def crates_below() -> dict[str, list[str]]:
    """The crates of crates.txt, each with the names that it stands on."""
    found = {}
    for line in (TOP / "crates.txt").read_text().splitlines():
        if ":" in line and not line.startswith("#"):
            head, below = line.split(":", 1)
            found[head.split()[0]] = below.split()
    return found


def sources_of(crate: str) -> str:
    """All that stands in the sources, definitions and proofs of a crate."""
    files = [it for part in ("src", "specs", "proofs") for it in (CRATES / crate / part).rglob("*") if it.is_file()]
    return "\n".join(it.read_text() for it in sorted(files))


# each of these is read at its first use, since every process of the tests takes in this file


@cache
def texts() -> dict[str, str]:
    """Of each crate all that stands in it."""
    return {crate: sources_of(crate) for crate in crates_below()}


@cache
def all_text() -> str:
    """All that is written in Rattle, with the tests of values."""
    return "\n".join([*texts().values(), *(it.read_text() for it in sorted((TOP / "tests/value_cases").rglob("*.rt.in")))])


@cache
def all_words() -> set[str]:
    """The words of all sources, and the names of crates and edits."""
    edits = {it.stem for it in CRATES.glob("*/must-fail/*.edit")}
    return set(re.findall(r"\w+", all_text())) | edits | set(texts()) | {"unsafe"}


@cache
def words_beside() -> set[str]:
    """The words of what stands beside the crates: scripts, Python and the page."""
    scripts = [it for part in ("live", "lab", "web", "tools", "tests", "examples") for it in (TOP / part).rglob("*") if it.suffix != ".pyc"]
    files = [it for it in [*scripts, TOP / "wb", TOP / "wb-live", TOP / "test"] if it.is_file()]
    return {it.name for it in TOP.iterdir()} | {word for it in files for word in re.findall(r"\w+", it.read_text())}


@cache
def all_clauses() -> set[str]:
    return set(re.findall(r"\bensures\s+(\w+)", all_text()))


def rows_of(document: Path) -> list[str]:
    return [it for it in document.read_text().splitlines() if it.startswith("| ")]


def nothing_is_wrong(wrong: list[str]) -> None:
    """Fails with what is wrong, a line each."""
    if wrong:
        pytest.fail("\n".join(wrong), pytrace=False)
