"""The examples of the documents print what they say, and their code is that of the examples."""

from __future__ import annotations

import re
import subprocess
from pathlib import Path

import pytest

from ..host.program import program
from .sources import DOCUMENTS, TOP, nothing_is_wrong, short

SECONDS_OF_AN_EXAMPLE = 60


def examples_of(document: Path) -> list[tuple[str, str]]:
    """The commands behind a '$ ' in a document's blocks of code, each with what it prints."""
    found = []
    for block in re.findall(r"^```\w*\n(.*?)^```$", document.read_text(), re.MULTILINE | re.DOTALL):
        parts = re.split(r"^\$ (.+)\n", block, flags=re.MULTILINE)
        found += [(command, print_.rstrip("\n")) for command, print_ in zip(parts[1::2], parts[2::2])]
    return found


def wrong_code() -> list[str]:
    """Blocks of Rust and Python in the documents that are no part of an example, which tests/embedding or tests/host runs."""
    wrong = []
    for language, names in ("rust", "*.rt.in"), ("python", "*.py"):
        blocks = [it for document in DOCUMENTS for it in re.findall(rf"^```{language}\n(.*?)^```$", document.read_text(), re.MULTILINE | re.DOTALL)]
        examples = [it.read_text() for it in sorted((TOP / "examples").rglob(names))]
        wrong += [f"no example has this: {it}" for it in blocks if not any(it in example for example in examples)]
    return wrong


EXAMPLES = [pytest.param(command, want, id=f"{short(document)}-{place}") for document in DOCUMENTS for place, (command, want) in enumerate(examples_of(document), 1)]


@pytest.mark.parametrize("command, want", EXAMPLES)
def test_example(command: str, want: str) -> None:
    line = re.sub(r"(?<![\w/])\./wb\b", program(), command)
    ran = subprocess.run(["bash", "-c", line], cwd=TOP, stdout=subprocess.PIPE, text=True, timeout=SECONDS_OF_AN_EXAMPLE, check=False)
    assert [it.rstrip() for it in ran.stdout.splitlines()] == [it.rstrip() for it in want.splitlines()]


def test_code() -> None:
    nothing_is_wrong(wrong_code())
