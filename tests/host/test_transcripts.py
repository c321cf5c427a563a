"""What a host prints for the lines of transcripts: those of its pages, and those of transcripts/*.md, whose values were worked out by the formulas of
the tests beside them."""

from __future__ import annotations

from pathlib import Path

import pytest

from ..transcripts import HOST, JUDGED_HOST, Transcript, cases, first_difference, parted, read
from . import test_judged, test_kept, test_lines
from .program import TOP, host

PAGES = [TOP / "docs/HOST.md", TOP / "docs/HOST-LINES.md"]
OURS = Path(__file__).parent / "transcripts"


def documented(path: Path) -> list[Transcript]:
    return [*read(path), *read(path, JUDGED_HOST)]


def transcripts() -> list[Transcript]:
    found = [it for page in PAGES for it in documented(page)]
    found += [it for file in ("arrivals.md", "timers.md", "own.md") for it in read(OURS / file, HOST, vars(test_lines))]
    return [*found, *test_kept.DRAWING, *test_kept.TELLING, *test_judged.TRANSCRIPTS]


@pytest.mark.parametrize("transcript", cases(transcripts()))
def test_transcript(transcript: str) -> None:
    given, printed = parted(transcript)
    assert first_difference(given, host(given), printed) == ""


@pytest.mark.parametrize("page", PAGES, ids=[page.name for page in PAGES])
def test_page(page: Path) -> None:
    """It has transcripts of hosts of both kinds."""
    assert read(page) and read(page, JUDGED_HOST)
