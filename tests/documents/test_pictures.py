"""Pictures in docs/pictures: a page shows each in words too, it is small, and a drawing can be read by day and by night."""

from __future__ import annotations

import re
import xml.etree.ElementTree as xml
from pathlib import Path

import pytest

from .sources import DOCUMENTS, TOP, nothing_is_wrong, short

PICTURES = sorted((TOP / "docs/pictures").iterdir())
DRAWINGS = [it for it in PICTURES if it.suffix == ".svg"]
LARGEST = {".svg": 12_000, ".png": 300_000}
SVG = "{http://www.w3.org/2000/svg}"


def shown() -> dict[Path, str]:
    """The pictures that pages show, each with its words."""
    found = {}
    for document in DOCUMENTS:
        for words, name in re.findall(r"!\[([^\]]*)\]\(([^)\s]+)\)", document.read_text()):
            found[(document.parent / name).resolve()] = words
    return found


def test_shown() -> None:
    words = shown()
    nothing_is_wrong([f"no page shows {short(it)} with words" for it in PICTURES if len(words.get(it, "")) < 20])


def test_small() -> None:
    nothing_is_wrong([f"{short(it)} has {it.stat().st_size} bytes" for it in PICTURES if it.stat().st_size > LARGEST[it.suffix]])


@pytest.mark.parametrize("drawing", DRAWINGS, ids=short)
def test_drawing(drawing: Path) -> None:
    """It has a title and a description, colours for the night, and nothing from elsewhere."""
    root = xml.parse(drawing).getroot()
    assert [(found.text or "").strip() != "" for found in (root.find(f"{SVG}title"), root.find(f"{SVG}desc")) if found is not None] == [True, True]
    text = drawing.read_text().replace("http://www.w3.org/2000/svg", "")
    assert "prefers-color-scheme: dark" in text and "currentColor" not in text and "http" not in text


def test_film() -> None:
    """The animated picture is one, and repeats."""
    data = (TOP / "docs/pictures/loss.png").read_bytes()
    at = data.index(b"acTL") + 4
    assert int.from_bytes(data[at:at + 4], "big") >= 8 and data[at + 4:at + 8] == bytes(4) and data.count(b"fcTL") >= 8
