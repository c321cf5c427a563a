"""What the documents link to and name by a path exists."""

from __future__ import annotations

import re
from pathlib import Path

import pytest

from .sources import CRATES, DOCUMENTS, README, SPAN, TOP, nothing_is_wrong, short

# folders from which a page names a file
BESIDE = ("docs", "examples", "live", "live/carriers", "live/ui", "web", "web/member", "web/building", "lab", "lab/laboratory", "tests", "tools")


def anchors_of(document: Path) -> set[str]:
    """The anchors of a document's headings, as they are made from their words."""
    heads = re.findall(r"^#+ (.+)$", document.read_text(), re.MULTILINE)
    return {re.sub(r"[^\w\- ]", "", head.lower()).replace(" ", "-") for head in heads}


def wrong_links(document: Path) -> list[str]:
    wrong = []
    for label, link in re.findall(r"\[([^\]]*)\]\(([^)\s]+)\)", document.read_text()):
        if re.match(r"[a-z]+:", link):
            continue
        if re.fullmatch(r"[\w./]+\.md", label) and Path(label).name != Path(link).name:
            wrong.append(f"{label} leads to {link}")
        name, _, anchor = link.partition("#")
        file = document.parent / name if name else document
        if not file.exists() or (anchor and anchor not in anchors_of(file)):
            wrong.append(f"no {link}")
    return wrong


def is_path(span: str) -> bool:
    """Whether a word in code type names a file or folder. Words in capitals, as CRATE, stand for any name."""
    if "NAME" in span or re.search(r"[^\w./*-]", span) or re.search(r"(?<![a-z])[A-Z]{2,}(?![.\w])", span):
        return False
    return bool(re.match(r"(tests|docs|crates|tools|examples|src|specs|proofs|must-fail|wb_\w+|\.)/", span)) or bool(
        re.search(r"\.(md|antt|rt|txt|edit|py|m?js|bash|sh|css|html|wb)$", span)
    )


def exists(span: str, document: Path) -> bool:
    """Whether a path exists, from the top, from crates/, from the crate of a page, or in any crate."""
    places = [TOP, *(TOP / it for it in BESIDE), CRATES, CRATES / document.stem]
    if any(any(place.glob(span.removeprefix("./"))) for place in places):
        return True
    return any(CRATES.glob(f"*/{span}")) or any(CRATES.glob(f"*/*/{span}"))


def wrong_paths(document: Path) -> list[str]:
    spans = {it.rstrip("/") for it in SPAN.findall(document.read_text())}
    return [f"no file {it}" for it in sorted(spans) if is_path(it) and not exists(it, document)]


def unreachable() -> list[str]:
    """The documents to which no chain of links goes from the README."""
    seen, ahead = {README}, [README]
    while ahead:
        document = ahead.pop()
        for name in re.findall(r"\]\(([^)#\s]+\.md)", document.read_text()):
            file = (document.parent / name).resolve()
            if file.exists() and file not in seen:
                seen.add(file)
                ahead.append(file)
    return [f"no link leads to {short(it)}" for it in DOCUMENTS if it not in seen]


@pytest.mark.parametrize("document", DOCUMENTS, ids=short)
def test_links(document: Path) -> None:
    nothing_is_wrong(wrong_links(document))


@pytest.mark.parametrize("document", DOCUMENTS, ids=short)
def test_paths(document: Path) -> None:
    nothing_is_wrong(wrong_paths(document))


def test_each_document_is_linked() -> None:
    nothing_is_wrong(unreachable())
