"""With WB_LINES a host that Python starts leaves the lines that it was given, and they print the same again."""

from __future__ import annotations

from pathlib import Path

import pytest

import wbhost

from .program import host, program

LINES = ["board 1 100 1 7", "keep 4000 0", "add 5 1 line 0 0 4 0 *", "tick 3000000", "came 3000000 garbled", "gaps 1 1", "view 1 1"]


def test_lines_again(tmp_path: Path, monkeypatch: pytest.MonkeyPatch) -> None:
    monkeypatch.setenv("WB_LINES", str(tmp_path))
    child = wbhost.Host(program(), "--tuning", "1,1,1,1")
    blocks = [child.ask(line) for line in LINES[:2]] + child.ask_all(LINES[2:])
    child.end()
    (kept,) = tmp_path.glob("*.lines")
    first, *others = kept.read_text().splitlines()
    assert (first, others) == ("# wb host --tuning 1,1,1,1", LINES)
    closing, *printed = host(kept.read_text(), *first.split()[3:]).splitlines()
    assert closing == "ok never", "of the first line, which is a comment"
    assert [line for line in printed if not line.startswith(("ok ", "refused "))] == [line for block in blocks for line in block.lines]
    assert any(line.startswith("send ") for line in printed)


def test_nothing_is_kept_else(tmp_path: Path, monkeypatch: pytest.MonkeyPatch) -> None:
    monkeypatch.delenv("WB_LINES", raising=False)
    monkeypatch.chdir(tmp_path)
    child = wbhost.Host(program())
    child.ask(LINES[0])
    child.end()
    assert list(tmp_path.iterdir()) == []
