"""The program under test is the one that the comparison finds."""

from __future__ import annotations

import pytest

from ..host.program import program


@pytest.fixture(autouse=True)
def named_program(monkeypatch: pytest.MonkeyPatch) -> None:
    monkeypatch.setenv("WB_PROGRAM", program())
