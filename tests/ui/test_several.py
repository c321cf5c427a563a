"""Several tabs of one member, a twin, a program that ends, and one that is not proved yet."""

from __future__ import annotations

from . import beside, proof, several
from .conftest import Windows
from .sheets import Member, Tally


def test_proof(tally: Tally, windows: Windows) -> None:
    proof.test_proof(tally, windows.browser, windows.ports + 64)


def test_tabs(tally: Tally, windows: Windows) -> None:
    several.test_tabs(tally, windows.browser, windows.members[1])


def test_policy(tally: Tally, windows: Windows) -> None:
    beside.test_policy(tally, windows.one)


def test_twin(tally: Tally, windows: Windows) -> None:
    several.test_twin(tally, windows.room, windows.browser, windows.other, windows.members[1], windows.ports)


def test_end(tally: Tally, windows: Windows) -> None:
    windows.members[0] = several.test_end(tally, windows.one, windows.members[0], lambda web: Member(windows.room, windows.ports, web))
