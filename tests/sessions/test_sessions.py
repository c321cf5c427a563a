"""Sessions over a bad network: of hosts whose drivers look and report, of self-managing hosts that start anew from their records, and of hosts
of all kinds, by lines and by the library's bytes."""

from __future__ import annotations

from pathlib import Path

import pytest

from ..host.program import program
from ..seeds import seeds
from .kinds import Forged, Kinds
from .looking import Session
from .restarts import Restarts, fault_of

SEEDS = seeds(50)


@pytest.mark.parametrize("seed", SEEDS)
def test_looking(seed: int) -> None:
    session = Session(program(), seed)
    try:
        session.run()
    finally:
        session.close()
    assert session.repairs and session.compared, "nothing was repaired, or nothing compared"


@pytest.mark.parametrize("seed", SEEDS[: len(SEEDS) // 2])
def test_restarts(seed: int) -> None:
    session = Restarts(program(), seed)
    assert not fault_of(session)
    assert session.compared and session.starts() > len(session.members), "nothing was compared, or nobody started anew"


@pytest.mark.parametrize("seed", SEEDS[:3])
def test_careless_records_show_what_goes_wrong(seed: int) -> None:
    """Their records lack half: a name comes to mean two drawops."""
    assert fault_of(Restarts(program(), seed, is_careless=True))


@pytest.mark.parametrize("seed", SEEDS[: len(SEEDS) // 2])
def test_kinds(seed: int) -> None:
    session = Kinds(program(), seed)
    assert not fault_of(session)
    assert session.kinds_that_agreed() > 1 and session.starts() > len(session.members), "hosts of two kinds never agreed, or nobody started anew"


@pytest.mark.parametrize("seed", SEEDS[: len(SEEDS) // 4])
def test_kinds_by_bytes(library: Path, seed: int) -> None:
    """What manages itself is in the library, and hears, draws, waits and answers by bytes; driven hosts are of the program."""
    session = Kinds(program(), seed, library=library)
    assert not fault_of(session)
    assert session.kinds_that_agreed() > 1 and session.starts() > len(session.members), "hosts of two kinds never agreed, or nobody started anew"


@pytest.mark.parametrize("seed", SEEDS[:3])
def test_forged_drawings_of_the_page_show_what_goes_wrong(seed: int) -> None:
    """A name comes to mean two drawops, so the premise on what comes is needed."""
    assert fault_of(Forged(program(), seed))
