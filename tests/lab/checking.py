"""What the tests of the laboratory share."""

from __future__ import annotations

from dataclasses import replace
from pathlib import Path
from unittest.mock import patch

from laboratory.hosts import Fault
from laboratory.measures import Row
from laboratory.program import program
from laboratory.reading import Datagram
from laboratory.runs import Result, Settings, run
from laboratory.session import Session


def fault_of(settings: Settings, record: Path) -> str:
    try:
        run(settings, program(), record)
    except Fault as fault:
        return str(fault)
    return ""


def sends_of(settings: Settings) -> list[tuple[int, int, str, object]]:
    """All that a run sends, in its order."""
    sent: list[tuple[int, int, str, object]] = []
    send = Session.send

    def note(session: Session, moment: int, sender: int, datagram: Datagram) -> None:
        sent.append((moment, sender, datagram.kind, datagram.name))
        send(session, moment, sender, datagram)

    with patch.object(Session, "send", note):
        run(settings, program())
    return sent


def one_loss(settings: Settings) -> tuple[Row, Result]:
    """A run of two drawops, the first of which is lost once."""
    result = run(replace(settings, draws=2), program())
    assert len(result.rows) == 1
    return result.rows[0], result


def must_be(row: Row, lost: int, requests: int, repairs: int) -> None:
    assert (row.lost, row.requests, row.repairs) == (lost, requests, repairs)


def is_within(value: float | None, least: float, greatest: float) -> bool:
    return value is not None and least <= value <= greatest
