"""Hosts with a record."""

from __future__ import annotations

import os
import resource
from collections.abc import Callable
from pathlib import Path

import pytest
import wb

from ..facts import Facts
from .conftest import Start, raised, refused

LINE = "line 0 0 4 0 *"
OWN = 10**15  # a time of drawings


@pytest.fixture
def opened(start: Start, tmp_path: Path) -> Callable[[], wb.RecordedHost]:
    """What opens member 7 over the record of this test."""
    return lambda: wb.RecordedHost(7, str(tmp_path / "record"), by=start())


Open = Callable[[], wb.RecordedHost]


def test_kept(opened: Open, facts: Facts, monkeypatch: pytest.MonkeyPatch) -> None:
    """What is drawn is on the disk before it is sent, and a host goes on where it ended."""
    synced: list[int] = []
    sync = os.fsync

    def syncs(file: int) -> None:
        synced.append(file)
        sync(file)

    with opened() as host:
        facts("a new record listens first", (host.ready_at - host.begun, refused(lambda: host.add(host.begun + 1, 5, "1/1", LINE))), (6_000_000, "listening"))
        monkeypatch.setattr(os, "fsync", syncs)
        drawn = [host.add(host.ready_at + at, OWN + at, "1/1", f"line 0 {at} 4 {at} *") for at in (0, 1)]
        both = host.add_all(host.ready_at + 2, OWN, "2/1", [LINE, "line 0 1 4 1 *"])
        monkeypatch.undo()
        facts("each has its number", [answer.send[-1][20:24] for answer in drawn], [b"\0\0\0\1", b"\0\0\0\2"])
        facts("many by one sync", (len(synced), len(both)), (3, 2))
        facts("a record is one member's", refused(opened), "another member has this record")
        theirs = drawn[0].send[-1][:8] + (9).to_bytes(4, "big") + drawn[0].send[-1][12:]
        facts("what comes in is new", [host.came(host.ready_at + 5, theirs, 5).became, host.came(host.ready_at + 6, theirs[:9], 5).refused], [wb.Became.NEW, "dropped datagram"])
        shown, last = host.view("1/1"), host.ready_at + 6
    with opened() as host:
        facts("it goes on where it ended", (host.view("1/1"), host.next_number("1/1"), host.begun > last, host.ready_at - host.begun), (shown, 3, True, 0))


def test_crashed(opened: Open, tmp_path: Path) -> None:
    crashed = opened()
    crashed.add(crashed.ready_at, OWN, "1/1", LINE)
    crashed.by.end()
    crashed.record.is_broken = True
    crashed.end()
    with (tmp_path / "record").open("ab") as torn:
        torn.write(b"say draw 7 1/1 2 1")
    with opened() as host:
        assert (host.next_number("1/1"), host.ready_at - host.begun) == (2, 6_000_000)


def test_no_room(opened: Open, tmp_path: Path) -> None:
    """What finds no room is not sent, and its number is free."""
    with opened() as host:
        host.add(host.ready_at, OWN, "1/1", LINE)
        size = os.path.getsize(tmp_path / "record")
        limits = resource.getrlimit(resource.RLIMIT_FSIZE)
        resource.setrlimit(resource.RLIMIT_FSIZE, (size + 10, limits[1]))
        try:
            assert raised(lambda: host.add(host.ready_at, OWN, "1/1", "line 0 3 4 3 *")) == "OSError"
        finally:
            resource.setrlimit(resource.RLIMIT_FSIZE, limits)
        assert os.path.getsize(tmp_path / "record") == size
    with opened() as host:
        assert (host.next_number("1/1"), host.ready_at - host.begun) == (2, 6_000_000)


def test_not_its_own(opened: Open, start: Start, tmp_path: Path) -> None:
    """Another member's record, and another file, which stays as it is."""
    opened().end()
    assert refused(lambda: wb.RecordedHost(8, str(tmp_path / "record"), by=start())) == "it is no record of member 8"
    (tmp_path / "record").write_text("Dear reader")
    assert refused(opened) == "it is no record"
    assert (tmp_path / "record").read_text() == "Dear reader"
