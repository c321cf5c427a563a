"""Members with self-managing hosts."""

from __future__ import annotations

import tempfile
from dataclasses import replace
from pathlib import Path

from laboratory.program import program
from laboratory.runs import Settings, run

from .checking import is_within


KEPT = Settings(judge="keep", members=3, start=20, every=3)


def test_kept_members_get_four_kinds_of_lines() -> None:
    """Whatever happens, what a host is given is what came, ticks, what is drawn, and `keep` behind its board."""
    with tempfile.TemporaryDirectory() as place:
        run(replace(KEPT, members=4, draws=6, drawers=2, late=1, loss="share-all:0.1"), program(), Path(place))
        for file in Path(place).iterdir():
            verbs = [line.split()[0] for line in file.read_text().splitlines()]
            assert set(verbs) <= {"board", "keep", "came", "tick", "add"} and verbs.count("keep") == 1, set(verbs)


# Members at 40 ms from one another have told one another so by 20 s, as their reports come each 1 to 3 s. Who notices a loss asks after two
# to four of these, which is 1 to 2 round trips, and the source repairs after one or two more, 40 ms before that is there.
def test_kept_members_measure_delays_by_echoes() -> None:
    for seed in range(1, 4):
        rows = run(replace(KEPT, delay=(0.02, 0.02), draws=6, loss="link:0-1", seed=seed), program()).rows
        assert len(rows) == 3
        for row in rows:
            assert row.lost == 2 and 1 <= row.requests <= 2 and row.repairs == 1, row
            assert is_within(row.first_request, 1, 2) and is_within(row.seconds, 0.16, 0.32), row


# At 0.3 ms from one another they take 10 ms, so a request waits 20 to 40 ms and a repair 10 to 20, with 0.6 ms on the way.
def test_kept_members_wait_on_a_lan() -> None:
    rows = run(replace(KEPT, delay=(0.00015, 0.00015), draws=10, loss="link:0-1,0-3"), program()).rows
    assert [row.lost for row in rows] == [2, 1, 2, 1, 2]
    for row in rows:
        assert is_within(row.first_request, 20 / 0.6, 40 / 0.6) and is_within(row.seconds, 0.0306, 0.0606), row


def test_kept_members_report_as_often_as_they_may() -> None:
    """Three members may take 4,000 bytes a second, and so report every 2 seconds, times 0.5 to 1.5. A report has 32 bytes of fields, one
    mark of 8 once something is drawn, and two echoes of 20 once both others were heard: 80."""
    sent: dict[int, list[tuple[int, int]]] = {}
    settings = replace(KEPT, start=5, draws=1, loss="none", lasts=60.0)
    result = run(settings, program(), see=lambda session: sent.update(session.book.reports))
    waits = [later - moment for reports in sent.values() for (moment, _), (later, _) in zip(reports, reports[1:])]
    assert len(sent) == 3 and min(waits) >= 1_000_000 and max(waits) <= 3_000_000 and len(waits) > 60, sorted(waits)
    assert {size for reports in sent.values() for moment, size in reports if moment > 10_000_000} == {80}
    assert result.totals["reports"]["bytes"] == 80 and 1 < result.totals["reports"]["interval"] < 3, result.totals


def test_kept_members_join_and_heal() -> None:
    """A newcomer gets 100 drawops of others, each asked for once by it alone if nothing is lost. Halves that drew apart are whole again
    within a minute, and each lacked what the other drew meanwhile: four members draw every 2 s for 20 s, so 10 times each."""
    result = run(replace(KEPT, members=4, start=5, draws=100, every=0.05, late=1, join=15, loss="none"), program())
    assert len(result.rows) == 100 and all(row.lost == 1 and row.requests >= 1 for row in result.rows), result.totals
    assert 0 < result.totals["seconds_from_coming"][0] < 10, result.totals
    apart = replace(KEPT, shape="halves", members=4, start=10, draws=20, drawers=4, every=2.0, loss="cut:0-1:20-40")
    healed = run(apart, program())
    assert len(healed.rows) == 40 and {row.lost for row in healed.rows} == {2} and 40 < healed.totals["last_whole"] < 100, healed.totals


def test_kept_members_hold_through_losses() -> None:
    """A third of all datagrams is lost on each link, in bursts; one member goes and comes."""
    result = run(replace(KEPT, members=5, draws=8, drawers=2, coming=1, gone=4, loss="bursts:0.33:0.5:1"), program())
    assert result.totals["all_show_the_same"] and len(result.rows) > 4, result.totals
