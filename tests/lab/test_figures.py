"""The figures of docs/LABORATORY.md: few points of each, and the words beside them."""

from __future__ import annotations

import csv
import math
import subprocess
import tempfile
from pathlib import Path

from laboratory.figures.cases import Measured, Run, compared, of_one
from laboratory.figures.few import record_of, seconds_of, settings_of
from laboratory.figures.level import candidates, least_width, search_told
from laboratory.figures.words import apart, holds, put, sure
from laboratory.measures import Loss, Row

HERE = Path(__file__).resolve().parents[2] / "lab"


def test_figures_are_made_by_one_command() -> None:
    """Few points of each figure: each has a table with a number in each column of a mean, and each plot names a series."""
    with tempfile.TemporaryDirectory() as place:
        ended = subprocess.run([HERE / "figures", "--small", "--jobs", "2", "--to", place], capture_output=True, text=True)
        assert ended.returncode == 0 and "all in " in ended.stdout, ended
        tables = {file.stem: list(csv.DictReader(file.open())) for file in Path(place).glob("*.csv")}
        assert {"star-requests", "star-repairs", "chain", "tree", "random", "adaptive", "implosions", "places", "kept-adapting", "moments", "reports", "level", "few"} <= set(tables)
        assert all(float(row["requests"]) >= 1 and math.isfinite(float(row["requests_95"])) for row in tables["star-requests"]), tables["star-requests"]
        plots = {file.stem: file.read_text() for file in Path(place).glob("*.svg")}
        assert len(plots) > 5, plots.keys()
        assert [name for name, text in plots.items() if "prefers-color-scheme" not in text] == []


def test_a_case_is_measured_run_by_run() -> None:
    """Two runs: losses of 1 and 3 requests, and of 5: the mean of the runs is 3.5, each of them a draw. One loss is of one member."""
    rows = [Row(1, 1, 2, 1, 1, 0.5, 1.0, 0.1), Row(1, 3, 1, 3, 2, None, 2.0, 0.2), Row(1, 1, 2, 5, 1, 1.5, 3.0, 0.3)]
    measured = Measured([Run(rows[:2], {}), Run(rows[2:], {})])
    assert measured.draws("requests") == [2, 5] and measured.draws("requests+repairs") == [3.5, 6], measured.draws("requests")
    assert measured.draws("first_request") == [0.5, 1.5] and measured.draws("requests", of_one) == [3], "losses that have it"
    found = measured.mean("requests", "requests")
    assert found == {"requests": 3.5, "requests_95": 19.06}
    assert measured.quarters("r", "requests") == {"r_lower": 1, "r_median": 3, "r_upper": 5}
    assert compared("more", [2, 5], [1, 2]) == {"more": 2, "more_95": 12.71}


def test_drawings_are_measured() -> None:
    """One that all have at once takes the way, and one that was lost until the last has it. Of two runs of four drawings, of which three and three
    are timed: the costs of each, and the times of all."""
    assert seconds_of(None, 20_000) == 0.02 and seconds_of(Loss((1, 1), 1_000_000, {2, 3}, repaired={2: 1_500_000, 3: 2_250_000}), 20_000) == 1.25
    totals = {"took": [0.02, 0.02, 1.5], "drawers": 1, "datagrams": {"request": 4, "drawop": 6, "session": 9}, "bytes": {"request": 120, "drawop": 280, "session": 900}}
    record = record_of(Measured([Run([], totals), Run([], {**totals, "took": [0.02, 0.5, 3.0]})]))
    assert (record["drawings"], record["median"], record["ninety_nine"], record["slowest"]) == (6, 0.02, 3.0, 3.0), record
    assert (record["requests"], record["repairs"], record["bytes"]) == (1.0, 0.5, 100.0), record
    far = settings_of(30, "broker", 0.1, "2,2,1,1")
    assert (far.delay, far.drawers, far.draws, far.loss) == ((0.0375, 0.0375), 3, 11, "share-in:0.1"), far


def test_hosts_give_the_same_tables() -> None:
    """Figures of constants that are fixed or adapt, with timers that are reckoned here and with hosts: the same tables and plots, byte for byte."""
    names = ("star-requests", "chain", "tree", "tunings-star", "adaptive", "level")
    with tempfile.TemporaryDirectory() as place:
        for of, words in (("timers", ""), ("hosts", "--hosts")):
            command = [str(HERE / "figures"), "--small", "--only", ",".join(names), *words.split(), "--jobs", "2", "--to", str(Path(place) / of)]
            subprocess.run(command, check=True, capture_output=True)
        timers, hosts = ({file.name: file.read_bytes() for file in (Path(place) / of).iterdir()} for of in ("timers", "hosts"))
        assert set(timers) > {f"{name}.csv" for name in names}
        assert timers == hosts


def test_the_page_says_what_the_table_has() -> None:
    """A mean with its interval, to the place at which that counts, and a section that is put between its marks and nowhere else."""
    record = {"a": 25.63, "a_95": 0.87, "b": 99.0, "b_95": 0.0, "c": 3.14159, "c_95": 0.012, "d": 1.5, "e": None}
    assert [sure(record, column) for column in "abcde"] == ["25.6 ± 0.9", "99.00 ± 0.00", "3.14 ± 0.01", "1.5", "-"]
    assert holds({"x": 5.0, "x_95": 0.5, "y": 5.4}, "x", "y") and not holds({"x": 5.0, "x_95": 0.5, "y": 5.6}, "x", "y"), "an interval holds"
    page = "one\n<!-- figure f -->\nold\n<!-- end f -->\ntwo\n"
    assert put(page, "f", "new") == page.replace("old", "new") and put(page, "g", "new") == page, put(page, "f", "new")
    long = "| a |\n|---|\n" + "| 1 |\n" * 9
    assert apart("f", "said\n\n| a |\n|---|") == "said\n\n| a |\n|---|", "a short table stays"
    assert apart("f", f"said\n\n{long}\nmore") == "said\n\n[Its table](laboratory/f.csv).\n\nmore"


def test_constants_are_searched() -> None:
    """49 timers over ten distances: 1 + 4.9 fire, and 6.4 over nine. Where 5 ms count as 10, five are enough. Of four constants one has too
    many requests, one has them perhaps, and of the other two the second waits less."""
    assert (least_width(50, 40), least_width(50, 5), least_width(10, 40), least_width(500, 40)) == (10, 5, 2, 16), "widths"
    found = candidates(50, 40)
    assert len(found) == 4 * 7 * 2 and found[0] == "1,10,1,10" and found[-1] == "4,16,1,11", found

    def record(tuning: str, requests: float, half: float, seconds: float) -> dict[str, object]:
        return {"tuning": tuning, "requests": requests, "requests_95": half, "repairs": 5, "repairs_95": 0.5, "seconds": seconds, "seconds_95": 0.25}

    records = [record("1 1 1 1", 7, 0.1, 0.1), record("2 2 1 1", 5.9, 0.2, 0.2), record("4 4 1 1", 5, 1, 0.8), record("3 3 1 1", 5.5, 0.5, 0.5)]
    told = search_told(40, records, records[1])
    assert told.startswith("at 40 ms 3,3,1,1 waits least, 500 ± 250 ms, of 4; that of wb-live, 2,2,1,1, waits 200 ± 250 ms"), told
    assert "at 5 ms none of 2;" in search_told(5, records[:2], records[1]), "none is left"
