"""What a run writes: words, CSV, JSON and a plot."""
from __future__ import annotations

import csv
import json
from dataclasses import asdict, fields
from pathlib import Path
from typing import Any

from laboratory.measures import Row, summary
from laboratory.plots import Panel, Plot, Point, Series
from laboratory.runs import Result


def write_csv(path: Path, rows: list[Row]) -> None:
    """One line a loss."""
    write_table(path, [field.name for field in fields(Row)], [asdict(row) for row in rows])


def write_table(path: Path, names: list[str], rows: list[dict[str, Any]]) -> None:
    with path.open("w", newline="") as file:
        writer = csv.DictWriter(file, names, lineterminator="\n")
        writer.writeheader()
        writer.writerows(rows)


def write_json(path: Path, value: Any) -> None:
    path.write_text(json.dumps(value, indent=1, sort_keys=True) + "\n")


def words_of(result: Result) -> str:
    """A run in a few lines."""
    numbers, totals = summary(result.rows), result.totals
    sent = ", ".join(f"{count} {kind}" for kind, count in totals["datagrams"].items())
    lines = [f"{result.settings.shape} of {result.settings.members} members: {numbers['losses']} losses"]
    if numbers["losses"]:
        lines += [
            f"requests a loss: {numbers['requests_mean']:.3f}, repairs a loss: {numbers['repairs_mean']:.3f} (means)",
            f"first request after {in_units(numbers['first_request_mean'])}, last repair after {in_units(numbers['last_repair_mean'])} "
            f"round trips to the source, which is {in_units(numbers['seconds_mean'])} s (means)",
        ]
    if totals["seconds_from_coming"]:
        lines.append("members that came were whole after " + ", ".join(f"{seconds:.3f} s" for seconds in totals["seconds_from_coming"]))
    lines += [
        f"datagrams sent: {sent}; bytes of session messages: {totals['bytes'].get('session', 0)}",
        f"all show the same page {totals['seconds_until_all_show_the_same']:.3f} s after the last drawop was sent",
    ]
    return "\n".join(lines)


def in_units(value: float | int | None) -> str:
    return "-" if value is None else f"{value:.3f}"


def shares(values: list[float]) -> list[Point]:
    """For each value the share of values that are not above it."""
    ordered = sorted(values)
    return [Point(0.0, 0.0)] + [Point(value, (at + 1) / len(ordered)) for at, value in enumerate(ordered)]


def plot_of(result: Result) -> str:
    """How soon losses were asked for and repaired."""
    first = [row.first_request for row in result.rows if row.first_request is not None]
    last = [row.last_repair for row in result.rows if row.last_repair is not None]
    series = [Series(name, shares(values), marks=False) for name, values in (("asked for by then", first), ("repaired everywhere by then", last)) if values]
    title = f"{result.settings.shape} of {result.settings.members}"
    panel = Panel("", "round trips to the source", "share of the losses", series)
    return Plot(title, [panel]).svg() if series else '<svg xmlns="http://www.w3.org/2000/svg"/>\n'
