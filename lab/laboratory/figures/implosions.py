"""What an implosion costs: links that carry little, with queues that overflow."""
from __future__ import annotations

from laboratory.figures.cases import Case, Figure, Measured, Record, Scale, estimated, series
from laboratory.figures.words import number, picture, sure
from laboratory.plots import Panel, Plot
from laboratory.runs import DEFAULT_TUNING, Settings
from live.constants import FAR

TUNINGS = (DEFAULT_TUNING, FAR)
RATES = (2_000, 8_000, 32_000, 128_000)  # bytes a second
QUEUE = 1_500


def implosions(scale: Scale) -> Figure:
    """All at one distance of 40 ms. Each link has the rate, and a queue of 1,500 bytes; the source's link and a member's lose in turn."""
    rates = RATES if len(scale.constants) > 2 else RATES[-2:]
    keys = [(rate, tuning) for rate in rates for tuning in TUNINGS]

    def settings(rate: int, tuning: str) -> Settings:
        return Settings(members=scale.group, loss=f"link:0-1,0-{scale.group}", tuning=tuning, delay=(0.02, 0.02), draws=4, every=20.0,
                        bandwidth=rate, queue=QUEUE, session=40.0)

    def table(measured: dict[str, Measured]) -> list[Record]:
        records = []
        for rate, tuning in keys:
            m = measured[f"{rate} {tuning}"]
            record: Record = {"rate": rate, "tuning": tuning.replace(",", " ")}
            for what in ("requests", "repairs", "seconds"):
                record |= m.mean(what, what)
            record |= estimated("dropped", [run.totals["dropped"] / max(1, len(run.rows)) for run in m.runs])
            records.append(record)
        return records

    def plots(records: list[Record]) -> dict[str, Plot]:
        panels = [
            Panel(title, "bytes a second of each link", up,
                  [series(t, [r for r in records if r["tuning"] == t.replace(",", " ")], "rate", column) for t in TUNINGS], log_x=True)
            for title, up, column in (("Until the last member has it", "seconds", "seconds"), ("Datagrams that found a full queue", "for a loss", "dropped"))
        ]
        return {"implosions": Plot(f"{scale.group} members at one distance, narrow links", panels)}

    def section(records: list[Record]) -> str:
        few, many = ([r for r in records if r["tuning"] == t.replace(",", " ")] for t in (TUNINGS[1], TUNINGS[0]))
        return picture("implosions", "Narrow links", f"""On links of {number(many[0]['rate'])} bytes a second, each loss makes
            {sure(many[0], 'dropped')} datagrams find a full queue with {TUNINGS[0]}, and {sure(few[0], 'dropped')} with {TUNINGS[1]}. The last
            member has the drawop after {sure(many[0], 'seconds')} and {sure(few[0], 'seconds')} s. On links of {number(many[-1]['rate'])} an
            implosion costs little: {sure(many[-1], 'seconds')} and {sure(few[-1], 'seconds')} s.""")

    return Figure("implosions", {f"{r} {t}": Case(settings(r, t), scale.runs) for r, t in keys}, table, plots, section)
