"""How soon all have a single drawing, and what it costs, by the number of members: what few of them wait for, many send too often."""
from __future__ import annotations

from dataclasses import replace

from laboratory.figures.cases import Case, Figure, Measured, Record, Scale, estimated, rounded, series
from laboratory.figures.words import picture, sure
from laboratory.figures.words import table as table_of
from laboratory.intervals import quantile
from laboratory.measures import Loss
from laboratory.plots import Panel, Plot
from laboratory.runs import DEFAULT_TUNING, Result, Settings, micros, run
from laboratory.session import Session
from live.constants import FAR, FEW, NEAR, SEVERAL

DRAWERS = 3  # at most, of whom each draws four times a second
BASE = Settings(judge="keep", drawers=DRAWERS, every=0.25, until=4_000)
DRAWINGS, OF_MANY = 99, 33  # of a run, and of one of more than ten members
WARM, COLD = 20.0, 0.3  # seconds until the first drawing: delays are measured then, or nobody was heard yet
TUNINGS = (FEW, DEFAULT_TUNING, SEVERAL, NEAR, FAR)
PLACES = {"LAN": (1, WARM), "20 ms": (20, WARM), "20 ms, cold": (20, COLD), "broker": (75, WARM)}  # milliseconds one way
GROUPS = (2, 3, 4, 5, 8, 10, 20, 30)
SHARES = (0.1, 0.3)
MORE_SHARES, OF_GROUPS, OF_PLACE = (0.05, 0.2), (3, 10), "20 ms"  # also these, of these groups, in this place
RUNS = {2: 16, 3: 16, 4: 16, 5: 16, 8: 6, 10: 6}  # and 2 of larger groups
MOST_RUNS, OF_THREE = 60, 0.3  # of three members that lose so much
SHOWN = {0.5: "median", 0.9: "ninety", 0.99: "ninety_nine", 1.0: "slowest"}


def settings_of(group: int, place: str, share: float, tuning: str) -> Settings:
    delay, start = PLACES[place]
    drawers, drawings = min(DRAWERS, group), OF_MANY if group > 10 else DRAWINGS
    return replace(BASE, members=group, drawers=drawers, draws=drawings // drawers, delay=2 * (delay / 2_000,), start=start, loss=f"share-in:{share}",
                   tuning=tuning)


def run_drawings(settings: Settings, path: str) -> Result:
    """A run with the seconds of each drawing until all had it. The last of each member is left out: a driver sends that again."""
    took: list[float] = []

    def see(session: Session) -> None:
        delay = micros(2 * settings.delay[0])
        names = [(source, at) for source in range(1, settings.drawers + 1) for at in range(1, settings.draws)]
        took.extend(seconds_of(session.book.losses.get(name), delay) for name in names)

    result = run(settings, path, see=see)
    result.totals.update(took=took, drawers=settings.drawers)
    return result


def seconds_of(loss: Loss | None, delay: int) -> float:
    return (max(loss.repaired.values()) - loss.sent if loss else delay) / 1_000_000


def few(scale: Scale) -> Figure:
    small = len(scale.constants) <= 2
    groups, places, tunings = ((3, 5), ("20 ms",), TUNINGS[:4]) if small else (GROUPS, tuple(PLACES), TUNINGS)
    nets = [(group, place, share) for group in groups for place in places for share in SHARES]
    nets += [(group, OF_PLACE, share) for group in OF_GROUPS for share in MORE_SHARES if not small]
    keys = [(*net, tuning) for net in sorted(nets, key=lambda net: (net[0], places.index(net[1]), net[2])) for tuning in tunings]

    def case(group: int, place: str, share: float, tuning: str) -> Case:
        runs = MOST_RUNS if (group, share) == (3, OF_THREE) else RUNS.get(group, 2)
        return Case(settings_of(group, place, share, tuning), 2 if small else runs, run_drawings)

    def table(measured: dict[str, Measured]) -> list[Record]:
        return [{"members": group, "network": place, "lost": share, "tuning": tuning.replace(",", " "),
                 **record_of(measured[f"{group} {place} {share} {tuning}"])} for group, place, share, tuning in keys]

    def plots(records: list[Record]) -> dict[str, Plot]:
        panels = []
        for column, title, up in (("ninety_nine", "99 in 100 drawings are with all", "seconds"), ("bytes", "Sent for a drawing", "bytes")):
            shown = [series(tuning, [r for r in of_place(records, OF_PLACE, max(SHARES)) if r["tuning"] == tuning.replace(",", " ")], "members", column)
                     for tuning in tunings]
            panels.append(Panel(title, "members", up, shown, log_x=True, log_y=True))
        return {"few": Plot("Single drawings, 20 ms one way, three in ten lost", panels)}

    cases = {f"{g} {p} {s} {t}": case(g, p, s, t) for g, p, s, t in keys}
    return Figure("few", cases, table, plots, section_of)


def record_of(measured: Measured) -> Record:
    """Times of all drawings of all runs, and what a drawing cost, of each run."""
    took = [seconds for one in measured.runs for seconds in one.totals["took"]]
    record: Record = {"runs": len(measured.runs), "drawings": len(took), **{column: rounded(quantile(took, share)) for share, column in SHOWN.items()}}
    costs = [cost_of(one.totals, len(one.totals["took"])) for one in measured.runs]
    for at, column in enumerate(("requests", "repairs", "bytes")):
        record |= estimated(column, [cost[at] for cost in costs])
    return record


def cost_of(totals: Record, timed: int) -> tuple[float, float, float]:
    """Requests, repairs, and bytes of these and of the drawing itself, for each drawing."""
    datagrams, sizes = totals["datagrams"], totals["bytes"]
    drawings = timed + totals["drawers"]
    requests, drawops = datagrams.get("request", 0), datagrams["drawop"]
    return requests / drawings, (drawops - drawings) / drawings, (sizes.get("request", 0) + sizes["drawop"]) / drawings


def of_place(records: list[Record], place: str, share: float) -> list[Record]:
    return [r for r in records if (r["network"], r["lost"]) == (place, share)]


def section_of(records: list[Record]) -> str:
    hard = of_place(records, OF_PLACE, max(SHARES))
    of = {(r["members"], r["tuning"].replace(" ", ",")): r for r in hard}
    groups: list[int] = sorted({r["members"] for r in hard})
    few_of, several, most = (min(groups, key=lambda group: abs(group - wanted)) for wanted in (3, 10, groups[-1]))

    def told(group: int, tuning: str, *columns: str) -> str:
        return " and ".join(f"{sure(of[group, tuning], column)} {column}" for column in columns) + f" with {tuning}"

    text = picture("few", "Single drawings, by the number of members", f"""If {max(SHARES):.0%} are lost, 20 ms one way, 99 in 100 drawings of
        {few_of} members have come to all within {milliseconds(of[few_of, FEW], 'ninety_nine')} ms with {FEW}, and within
        {milliseconds(of[few_of, NEAR], 'ninety_nine')} ms with {NEAR}. Of {several} members it is
        {milliseconds(of[several, SEVERAL], 'ninety_nine')} ms for {told(several, SEVERAL, 'bytes')}, and
        {milliseconds(of[several, NEAR], 'ninety_nine')} ms for {told(several, NEAR, 'bytes')}. {most} members send
        {told(most, DEFAULT_TUNING, 'repairs')}, and {told(most, NEAR, 'repairs')}.""")
    heads = ("Members", "Network", "Lost", "Constants", "Median, ms", "90 in 100", "99 in 100", "Slowest", "Requests", "Repairs", "Bytes", "Runs")
    cells = table_of(heads, records, lambda r: [
        str(r["members"]), r["network"], f"{r['lost']:.0%}", r["tuning"].replace(" ", ","), *(milliseconds(r, column) for column in SHOWN.values()),
        *(sure(r, column) for column in ("requests", "repairs", "bytes")), str(r["runs"])])
    return f"{text}\n\n{cells}"


def milliseconds(record: Record, column: str) -> str:
    return f"{1_000 * record[column]:,.0f}"
