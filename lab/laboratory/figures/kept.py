"""Self-managing members, as people run them: on each kind of network, with losses, joins, reports and wrong clocks."""
from __future__ import annotations

from dataclasses import dataclass, replace

from laboratory.figures.cases import Case, Figure, Measured, Record, Scale, estimated, of_many, of_one, rounded, series
from laboratory.figures.words import number, picture, sure
from laboratory.figures.words import table as table_of
from laboratory.plots import Panel, Plot, Point, Series
from laboratory.runs import DEFAULT_TUNING, Settings
from live.constants import FAR, NEAR

KEPT = Settings(judge="keep")
MILLION = 1_000_000


@dataclass(frozen=True)
class Place:
    """A network as people have it: its words, and what the source's link and one member's are where they lose in turn. `tuning` are the
    constants that wb-live would take beside those of hosts: on this machine with a member for each browser, on a LAN, or by a broker."""

    words: str
    settings: Settings
    is_star: bool = True
    tuning: str = FAR


PLACES = {
    "machine": Place("one machine", replace(KEPT, delay=(0.00005, 0.00005)), tuning=NEAR),
    "lan": Place("LAN", replace(KEPT, delay=(0.00015, 0.00015)), tuning=NEAR),
    "radio": Place("radio LAN", replace(KEPT, delay=(0.0025, 0.0025)), tuning=NEAR),
    "broker": Place("broker", replace(KEPT, delay=(0.02, 0.02))),
    "star": Place("5 to 50 ms", replace(KEPT, delay=(0.005, 0.05))),
    "domains": Place("domains", replace(KEPT, shape="domains", delay=(0.01, 0.05)), False),
    "tree": Place("tree", replace(KEPT, shape="tree", delay=(0.01, 0.01)), False),
}


def places(scale: Scale) -> Figure:
    """If all are at one distance or on a star, the source's link and one member's lose in turn; else a link by chance."""
    groups = (min(10, scale.group), scale.group)
    keys = [(group, place, tuning) for group in groups for place, of in PLACES.items() for tuning in (DEFAULT_TUNING, of.tuning)]

    def settings(group: int, place: str, tuning: str) -> Settings:
        of = PLACES[place]
        loss = f"link:0-1,0-{group}" if of.is_star else "each"
        nodes = scale.tree_nodes if place == "tree" else 0
        return replace(of.settings, members=group, nodes=nodes, loss=loss, tuning=tuning, start=15.0 + group / 3,
                       draws=8, every=1.5)

    def table(measured: dict[str, Measured]) -> list[Record]:
        records = []
        for group, place, tuning in keys:
            m = measured[f"{group} {place} {tuning}"]
            record: Record = {"group": group, "network": place, "tuning": tuning.replace(",", " "), "losses": m.losses()}
            for what in ("requests", "repairs", "seconds", "last_repair"):
                record |= m.mean(what, what)
            record |= m.mean("source_requests", "requests", of_many) | m.mean("source_seconds", "seconds", of_many)
            record |= m.mean("member_repairs", "repairs", of_one) | m.mean("member_seconds", "seconds", of_one)
            record |= m.quarters("requests", "requests") | m.quarters("repairs", "repairs")
            records.append(record)
        return records

    def plots(records: list[Record]) -> dict[str, Plot]:
        panels = []
        for group in groups:
            for what, up in (("source_requests", "requests, if many lack it"), ("member_repairs", "repairs, if one lacks it"),
                             ("seconds", "seconds until the last has it")):
                shown = []
                for tuning in (DEFAULT_TUNING, NEAR, FAR):
                    own = [{**r, "x": list(PLACES).index(r["network"])} for r in records
                           if (r["group"], r["tuning"]) == (group, tuning.replace(",", " "))]
                    shown.append(series(tuning, own, "x", what, line=False))
                panels.append(Panel(f"{group} members", "", up, shown, log_y=what != "seconds", words=[place.words for place in PLACES.values()]))
        return {"places": Plot("Self-managing members, by network and constants", panels)}

    def section(records: list[Record]) -> str:
        of = {(r["network"], r["tuning"].replace(" ", ",")): r for r in records if r["group"] == groups[-1]}
        first, live, near = of["broker", DEFAULT_TUNING], of["broker", FAR], of["radio", NEAR]
        columns = ("source_requests", "member_repairs")
        few = "at most" if all(r[column] <= 6 for r in (live, near) for column in columns) else "more than"
        text = picture("places", "Self-managing members, by network", f"""With {DEFAULT_TUNING}, {groups[-1]} members at one distance of 40 ms, as with a broker,
            send {sure(first, columns[0])} requests for a loss on the source's link, and {sure(first, columns[1])} repairs for one on a member's
            link. With the constants of wb-live they send {few} 6 of each on average, there ({FAR}) and on a LAN by radio
            ({NEAR}); the last member has the drawop after {sure(live, 'seconds')} s instead of {sure(first, 'seconds')} there. On one
            computer and on a wired LAN, delays count as 10 ms at least, so a request is heard long before most timers are due. If members
            are at many distances, {FAR} saves less and waits longer: in domains {sure(of['domains', FAR], 'seconds')} s instead
            of {sure(of['domains', DEFAULT_TUNING], 'seconds')}.""")
        heads = ("Members", "Network", "Constants", "Requests, if many lack it", "Repairs, if one does", "Seconds, of all losses")
        cells = table_of(heads, records, lambda r: [str(r["group"]), PLACES[r["network"]].words, r["tuning"].replace(" ", ","),
                                                    *(sure(r, column) for column in ("source_requests", "member_repairs", "seconds"))])
        return f"{text}\n\n{cells}"

    cases = {f"{g} {p} {t}": Case(settings(g, p, t), scale.runs) for g, p, t in keys}
    return Figure("places", cases, table, plots, section)


def losses(scale: Scale) -> Figure:
    """Each link loses a share of everything, requests and repairs and reports too: each datagram by itself, or in bursts of a second."""
    shares = (0.0, 0.05, 0.1, 0.3) if len(scale.constants) > 2 else (0.1,)
    kinds = {"alone": "each by itself", "bursts": "in bursts of 1 s"}
    keys = [(share, kind) for share in shares for kind in kinds]

    def settings(share: float, kind: str) -> Settings:
        words = f"bursts:{share / 0.9:.4f}:1:0.9" if kind == "bursts" and share else f"share-all:{share}"
        return replace(PLACES["domains"].settings, members=12, loss=words, drawers=4, draws=15, every=2.0, start=10.0)

    def table(measured: dict[str, Measured]) -> list[Record]:
        records = []
        for share, kind in keys:
            m = measured[f"{share} {kind}"]
            record: Record = {"lost": share, "kind": kind, "losses": m.losses()}
            for what in ("requests", "repairs"):
                record |= m.mean(what, what)
            record |= m.mean("seconds", "seconds") | m.quarters("seconds", "seconds")
            record |= estimated("whole_after", [run.totals["seconds_until_all_show_the_same"] for run in m.runs])
            record |= estimated("bytes", [sum(run.totals["bytes"].values()) / run.totals["seconds"] / 12 for run in m.runs])
            records.append(record)
        return records

    def plots(records: list[Record]) -> dict[str, Plot]:
        panels = [
            Panel(title, "share of datagrams that each link loses", up,
                  [series(words, [r for r in records if r["kind"] == kind], "lost", column) for kind, words in kinds.items()])
            for title, up, column in (("From the last drawing until all are whole", "seconds", "whole_after"), ("Sent", "bytes a second, each member", "bytes"))
        ]
        return {"losses": Plot("12 members in transit and stub domains, 2 drawings a second", panels)}

    def section(records: list[Record]) -> str:
        most = {r["kind"]: r for r in records if r["lost"] == max(shares)}
        return picture("losses", "Losses, each by itself and in bursts", f"""If each link loses {100 * max(shares):.0f} in 100 of everything, all are whole
            {sure(most['alone'], 'whole_after')} s after the last drawing, and {sure(most['bursts'], 'whole_after')} s if the losses come in bursts; a member sends
            {sure(most['alone'], 'bytes')} and {sure(most['bursts'], 'bytes')} bytes a second. All runs ended whole.""")

    return Figure("losses", {f"{s} {k}": Case(settings(s, k), scale.runs) for s, k in keys}, table, plots, section)


def moments(scale: Scale) -> Figure:
    """What a join, a partition and a flash take. Large boards have fewer runs, and wider intervals."""
    domains = PLACES["domains"].settings
    small = len(scale.constants) <= 2
    board, most = (20, 40) if small else (500, 5_000)
    many = 6 if small else 50
    filled = {"drawers": 4, "every": 0.2}

    def joined(base: Settings, members: int, drawops: int, late: int) -> Settings:
        end = 5 + drawops / 4 * 0.2
        return replace(base, members=members, loss="none", start=5.0, draws=drawops // 4, late=late, join=end + 10, **filled)

    cases = {
        f"join of {board}, domains": Case(joined(domains, 20, board, 1), scale.runs),
        f"join of {most}, domains": Case(joined(domains, 20, most, 1), min(3, scale.runs)),
        "a minute apart, then together": Case(
            replace(KEPT, shape="halves", members=12, delay=(0.01, 0.01), loss="cut:0-1:20-80", start=10.0, draws=40, drawers=4, every=2.0), scale.runs),
        f"{many} join 5 at once, {board // 5} drawops": Case(joined(domains, many + 5, board // 5, many), scale.runs),
        "4 of 12 go and come, 10 s each": Case(
            replace(domains, members=12, loss="share-all:0.02", start=10.0, draws=40, drawers=4, every=2.0, coming=4, gone=10.0), scale.runs),
    }

    def table(measured: dict[str, Measured]) -> list[Record]:
        records = []
        for name, m in measured.items():
            whole = [whole_after(run.totals, name) for run in m.runs]
            lost = [max(1, len(run.rows)) for run in m.runs]
            record: Record = {"case": name, "runs": len(m.runs), **estimated("whole_after", whole), "most": rounded(max(whole))}
            record |= m.mean("requests", "requests") | m.mean("repairs", "repairs")
            for kind in ("request", "drawop", "session"):
                record |= estimated(kind, [run.totals["datagrams"].get(kind, 0) for run in m.runs])
            record |= estimated("kilobytes", [sum(run.totals["bytes"].values()) / 1_000 for run in m.runs])
            record |= estimated("lacked", lost)
            records.append(record)
        return records

    def section(records: list[Record]) -> str:
        heads = ("What happens", "Runs", "Seconds until whole", "at most", "Requests a drawop", "Repairs a drawop", "Requests, drawops and reports sent", "kB sent")
        return table_of(heads, records, lambda r: [
            r["case"], str(r["runs"]), sure(r, "whole_after"), number(r["most"]), sure(r, "requests"), sure(r, "repairs"),
            ", ".join(number(r[kind]) for kind in ("request", "drawop", "session")), sure(r, "kilobytes")])

    return Figure("moments", cases, table, lambda records: {}, section)


def whole_after(totals: Record, name: str) -> float:
    """From the moment at which members come, or are together again at 80 s, until the last of them is whole."""
    if name.startswith("a minute"):
        return max(0.0, float(totals["last_whole"]) - 80)
    return max(totals["seconds_from_coming"], default=0.0)


def reports(scale: Scale) -> Figure:
    """Reports as the group grows: all of them together may take 4,000 bytes a second, a twentieth of 640 kbit/s."""
    groups = ((3, 1), (10, 1), (25, 1), (50, 1), (1_000, 0)) if len(scale.constants) > 2 else ((3, 1), (6, 1))
    lasts = {1_000: 130.0}

    def settings(group: int) -> Settings:
        return replace(PLACES["broker"].settings, members=group, loss="none", start=2.0, draws=1, drawers=min(3, group), lasts=lasts.get(group, 90.0))

    def table(measured: dict[str, Measured]) -> list[Record]:
        records = []
        for name, m in measured.items():
            record: Record = {"members": int(name), "runs": len(m.runs)}
            for what in ("bytes_a_second", "bytes", "interval"):
                record |= estimated(what, [run.totals["reports"][what] for run in m.runs])
            records.append(record)
        return [{key: None if value == float("inf") else value for key, value in record.items()} for record in records]

    def plots(records: list[Record]) -> dict[str, Plot]:
        allowed = Series("allowed", [Point(r["members"], 4_000) for r in records], marks=False)
        panels = [
            Panel("All reports", "members", "bytes a second", [series("measured", records, "members", "bytes_a_second"), allowed], log_x=True),
            Panel("Of one member", "members", "seconds from one report to the next", [series("measured", records, "members", "interval")], log_x=True),
        ]
        return {"reports": Plot("Reports as the group grows", panels)}

    def section(records: list[Record]) -> str:
        last, middle = records[-1], records[-2]
        return picture("reports", "Reports as the group grows", f"""All members together may use 4,000 bytes a second. {middle['members']} use {sure(middle, 'bytes_a_second')},
            with a report of each member every {sure(middle, 'interval')} s. No member waits more than 96 s, so {last['members']} use
            {sure(last, 'bytes_a_second')} ({last['runs']} run{'s' if last['runs'] > 1 else ''}): more than some 200 members exceed the limit.""")

    return Figure("reports", {str(g): Case(settings(g), scale.runs if usual else 1) for g, usual in groups}, table, plots, section)


def clocks(scale: Scale) -> Figure:
    """Each member's clock begins elsewhere, and gains or loses up to so much."""
    skews = (0, 10_000, 50_000)

    def settings(fast: int) -> Settings:
        return replace(PLACES["domains"].settings, members=12, loss="each", drawers=2, draws=10, every=2.0, start=10.0, fast=fast)

    def table(measured: dict[str, Measured]) -> list[Record]:
        records = []
        for name, m in measured.items():
            record: Record = {"parts_in_a_million": int(name), "losses": m.losses()}
            for what in ("requests", "repairs", "seconds", "last_repair"):
                record |= m.mean(what, what)
            records.append(record)
        return records

    def section(records: list[Record]) -> str:
        heads = ("Clocks wrong by up to", "Losses", "Requests", "Repairs", "Seconds until the last repair")
        return table_of(heads, records, lambda r: [f"{r['parts_in_a_million'] / 10_000:g} in 100", str(r["losses"]),
                                                   *(sure(r, column) for column in ("requests", "repairs", "seconds"))])

    return Figure("clocks", {str(fast): Case(settings(fast), scale.runs) for fast in skews}, table, lambda records: {}, section)
