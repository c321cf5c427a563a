"""Chains, by the link that loses, and trees of growing size, with the constants of the publication as near as whole numbers go."""
from __future__ import annotations

import math
from dataclasses import replace

from laboratory.figures.cases import Case, Figure, Measured, Record, Scale, medians, series
from laboratory.figures.words import number, picture, sure
from laboratory.measures import Row
from laboratory.plots import Panel, Plot, Point, Series
from laboratory.runs import Settings


def published_tuning(members: int) -> str:
    """C1 = C2 = 2, and D1 = D2 = the logarithm of the group to the base 10, as the nearest whole number from 1 on."""
    spread = max(1, round(math.log10(members)))
    return f"2,2,{spread},{spread}"


def trees(shape: str, scale: Scale) -> Figure:
    """Each run has a network of its own, and each loss is on a link by chance. Of a bounded-degree tree few nodes are members; of a random
    one all are."""
    sparse = shape == "tree"

    def settings(members: int) -> Settings:
        nodes = scale.tree_nodes if sparse else 0
        return Settings(shape=shape, members=members, nodes=nodes, loss="each", draws=2 * scale.losses, tuning=published_tuning(members),
                        who="timers")

    def table(measured: dict[str, Measured]) -> list[Record]:
        records = []
        for members in scale.trees:
            m = measured[str(members)]
            record: Record = {"members": members, "tuning": published_tuning(members).replace(",", " "), "losses": m.losses()}
            for what in ("requests", "repairs", "first_request", "last_repair"):
                record |= m.mean(what, what) | m.quarters(what, what)
            records.append(record)
        return records

    def plots(records: list[Record]) -> dict[str, Plot]:
        title = f"Trees of degree 4 with {scale.tree_nodes} nodes, few members" if sparse else "Random trees, each node a member"
        panels = []
        for what, name, up in (("requests", "Requests", "requests for a loss"), ("repairs", "Repairs", "repairs for a loss"),
                               ("last_repair", "Until the last member has it", "round trips to the source")):
            shown = [medians("median, quartiles", records, "members", what, style=0), series("mean, 95 in 100", records, "members", what, style=1)]
            panels.append(Panel(name, "members", up, shown))
        return {shape: Plot(title, panels)}

    def section(records: list[Record]) -> str:
        last, first = records[-1], records[0]
        alt = "Trees of degree 4" if sparse else "Random trees"
        return picture(shape, alt, f"""From {first['members']} members to {last['members']} a loss takes {sure(first, 'requests')} to
            {sure(last, 'requests')} requests and {sure(first, 'repairs')} to {sure(last, 'repairs')} repairs on average; the medians for
            {last['members']} are {number(last['requests_median'])} and {number(last['repairs_median'])}, with quartiles of
            {number(last['repairs_lower'])} and {number(last['repairs_upper'])} repairs. The last member has the drawop {sure(last, 'last_repair')} round trips
            after it noticed. Each point is {last['losses']} losses in {scale.runs} networks, with D1 = D2 = 1 below 32 members and 2 from there on.""")

    return Figure(shape, {str(members): Case(settings(members), scale.runs) for members in scale.trees}, table, plots, section)


def chains(scale: Scale) -> Figure:
    """Each link of a chain loses in its turn. The source is at one end."""
    hops = range(1, scale.chain)
    links = ",".join(f"{hop - 1}-{hop}" for hop in hops)
    tunings = ("2,2,1,1", "16,1,16,1")

    def is_of(hop: int, row: Row) -> bool:
        return row.number // 2 % len(hops) == hop - 1

    def table(measured: dict[str, Measured]) -> list[Record]:
        records = []
        for tuning in tunings:
            for hop in hops:
                record: Record = {"hop": hop, "tuning": tuning.replace(",", " ")}
                for what in ("requests", "repairs", "first_request", "last_repair"):
                    record |= measured[tuning].mean(what, what, lambda row: is_of(hop, row))
                records.append(record)
        return records

    def plots(records: list[Record]) -> dict[str, Plot]:
        panels = []
        for what in ("requests", "repairs"):
            shown = [series(tuning, [r for r in records if r["tuning"] == tuning.replace(",", " ")], "hop", what) for tuning in tunings]
            shown.append(Series("without chance", [Point(hop, 1) for hop in (hops[0], hops[-1])], marks=False))
            panels.append(Panel(what.capitalize(), "hops from the source to the loss", f"{what} for a loss", shown))
        return {"chain": Plot(f"Chain of {scale.chain}, by the link that loses", panels)}

    def section(records: list[Record]) -> str:
        short = [r for r in records if r["tuning"] == "2 2 1 1"]
        far = [r for r in records if r["tuning"] == "16 1 16 1"]
        most = max(short, key=lambda r: float(r["requests"]))
        ones = all(r["requests"] == r["repairs"] == 1 for r in far)
        return picture("chain", "Chain: requests and repairs", f"""With 16,1,16,1 {'each loss takes one request and one repair' if ones else
            'some loss takes more than one request or repair'}, at each hop, as without chance. With 2,2,1,1 chance adds some: at most
            {sure(most, 'requests')} requests, {most['hop']} hops from the source, and {sure(max(short, key=lambda r: float(r['repairs'])), 'repairs')} repairs.
            Each point is {2 * scale.runs} losses.""")

    base = Settings(shape="chain", members=scale.chain, loss=f"link:{links}", draws=4 * len(hops), who="timers")
    cases = {tuning: Case(replace(base, tuning=tuning), scale.runs) for tuning in tunings}
    return Figure("chain", cases, table, plots, section)
