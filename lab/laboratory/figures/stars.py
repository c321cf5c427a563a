"""Stars whose links have one delay, beside the formulas. Member 1 is the source."""
from __future__ import annotations

from laboratory.figures.cases import Case, Figure, Measured, Record, Scale, series
from laboratory.figures.words import holds, number, picture, sure
from laboratory.plots import Panel, Plot
from laboratory.runs import Settings
from laboratory.theory import exact_senders, published_first_request, published_requests


def star_of(group: int, link: int, tuning: str, losses: int) -> Settings:
    """A star whose link to one member loses, at each second drawop."""
    return Settings(shape="star", members=group, loss=f"link:0-{link}", tuning=tuning, draws=2 * losses, every=0.5, who="timers")


def by_group(title: str, records: list[Record], across: str, up: str, columns: list[tuple[str, str, bool]]) -> Plot:
    """A panel for each group. Of the columns, each with its name, measured ones are points and those of formulas lines."""
    x = across.lower()
    panels = []
    for group in sorted({record["group"] for record in records}):
        own = [record for record in records if record["group"] == group]
        shown = [series(name, own, x, column, line=is_formula, marks=not is_formula) for column, name, is_formula in columns]
        panels.append(Panel(f"{group} members", across, up, shown, log_x=True))
    return Plot(title, panels)


def star_requests(scale: Scale) -> Figure:
    points = [(group, c2) for group in scale.stars for c2 in scale.constants]

    def table(measured: dict[str, Measured]) -> list[Record]:
        return [
            {"group": g, "c2": c2, "losses": m.losses(), **m.mean("requests", "requests"),
             "published": round(published_requests(g, c2), 3), "exact": round(exact_senders(g - 1, c2), 3),
             **m.mean("first_request", "first_request", scale=2), "published_first": round(published_first_request(g, 2, c2), 3),
             **m.mean("last_repair", "last_repair")}
            for g, c2 in points for m in [measured[f"{g} {c2}"]]
        ]

    def plots(records: list[Record]) -> dict[str, Plot]:
        return {
            "star-requests": by_group("Star: requests for a loss on the source's link", records, "C2", "requests",
                                      [("requests", "hosts", False), ("exact", "exact mean", True), ("published", "1 + (G - 2)/C2", True)]),
            "star-delay": by_group("Star: wait until the first request", records, "C2", "distances to the source",
                                   [("first_request", "hosts", False), ("published_first", "C1 + C2/G", True)]),
        }

    def section(records: list[Record]) -> str:
        shown = max((r for r in records if r["c2"] == 4), key=lambda r: int(r["group"]))
        within, waits = (sum(holds(r, a, b) for r in records) for a, b in (("requests", "exact"), ("first_request", "published_first")))
        return "\n\n".join([
            picture("star-requests", "Star: requests beside C2", f"""The requests match the exact mean: {shown['group']} members with C2 = 4 send {sure(shown, 'requests')};
                the exact mean is {number(shown['exact'])}, the published one {number(shown['published'])}. The intervals of {within} of {len(records)}
                points contain the exact mean, and 95 in 100 should."""),
            picture("star-delay", "Star: wait until the first request", f"""The first request waits as published: {sure(shown, 'first_request')}
                distances there, where {number(shown['published_first'])} were published. The published mean counts G timers instead of G - 1, so
                it is slightly short for small groups; {waits} of {len(records)} intervals contain it."""),
        ])

    cases = {f"{g} {c2}": Case(star_of(g, 1, f"2,{c2},1,1", scale.losses), scale.runs) for g, c2 in points}
    return Figure("star-requests", cases, table, plots, section)


def star_repairs(scale: Scale) -> Figure:
    points = [(group, d2) for group in scale.stars for d2 in scale.constants]

    def table(measured: dict[str, Measured]) -> list[Record]:
        return [
            {"group": g, "d2": d2, "losses": m.losses(), **m.mean("repairs", "repairs"), "exact": round(exact_senders(g - 1, d2), 3),
             **m.mean("requests", "requests"), **m.mean("last_repair", "last_repair")}
            for g, d2 in points for m in [measured[f"{g} {d2}"]]
        ]

    def plots(records: list[Record]) -> dict[str, Plot]:
        columns = [("repairs", "hosts", False), ("exact", "exact mean", True)]
        return {"star-repairs": by_group("Star: repairs for a loss on one member's link", records, "D2", "repairs", columns)}

    def section(records: list[Record]) -> str:
        shown = max((r for r in records if r["d2"] == 4), key=lambda r: int(r["group"]))
        all_of_them = [r for r in records if r["d2"] == 1]
        return picture("star-repairs", "Star: repairs beside D2", f"""Repairs follow the same formula: {sure(shown, 'repairs')} for
            {shown['group']} members and D2 = 4, exactly {number(shown['exact'])}. The intervals of {sum(holds(r, 'repairs', 'exact') for r in records)}
            of {len(records)} points contain the exact mean. With D2 = 1 all holders repair each loss: {', '.join(number(r['repairs']) for r in all_of_them)}.""")

    cases = {f"{g} {d2}": Case(star_of(g, g, f"2,2,1,{d2}", scale.losses), scale.runs) for g, d2 in points}
    return Figure("star-repairs", cases, table, plots, section)
