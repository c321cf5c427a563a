"""Constants beside one another: what a loss takes, in datagrams and seconds, on the source's link and on one member's in turn."""
from __future__ import annotations

from laboratory.adapting import by_members
from laboratory.figures.cases import Case, Figure, Measured, Record, Scale, compared, of_many, of_one
from laboratory.figures.words import picture, sure
from laboratory.figures.words import table as table_of
from laboratory.plots import Panel, Plot, Point, Series
from laboratory.runs import Settings

CANDIDATES = ("2,2,1,1", "2,4,1,4", "2,4,1,8", "2,8,1,8", "2,16,1,16", "8,16,8,16")
BY_MEMBERS = "by members"
BASE = CANDIDATES[0]

# the networks: all at one distance of 40 ms, and stars whose links have delays of 5 to 50 ms
NETWORKS = {"level": ("all at one distance of 40 ms", (0.02, 0.02)), "star": ("links of 5 to 50 ms", (0.005, 0.05))}


def constants_of(tuning: str, group: int) -> str:
    return ",".join(map(str, by_members(group))) if tuning == BY_MEMBERS else tuning


def row_of(record: Record) -> list[str]:
    name = record["tuning"] if record["tuning"] == BY_MEMBERS else record["tuning"].replace(" ", ",")
    constants = f"{name}: {record['constants'].replace(' ', ',')}" if name == BY_MEMBERS else name
    return [str(record["group"]), constants,
            *(sure(record, column) for column in ("source_requests", "member_repairs", "seconds", "datagrams", "more_datagrams"))]


def tunings(network: str, scale: Scale) -> Figure:
    words, delay = NETWORKS[network]
    candidates = (*(CANDIDATES if len(scale.constants) > 2 else CANDIDATES[:2]), BY_MEMBERS)
    keys = [(group, tuning) for group in scale.classes for tuning in candidates]

    def settings(group: int, tuning: str) -> Settings:
        return Settings(members=group, loss=f"link:0-1,0-{group}", tuning=constants_of(tuning, group), delay=delay, who="timers",
                        draws=4 * scale.losses, every=4.0)

    def table(measured: dict[str, Measured]) -> list[Record]:
        records = []
        for group, tuning in keys:
            m, base = measured[f"{group} {tuning}"], measured[f"{group} {BASE}"]
            record: Record = {"group": group, "tuning": tuning.replace(",", " "), "constants": constants_of(tuning, group).replace(",", " ")}
            for kind, which in (("source", of_many), ("member", of_one)):
                for what in ("requests", "repairs", "seconds", "last_repair"):
                    record |= m.mean(f"{kind}_{what}", what, which)
            record |= m.mean("datagrams", "requests+repairs") | m.mean("seconds", "seconds")
            record |= compared("more_datagrams", m.draws("requests+repairs"), base.draws("requests+repairs"))
            record |= compared("longer", m.draws("seconds"), base.draws("seconds"))
            records.append(record)
        return records

    def plots(records: list[Record]) -> dict[str, Plot]:
        panels = []
        for group in scale.classes:
            shown = [
                Series(r["tuning"], [Point(r["seconds"], r["datagrams"], r["datagrams"] - r["datagrams_95"], r["datagrams"] + r["datagrams_95"])],
                       line=False)
                for r in records if r["group"] == group
            ]
            panels.append(Panel(f"{group} members", "seconds until the last repair", "requests and repairs for a loss", shown, log_y=True))
        return {f"tunings-{network}": Plot(f"Constants C1 C2 D1 D2, {words}", panels)}

    def section(records: list[Record]) -> str:
        cells = table_of(("Members", "Constants", "Requests, if all lack it", "Repairs, if one does", "Seconds, mean of both", "Datagrams, of both", "beside 2,2,1,1"),
                         records, row_of)
        best = [min((r for r in records if r["group"] == group), key=lambda r: float(r["datagrams"] * r["seconds"])) for group in scale.classes]
        told = ", ".join(f"{r['constants'].replace(' ', ',')} for {r['group']}" for r in best)
        text = picture(f"tunings-{network}", f"Constants, {words}", f"""A point is the mean of both kinds of losses. The smallest product of wait
            and datagrams have {told}. The last column of the table compares the datagrams with those of 2,2,1,1.""")
        return f"{text}\n\n{cells}"

    return Figure(f"tunings-{network}", {f"{g} {t}": Case(settings(g, t), scale.runs) for g, t in keys}, table, plots, section)
