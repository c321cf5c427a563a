"""Self-managing members, with constants that follow the session, beside fixed ones: before and after half of the group goes or comes."""
from __future__ import annotations

import textwrap
from dataclasses import replace
from typing import NamedTuple

from laboratory.figures.cases import Case, Figure, Measured, Record, Scale, compared, of_many, of_one, series
from laboratory.figures.kept import PLACES
from laboratory.figures.words import WIDTH, picture, sure
from laboratory.figures.words import table as table_of
from laboratory.measures import Row
from laboratory.plots import Panel, Plot
from laboratory.runs import DEFAULT_TUNING, Settings

LIVE = "of wb-live"
POLICIES = {
    "base": f"fixed {DEFAULT_TUNING}", "live": f"fixed, {LIVE}", "members": "by members", "adapting": f"adapting from {DEFAULT_TUNING}",
    "adapting live": "adapting, wb-live's",
}
ADAPT = {"members": "members", "adapting": "published", "adapting live": "published"}
GO, COME = "half go", "half come"
PARTS = 4  # of a run, with as many losses each; the group changes between the second and the third
RUNS = 20
COLUMNS = {
    "source_requests": "Requests, if many lack it", "member_repairs": "Repairs, if one does", "seconds": "Seconds, of all losses",
    "datagrams": "Datagrams of a loss", "more_datagrams": f"Datagrams beside fixed, {LIVE}", "more_seconds": "Seconds beside these",
}
PLOTS = {"kept-adapting": ("datagrams", "requests and repairs for a loss"), "kept-adapting-wait": ("seconds", "seconds until the last has it")}


class Group(NamedTuple):
    """A network with its members, of whom half go, or come, half-way."""

    place: str
    members: int
    change: str = GO

    @property
    def words(self) -> str:
        return f"{PLACES[self.place].words}, {self.at(PARTS // 2 - 1)} and then {self.at(PARTS // 2)} members"

    @property
    def parts(self) -> range:
        """Those that are measured. Who comes lacks what was drawn before, so that the losses of that time are of two kinds."""
        return range(PARTS) if self.change == GO else range(PARTS // 2, PARTS)

    def at(self, part: int) -> int:
        """How many are there in a part."""
        is_before = part < PARTS // 2
        return self.members if is_before == (self.change == GO) else self.members - self.members // 2

    def settings(self, policy: str, draws: int) -> Settings:
        """Every other drawop is lost. On stars the links of the source and of member 2 lose in turn."""
        of = PLACES[self.place]
        half = self.members // 2
        changes = {"leaving": half} if self.change == GO else {"late": half}
        return replace(of.settings, members=self.members, loss="link:0-1,0-2" if of.is_star else "each", start=15.0 + self.members / 3, draws=draws,
                       every=1.5, tuning=of.tuning if policy in ("live", "adapting live") else DEFAULT_TUNING, adapt=ADAPT.get(policy, "fixed"), **changes)


def groups_of(scale: Scale) -> list[Group]:
    if len(scale.constants) <= 2:
        return [Group("broker", 6), Group("broker", 6, COME)]
    return [*(Group(place, 16) for place in ("radio", "broker", "star", "domains")), Group("broker", 16, COME)]


def kept_adapting(scale: Scale) -> Figure:
    """Fewer runs than other figures have, since each takes seconds: the intervals are as wide as that makes them."""
    groups, draws = groups_of(scale), 16 if len(scale.constants) <= 2 else 80
    keys = [(group, policy) for group in groups for policy in POLICIES]

    def settings(group: Group, policy: str) -> Settings:
        return replace(group.settings(policy, draws), nodes=scale.tree_nodes if group.place == "tree" else 0)

    def table(measured: dict[str, Measured]) -> list[Record]:
        return [
            record_of(group, policy, part, measured[name_of(group, policy)], measured[name_of(group, "live")], draws)
            for group, policy in keys for part in group.parts
        ]

    def plots(records: list[Record]) -> dict[str, Plot]:
        title = "Self-managing members; half of them leave or come half-way"
        return {name: Plot(title, [panel_of(group, column, up, records) for group in groups]) for name, (column, up) in PLOTS.items()}

    def section(records: list[Record]) -> str:
        settled = [r for r in records if r["part"] in (PARTS // 2, PARTS)]
        cases = sum(r["policy"] == "live" for r in settled)
        beside = f"""In the {draws // PARTS // 2} losses before the group changes and in as many at the end: in how many of {cases} cases a policy differs
            from the fixed constants {LIVE}, by an interval of {min(RUNS, scale.runs)} runs that excludes 0:"""
        found = [bullet(f"{words[0].upper()}{words[1:]}: {told(policy, settled)}.") for policy, words in POLICIES.items() if policy != "live"]
        cells = table_of(("Network", "Members", "Constants", *COLUMNS.values()), settled, lambda r: [
            PLACES[r["network"]].words, members_told(r), POLICIES[r["policy"]], *(sure(r, column) for column in COLUMNS)])
        return "\n\n".join([
            picture("kept-adapting", "Constants that follow the session: datagrams", beside), "\n".join(found),
            picture("kept-adapting-wait", "Constants that follow the session: seconds", ""), cells])

    cases = {name_of(group, policy): Case(settings(group, policy), min(RUNS, scale.runs)) for group, policy in keys}
    return Figure("kept-adapting", cases, table, plots, section)


def name_of(group: Group, policy: str) -> str:
    return f"{group.place} {group.members} {group.change} {policy}"


def record_of(group: Group, policy: str, part: int, measured: Measured, live: Measured, draws: int) -> Record:
    """What a part of the runs measured. Of who comes the drawops alone count that are lost once, as of others."""
    def counts(row: Row) -> bool:
        return row.number % 2 == 1 and (row.number - 1) * PARTS // draws == part

    record: Record = {"network": group.place, "change": group.change, "policy": policy, "part": part + 1, "members": group.at(part)}
    record["losses"] = measured.losses(counts)
    record |= measured.mean("source_requests", "requests", lambda row: of_many(row) and counts(row))
    record |= measured.mean("member_repairs", "repairs", lambda row: of_one(row) and counts(row))
    for name, what in (("seconds", "seconds"), ("datagrams", "requests+repairs")):
        record |= measured.mean(name, what, counts)
        mine, theirs = measured.draws(what, counts), live.draws(what, counts)
        record |= compared(f"more_{name}", mine, theirs) if len(mine) == len(theirs) else {f"more_{name}": None, f"more_{name}_95": None}
    return record


def panel_of(group: Group, column: str, up: str, records: list[Record]) -> Panel:
    own = [r for r in records if is_of(r, group)]
    shown = [series(words, [r for r in own if r["policy"] == policy], "part", column) for policy, words in POLICIES.items()]
    return Panel(group.words, "quarter of the losses", up, shown)


def is_of(record: Record, group: Group) -> bool:
    return (record["network"], record["change"], record["members"]) == (group.place, group.change, group.at(record["part"] - 1))


def members_told(record: Record) -> str:
    if record["part"] <= PARTS // 2:
        return str(record["members"])
    return f"{record['members']}, {'left' if record['change'] == GO else 'come'}"


def told(policy: str, records: list[Record]) -> str:
    """In how many cases a policy sends fewer or more datagrams than the constants of wb-live, and is sooner or later whole."""
    own = [r for r in records if r["policy"] == policy]

    def counted(column: str, sign: int) -> int:
        return sum(sign * r[column] > r[f"{column}_95"] for r in own if r[column] is not None)

    parts = [f"{words} in {cases}" for words, column, sign in (
        ("fewer datagrams", "more_datagrams", -1), ("more datagrams", "more_datagrams", 1),
        ("sooner", "more_seconds", -1), ("later", "more_seconds", 1)) if (cases := counted(column, sign))]
    return ", ".join(parts) or "no difference"


def bullet(text: str) -> str:
    return textwrap.fill(f"- {text}", WIDTH, subsequent_indent="  ", break_on_hyphens=False)
