"""Timers that adapt, beside fixed constants and constants by the number of members, round by round. Half of the group leaves in the middle."""
from __future__ import annotations

from dataclasses import replace

from laboratory.figures.cases import Case, Figure, Measured, Record, Scale, compared, series
from laboratory.figures.words import picture, sure
from laboratory.figures.words import table as table_of
from laboratory.measures import Row
from laboratory.plots import Panel, Plot
from laboratory.runs import Settings

POLICIES = {"fixed": "fixed 2,2,1,1", "members": "by members", "adapting": "adapting"}
ADAPT = {"adapting": "published"}
NETWORKS = {
    "level": ("one distance of 40 ms", Settings(delay=(0.02, 0.02))),
    "star": ("star, links of 5 to 50 ms", Settings(delay=(0.005, 0.05))),
    "tree": ("tree of degree 4, few members", Settings(shape="tree", delay=(0.01, 0.01))),
    "random": ("random tree, all members", Settings(shape="random", delay=(0.01, 0.01))),
    "domains": ("transit and stub domains", Settings(shape="domains", delay=(0.01, 0.05))),
}
BINS = 8
CHANGING = ("level", "star")  # networks that are run with another link in each round too


def adaptive(scale: Scale) -> Figure:
    """In the regime `same` one link loses in all rounds, on the way to member 2; in `each` a link by chance in each round."""
    pairs = [("same", network) for network in NETWORKS] + [("each", network) for network in CHANGING]
    keys = [(regime, network, policy) for regime, network in pairs for policy in POLICIES]
    width = max(1, scale.rounds // BINS)

    def settings(regime: str, network: str, policy: str) -> Settings:
        nodes = scale.tree_nodes if network == "tree" else 0
        return replace(NETWORKS[network][1], members=scale.group, nodes=nodes, loss=regime, draws=2 * scale.rounds, every=2.0, who="timers",
                       adapt=ADAPT.get(policy, policy), leaving=scale.group // 2)

    def is_in(place: int, row: Row) -> bool:
        return row.number // 2 // width == place

    def table(measured: dict[str, Measured]) -> list[Record]:
        records = []
        for regime, network, policy in keys:
            m, fixed = measured[f"{regime} {network} {policy}"], measured[f"{regime} {network} fixed"]
            for place in range(scale.rounds // width):
                record: Record = {"regime": regime, "network": network, "policy": policy, "round": (place + 1) * width,
                                  "members": scale.group if place * width < scale.rounds // 2 else scale.group - scale.group // 2}
                for what in ("requests", "repairs", "last_repair", "seconds"):
                    record |= m.mean(what, what, lambda row: is_in(place, row))
                record |= m.mean("datagrams", "requests+repairs", lambda row: is_in(place, row))
                mine, theirs = (of.draws("requests+repairs", lambda row: is_in(place, row)) for of in (m, fixed))
                record |= compared("more_datagrams", mine, theirs) if len(mine) == len(theirs) else {"more_datagrams": None, "more_datagrams_95": None}
                records.append(record)
        return records

    def plots(records: list[Record]) -> dict[str, Plot]:
        found = {}
        for regime, words in (("same", "one link loses in all rounds"), ("each", "another link in each round")):
            panels = []
            for network, (title, _) in NETWORKS.items():
                own = [r for r in records if (r["regime"], r["network"]) == (regime, network)]
                if not own:
                    continue
                shown = [series(name, [r for r in own if r["policy"] == policy], "round", "datagrams") for policy, name in POLICIES.items()]
                panels.append(Panel(title, "round", "requests and repairs for a loss", shown))
            found[f"adaptive-{regime}"] = Plot(f"{scale.group} members; half of them leave half-way; {words}", panels)
        return found

    def section(records: list[Record]) -> str:
        half, last = scale.rounds // 2 // width * width, scale.rounds // width * width
        parts = []
        for regime, alt in (("same", "One link loses in all rounds"), ("each", "Another link in each round")):
            own = [r for r in records if r["regime"] == regime and r["round"] in (half, last)]
            steady = [r for r in own if r["round"] == half]
            fewer = sorted(NETWORKS[r["network"]][0] for r in steady if r["policy"] == "adapting" and r["more_datagrams"] is not None
                           and r["more_datagrams"] + r["more_datagrams_95"] < 0)
            text = f"""In rounds {half - width + 1} to {half} adapting timers send fewer datagrams than fixed 2,2,1,1 on these networks:
                {'; '.join(fewer) or 'none'}. {'The table also has the last rounds, after half of the group left.' if regime == 'same' else ''}"""
            heads = ("Network", "Members", "Policy", "Requests", "Repairs", "Seconds", "Datagrams beside fixed")
            cells = table_of(heads, own, lambda r: [NETWORKS[r["network"]][0], str(r["members"]), POLICIES[r["policy"]],
                                                    *(sure(r, c) for c in ("requests", "repairs", "seconds", "more_datagrams"))])
            parts += [picture(f"adaptive-{regime}", alt, text), cells]
        return "\n\n".join(parts)

    return Figure("adaptive", {" ".join(key): Case(settings(*key), scale.runs) for key in keys}, table, plots, section)
