"""The figures: what is run for each, the table that is made of it, and the plots that are drawn from the table."""
from __future__ import annotations

from laboratory.figures.adaptive import adaptive
from laboratory.figures.cases import SMALL, Case, Figure, Measured, Run, Scale
from laboratory.figures.few import few
from laboratory.figures.implosions import implosions
from laboratory.figures.kept import clocks, losses, moments, places, reports
from laboratory.figures.kept_adapting import kept_adapting
from laboratory.figures.level import level
from laboratory.figures.stars import star_repairs, star_requests
from laboratory.figures.trees import chains, trees
from laboratory.figures.tunings import tunings

__all__ = ["SMALL", "Case", "Figure", "Measured", "Run", "Scale", "all_figures"]


def all_figures(scale: Scale) -> list[Figure]:
    """Those whose runs take longest first, so that no core waits at the end."""
    return [
        reports(scale), few(scale), moments(scale), places(scale), kept_adapting(scale), tunings("level", scale), tunings("star", scale), star_requests(scale), star_repairs(scale), adaptive(scale), trees("tree", scale),
        level(scale), trees("random", scale), chains(scale), implosions(scale), losses(scale), clocks(scale),
    ]
