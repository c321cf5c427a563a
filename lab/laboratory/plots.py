"""Plots as SVG, for light and dark pages: panels with a scale of their own, points with their intervals, and each series named at its end.

Written by hand, so that one file follows the reader's light or dark, is small enough to keep beside its table, and needs no package.
"""
from __future__ import annotations

import math
from collections.abc import Sequence
from dataclasses import dataclass, field
from html import escape
from textwrap import wrap

LEFT, RIGHT, TOP, BOTTOM = 58, 150, 34, 50
ONE, MANY = (720, 380), (500, 310)  # the width and height of a panel that is alone, and of one of several
HEAD = 34
LINE = 15  # pixels from the name of one series to the next
WORD = 6  # letters in a line below seven words that stand across
DODGE = 11  # pixels between points of two series over one word
STYLE = """
  svg { background: var(--paper); font: 12px system-ui, sans-serif; --paper: #ffffff; --ink: #1a1a1a; --faint: #d9d9d9;
    --a: #0b5fa5; --b: #b3470a; --c: #2f7d32; --d: #7a3fa0; --e: #555555; --f: #9a1750; }
  @media (prefers-color-scheme: dark) { svg { --paper: #16181c; --ink: #e8e8e8; --faint: #3a3d43;
    --a: #6db3f2; --b: #f0a066; --c: #86c98a; --d: #c79be6; --e: #b0b0b0; --f: #f28ab2; } }
  text { fill: var(--ink); } .title { font-size: 15px; font-weight: 600; } .panel { font-weight: 600; }
  .axis { stroke: var(--ink); } .grid { stroke: var(--faint); } .lead { stroke: var(--faint); }
"""
COLOURS = "abcdef"
DASHES = ("", "7 4", "2 3", "9 3 2 3", "1 5", "12 4")


@dataclass(frozen=True)
class Point:
    """A value, and between which ones it may be."""

    x: float
    y: float
    low: float | None = None
    high: float | None = None


@dataclass(frozen=True)
class Series:
    """Points of one name. A `line` joins them where they follow one another: points of one network, by a number that grows."""

    name: str
    points: Sequence[Point]
    line: bool = True
    marks: bool = True
    style: int | None = None


@dataclass(frozen=True)
class Panel:
    """A part of a plot with its own scale. `words` stand across in place of numbers: point x is above word x, from 0."""

    title: str
    across: str
    up: str
    series: Sequence[Series]
    log_x: bool = False
    log_y: bool = False
    words: Sequence[str] = ()


@dataclass
class Plot:
    """Panels under one title."""

    title: str
    panels: list[Panel] = field(default_factory=list)

    def svg(self) -> str:
        size = ONE if len(self.panels) == 1 else MANY
        columns = min(2, len(self.panels))
        rows = -(-len(self.panels) // columns)
        width, height = columns * size[0], HEAD + rows * size[1]
        parts = [
            f'<svg xmlns="http://www.w3.org/2000/svg" viewBox="0 0 {width} {height}" role="img">',
            f"<title>{escape(self.title)}</title><style>{STYLE}</style>",
            f'<text class="title" x="{LEFT}" y="22">{escape(self.title)}</text>',
        ]
        for place, panel in enumerate(self.panels):
            x, y = place % columns * size[0], HEAD + place // columns * size[1]
            parts += [f'<g transform="translate({x} {y})">', *Drawing(panel, size).parts(), "</g>"]
        return "\n".join([*parts, "</svg>"]) + "\n"


def ticks(greatest: float) -> list[float]:
    """Round numbers from 0 to above the greatest, about six of them."""
    rough = max(greatest, 1e-9) / 5
    power = 10 ** math.floor(math.log10(rough))
    step = next(factor * power for factor in (1, 2, 5, 10) if factor * power >= rough * (1 - 1e-9))
    return [round(i * step, 10) for i in range(math.ceil(round(greatest / step, 9)) + 1)]


def log_ticks(least: float, greatest: float) -> list[float]:
    """Round numbers of the form 1, 2 or 5 times a power of ten, from below the least to above the greatest; over two decades 1 alone."""
    low, high = math.floor(math.log10(least)), math.ceil(math.log10(greatest))
    factors = (1, 2, 5) if high - low <= 3 else (1,)
    found = [factor * 10.0**power for power in range(low - 1, high + 1) for factor in factors]
    below = [value for value in found if value <= least * (1 + 1e-9)]
    above = [value for value in found if value >= greatest * (1 - 1e-9)]
    return [value for value in found if below[-1] <= value <= above[0]]


def spread(wanted: Sequence[float], low: float, high: float, gap: float) -> list[float]:
    """Places as near to the wanted ones as may be, in their order, a gap apart and between two bounds where there is room."""
    order = sorted(range(len(wanted)), key=lambda i: wanted[i])
    places = [0.0] * len(wanted)
    last = low - gap
    for i in order:
        last = places[i] = max(wanted[i], last + gap)
    limit = high
    for i in reversed(order):
        places[i] = min(places[i], limit)
        limit = places[i] - gap
    return places


class Drawing:
    """The places of a panel's parts."""

    def __init__(self, panel: Panel, size: tuple[int, int]) -> None:
        self.panel = panel
        self.right, self.floor = size[0] - RIGHT, size[1] - BOTTOM
        points = [point for series in panel.series for point in series.points]
        xs = sorted({point.x for point in points})
        ys = [y for point in points for y in (point.y, point.low, point.high) if y is not None and math.isfinite(y)]
        if panel.words:
            self.across: Sequence[float] = range(len(panel.words))
            self.from_x, self.to_x = -0.5, len(panel.words) - 0.5
        elif panel.log_x:
            self.across = xs if len(xs) <= 8 else log_ticks(xs[0], xs[-1])
            self.from_x, self.to_x = math.log10(min(xs[0], self.across[0])), math.log10(max(xs[-1], self.across[-1]))
        else:
            self.across = ticks(xs[-1])
            self.from_x, self.to_x = 0.0, self.across[-1]
        if panel.log_y:
            positive = [y for y in ys if y > 0]
            self.up = log_ticks(min(point.y for point in points if point.y > 0), max(positive))
            self.from_y, self.to_y = math.log10(self.up[0]), math.log10(self.up[-1])
        else:
            self.up = ticks(max(ys))
            self.from_y, self.to_y = 0.0, self.up[-1]

    def x(self, value: float) -> float:
        at = math.log10(value) if self.panel.log_x else value
        return LEFT + (at - self.from_x) / ((self.to_x - self.from_x) or 1) * (self.right - LEFT)

    def y(self, value: float) -> float:
        at = (math.log10(value) if value > 0 else self.from_y) if self.panel.log_y else value
        share = (at - self.from_y) / ((self.to_y - self.from_y) or 1)
        return self.floor - min(1.0, max(0.0, share)) * (self.floor - TOP)

    def parts(self) -> list[str]:
        parts = [f'<text class="panel" x="{LEFT}" y="16">{escape(self.panel.title)}</text>', *self.axes()]
        for place, series in enumerate(self.panel.series):
            parts += self.draw(place, series)
        return parts + self.names()

    def axes(self) -> list[str]:
        parts = []
        for value in self.up:
            y = self.y(value)
            parts.append(f'<line class="grid" x1="{LEFT}" y1="{y:.1f}" x2="{self.right}" y2="{y:.1f}"/>')
            parts.append(f'<text x="{LEFT - 7}" y="{y + 4:.1f}" text-anchor="end">{value:g}</text>')
        for value in self.across:
            x, words = self.x(value), self.panel.words[int(value)] if self.panel.words else f"{value:g}"
            parts.append(f'<line class="axis" x1="{x:.1f}" y1="{self.floor}" x2="{x:.1f}" y2="{self.floor + 5}"/>')
            for line, some in enumerate(wrap(words, WORD, break_long_words=False)):
                parts.append(f'<text x="{x:.1f}" y="{self.floor + 18 + line * LINE}" text-anchor="middle">{escape(some)}</text>')
        middle = (TOP + self.floor) / 2
        return parts + [
            f'<line class="axis" x1="{LEFT}" y1="{self.floor}" x2="{self.right}" y2="{self.floor}"/>',
            f'<text x="{(LEFT + self.right) / 2}" y="{self.floor + 36}" text-anchor="middle">{escape(self.panel.across)}</text>',
            f'<text transform="translate(14 {middle}) rotate(-90)" text-anchor="middle">{escape(self.panel.up)}</text>',
        ]

    def place_of(self, place: int, point: Point) -> tuple[float, float]:
        """Where a point is drawn: points over a word stand side by side."""
        shift = (place - (len(self.panel.series) - 1) / 2) * DODGE if self.panel.words else 0.0
        return self.x(point.x) + shift, self.y(point.y)

    def draw(self, place: int, series: Series) -> list[str]:
        style = place if series.style is None else series.style
        colour, dash = f"var(--{COLOURS[style % 6]})", DASHES[style % 6]
        places = [self.place_of(place, point) for point in series.points]
        parts = []
        if series.line and not self.panel.words:
            way = " ".join(f"{x:.1f},{y:.1f}" for x, y in places)
            parts.append(f'<polyline points="{way}" fill="none" style="stroke: {colour}" stroke-width="2" stroke-dasharray="{dash}"/>')
        for point, (x, y) in zip(series.points, places):
            if point.low is not None and point.high is not None:
                parts += bar(x, self.y(point.low), self.y(point.high), colour)
            if series.marks:
                parts.append(mark(style, x, y, colour))
        return parts

    def names(self) -> list[str]:
        """The name of each series beside its last point, with a thin line to it."""
        ends = [self.place_of(place, series.points[-1]) for place, series in enumerate(self.panel.series)]
        heights = spread([y for _, y in ends], TOP, self.floor - 2, LINE)
        parts = []
        for place, (series, (x, y), height) in enumerate(zip(self.panel.series, ends, heights)):
            style = place if series.style is None else series.style
            parts.append(f'<line class="lead" x1="{x + 6:.1f}" y1="{y:.1f}" x2="{self.right + 14}" y2="{height:.1f}"/>')
            parts.append(f'<text x="{self.right + 18}" y="{height + 4:.1f}" style="fill: var(--{COLOURS[style % 6]})">{escape(series.name)}</text>')
        return parts


def bar(x: float, low: float, high: float, colour: str) -> list[str]:
    """An interval, with a stroke at each end."""
    lines = ((x, low, x, high), (x - 4, low, x + 4, low), (x - 4, high, x + 4, high))
    return [f'<line x1="{a:.1f}" y1="{b:.1f}" x2="{c:.1f}" y2="{d:.1f}" style="stroke: {colour}"/>' for a, b, c, d in lines]


def mark(form: int, x: float, y: float, colour: str) -> str:
    """A mark of its own form for each series: a disc, a square, a triangle, a diamond, a cross, a ring."""
    style = f'style="fill: {colour}; stroke: {colour}"'
    forms = (
        f'<circle cx="{x:.1f}" cy="{y:.1f}" r="3.5" {style}/>',
        f'<rect x="{x - 3.5:.1f}" y="{y - 3.5:.1f}" width="7" height="7" {style}/>',
        f'<path d="M{x:.1f} {y - 4.5:.1f} l4.5 8 h-9 z" {style}/>',
        f'<path d="M{x:.1f} {y - 5:.1f} l5 5 -5 5 -5 -5 z" {style}/>',
        f'<path d="M{x - 3.5:.1f} {y - 3.5:.1f} l7 7 m0 -7 l-7 7" stroke-width="2" {style}/>',
        f'<circle cx="{x:.1f}" cy="{y:.1f}" r="3.5" style="fill: var(--paper); stroke: {colour}" stroke-width="2"/>',
    )
    return forms[form % 6]
