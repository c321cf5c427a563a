"""A hand that writes: letters of one line, as the points that a mouse goes through."""
from __future__ import annotations

import math
from typing import List, Tuple

Point = Tuple[float, float]
Stroke = List[Point]

# Letters by their strokes, in a box of 10 by 10 whose line is at the bottom: what hangs below it is over 10. Each has its width first.
LETTERS: dict[str, tuple[float, list[list[Point]]]] = {
    "P": (6.5, [[(1, 0), (0.7, 5), (0, 10)], [(0.9, 0.6), (3, 0), (5.4, 0.6), (5.8, 2.6), (4.2, 4.6), (0.8, 5)]]),
    "h": (5.5, [[(1.4, 0), (0.8, 5), (0, 10)], [(0.5, 7.2), (2, 5), (3.4, 4.6), (4.2, 5.8), (4, 8.4), (4.2, 9.8), (4.9, 9.9)]]),
    "o": (5, [[(2.6, 4.5), (0.9, 5.4), (0.3, 7.6), (1.2, 9.7), (2.9, 9.9), (4.2, 8.2), (4.2, 5.8), (2.8, 4.6)]]),
    "t": (4, [[(1.8, 1.5), (1.1, 6), (1, 9), (2, 10), (3.2, 9.5)], [(0, 4.6), (3.6, 4.2)]]),
    "s": (4.4, [[(3.6, 5), (2, 4.5), (0.6, 5.3), (1.4, 6.8), (3.2, 7.8), (3.4, 9.3), (1.8, 10.1), (0.2, 9.6)]]),
    "y": (5, [[(0.3, 4.6), (0.6, 7.6), (1.8, 8.6)], [(4.4, 4.5), (3, 8.4), (1.4, 12), (-0.6, 13.4)]]),
    "n": (5, [[(0.6, 4.6), (0.2, 9.9)], [(0.4, 7.2), (1.8, 5), (3.2, 4.6), (4, 5.8), (3.8, 8.4), (4.1, 9.8), (4.8, 9.9)]]),
    "e": (4.8, [[(0.6, 7.4), (3.6, 6.9), (3.4, 5), (2, 4.5), (0.6, 5.8), (0.5, 8.4), (1.8, 9.9), (3.8, 9.2)]]),
    "i": (2.4, [[(0.9, 4.6), (0.5, 8.6), (0.9, 9.9), (1.7, 9.7)], [(1.2, 2.4), (1.25, 2.5)]]),
    "l": (2.6, [[(1.4, 0), (0.7, 5), (0.5, 9), (1.2, 10), (2, 9.6)]]),
    "g": (5, [[(4, 5.2), (2.4, 4.5), (0.8, 5.6), (0.6, 7.8), (1.8, 9.2), (3.4, 8), (4.1, 5)], [(4.1, 5), (3.9, 9), (3, 12.4), (1, 13), (0, 12)]]),
    "w": (6.6, [[(0.3, 4.6), (0.7, 8.8), (1.7, 9.8), (2.8, 8), (3.1, 5.4), (3.4, 8.6), (4.4, 9.8), (5.6, 7.8), (6, 4.5)]]),
    "r": (4, [[(0.6, 4.6), (0.3, 9.9)], [(0.5, 7), (1.6, 5), (3, 4.5), (3.6, 5)]]),
    "a": (5, [[(3.8, 5.2), (2.2, 4.5), (0.6, 6), (0.6, 8.6), (1.8, 9.9), (3.3, 8.4), (3.9, 5)], [(3.9, 5), (3.6, 8.8), (4.2, 9.9), (4.8, 9.7)]]),
    "d": (5.2, [[(3.8, 5.4), (2.2, 4.6), (0.6, 6), (0.6, 8.6), (1.8, 9.9), (3.4, 8.6), (3.9, 6)], [(4.5, 0), (3.9, 6), (3.7, 9), (4.3, 9.9)]]),
    "v": (4.6, [[(0.3, 4.6), (1.6, 9.8), (4, 4.5)]]),
    "C": (7, [[(6, 1.4), (4, 0.1), (1.6, 1.8), (0.4, 5), (1, 8.6), (3.2, 10), (5.8, 8.8)]]),
    "O": (7.6, [[(3.6, 0.1), (1.2, 2), (0.4, 5.6), (1.6, 9.4), (3.8, 9.9), (6, 7.8), (6.6, 4), (5.4, 0.9), (3.5, 0.1)]]),
    "H": (7, [[(0.8, 0.2), (0.2, 10)], [(5.8, 0), (5.2, 9.9)], [(0.5, 5.2), (5.5, 4.9)]]),
    "6": (5.4, [[(4, 0.2), (1.4, 3.2), (0.4, 7), (1.6, 9.8), (3.8, 9.2), (4.2, 6.8), (2.6, 5.6), (0.7, 7)]]),
    "2": (5, [[(0.4, 2), (2, 0.2), (3.8, 1), (3.6, 3.6), (1.8, 7), (0.2, 9.8)], [(0.2, 9.8), (2.4, 9.6), (4.4, 9.8)]]),
    "1": (3.4, [[(0.4, 2.4), (2, 0.2), (1.6, 5), (1.2, 9.9)]]),
    "+": (6, [[(2.6, 3.4), (2.4, 8.6)], [(0.2, 6.1), (4.9, 5.9)]]),
    ">": (8, [[(0.2, 6), (6.6, 5.8)], [(4.6, 4), (6.7, 5.8), (4.4, 7.8)]]),
    "?": (5, [[(0.4, 2), (2, 0.2), (4, 1.2), (3.6, 3.6), (2, 5.4), (1.9, 7)], [(1.8, 9.6), (1.85, 9.7)]]),
    " ": (4, []),
}


def smooth(points: Stroke, step: float) -> Stroke:
    """Points along the curve through some, about so far apart, as a hand goes."""
    whole: Stroke = [points[0]]
    for i in range(len(points) - 1):
        before, a, b, after = points[max(0, i - 1)], points[i], points[i + 1], points[min(len(points) - 1, i + 2)]
        many = max(1, round(math.dist(a, b) / step))
        for k in range(1, many + 1):
            t = k / many
            whole.append(tuple(  # type: ignore[arg-type]
                0.5 * (2 * p1 + (p2 - p0) * t + (2 * p0 - 5 * p1 + 4 * p2 - p3) * t * t + (3 * p1 - p0 - 3 * p2 + p3) * t**3)
                for p0, p1, p2, p3 in zip(before, a, b, after)))
    return whole


def written(text: str, x: float, y: float, high: float, step: float = 3.0) -> list[Stroke]:
    """The strokes of a text whose upper left corner is at a point, its letters so high. `_` puts the next letter lower, and smaller."""
    strokes: list[Stroke] = []
    is_low = False
    for letter in text:
        if letter == "_":
            is_low = True
            continue
        wide, lines = LETTERS[letter]
        unit, top = (0.6 * high / 10, y + 0.55 * high) if is_low else (high / 10, y)
        strokes += [smooth([(x + px * unit, top + py * unit) for px, py in line], step) for line in lines]
        x += wide * unit + 0.03 * high
        is_low = False
    return strokes


def ring(x: float, y: float, wide: float, high: float, step: float = 4.0) -> Stroke:
    """A closed round, as a hand draws it."""
    many = max(12, round(math.pi * (wide + high) / step))
    return [(x + wide * math.cos(2 * math.pi * k / many), y + high * math.sin(2 * math.pi * k / many)) for k in range(many + 1)]
