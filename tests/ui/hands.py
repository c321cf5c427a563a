"""What a hand draws, for figures: words, formulas and curves, each as the strokes of a mouse."""
from __future__ import annotations

import math
import textwrap

from .inks import DRAWN, at, gather, send
from .sheets import Sheet
from .writing import LETTERS, Stroke, ring, smooth, written

# a window in which nothing floats over what is drawn
WIDTH, HEIGHT, TOP = 1600, 1300, 130

# points of the window from one event of the mouse to the next, and from one line of letters to the next in their heights
STEP, LEADING = 3.0, 1.6

FORMULA = "6CO_2 + 6H_2O > C_6H_1_2O_6 + 6O_2"
WORDS = "why green light is gone and the water rises to the dry soil where a seed lies as a star "


def hello(high: int) -> list[Stroke]:
    return written("hello", 60, 200, high, STEP)


def letters(many: int, high: int) -> list[Stroke]:
    """So many letters in lines, as wide as the window."""
    text = (WORDS * many).replace(" ", "")[:many]
    words: list[str] = []
    for word in WORDS.split() * many:
        words.append(word[:len(text) - sum(map(len, words))])
    wide = high * sum(LETTERS[letter][0] for letter in WORDS) / len(WORDS) / 10 + 0.03 * high
    lines = textwrap.wrap(" ".join(filter(None, words)), round((WIDTH - 250) / wide))
    return [stroke for row, line in enumerate(lines) for stroke in written(line, 60, TOP + LEADING * high * row, high, STEP)]


def graph() -> list[Stroke]:
    """Two axes with ticks, and a curve."""
    ticks: list[Stroke] = [smooth([(120 + 90 * n, 494), (120 + 90 * n, 506)], STEP) for n in range(1, 6)]
    curve: Stroke = [(120 + n, 480 - 300 * math.sin(n / 170) ** 2) for n in range(0, 520, 4)]
    return [smooth([(100, 500), (680, 500)], STEP), smooth([(120, 520), (120, 140)], STEP), *ticks, curve]


HANDS: dict[str, list[Stroke]] = {
    **{f'"hello", {high} points high': hello(high) for high in (28, 40, 64, 80, 160)},
    "600 letters, 32 points high": letters(600, 32),
    "600 letters, 48 points high": letters(600, 48),
    f"a sum formula of {len(FORMULA.replace('_', '').replace(' ', ''))} signs": written(FORMULA, 60, 200, 44, STEP),
    "a graph with axes and ticks": graph(),
    "a curve of 300 points": [[(100 + 4 * n, 400 + 60 * math.sin(n / 12)) for n in range(300)]],
    "an arc of 900 points": [[(100 + 22.5 * n, 500 - 180 * math.sin(math.pi * n / 40)) for n in range(41)]],
    "a circle, 300 points wide": [ring(500, 400, 150, 150)],
}


def drawops_of(sheet: Sheet, strokes: list[Stroke]) -> int:
    """Draws strokes by the mouse on an empty page, with the pen and a size of 100 percent, and gives how many drawops they are."""
    sheet.keys("p")
    gather(sheet, *(at(sheet, *stroke) for stroke in strokes))
    send(sheet)
    sheet.page.until("wb.ink.items.length && !wb.session.waiting.size && !wb.ink.waiting.length")
    return int(sheet.page.value(DRAWN))


def told(name: str, strokes: list[Stroke], drawops: int) -> str:
    return f"{name}: {len(strokes)} strokes, {sum(map(len, strokes)):,} points, {drawops} drawops"
