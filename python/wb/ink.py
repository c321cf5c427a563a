"""Ink (docs/INK.md): strokes, shapes and letters as texts of a page. `stroke`, `shape`, `words` and `link` write them, and `read` reads one.

    n = 0
    for text in ink.stroke([(6400, 12000), (6500, 12040)], colour=1):
        member.draw("1/1", ink.placed(text, n))
        n += 1

Points are in units: a cell has 64 across and 120 down."""
from __future__ import annotations

import math
import re
from typing import Dict, Iterable, Iterator, List, NamedTuple, Optional, Pattern, Sequence, Tuple

from .drawings import Drawop, Text

# the first row of ink, and the units of the page
FIRST_ROW = 4000
CELL_WIDE, CELL_HIGH = 64, 120
WIDE, HIGH = 4096 * CELL_WIDE, 4096 * CELL_HIGH

# signs of a text, and places of texts in a row and in rows
MOST_SIGNS, COLUMNS, ROWS = 64, 63, 96

SIGNS = "".join(chr(code) for code in range(33, 127) if chr(code) not in '"\\')
BASE = len(SIGNS)

# classes of signs: any; those of a step or a pressure, which are no lift; those that begin a letter of two signs, or of three
ANY, STEP, SHORT, LONG = r"[!#-\[\]-~]", r"[!#-\[\]-}]", r"[!#-O]", r"[P-\[\]-~]"
POINT = ANY + "{6}"
LETTER = r"(?:[ -}]|~%s%s|~%s%s{2})" % (SHORT, ANY, LONG, ANY)
STEPS = r"(?:~%s{4}|%s{2})*" % (ANY, STEP)
PRESSED = r"%s(?:~%s{4}%s|%s{3})*" % (STEP, ANY, STEP, STEP)

# of each kind: the flags, and what follows the head
FORMS = {
    "s": ("[0-7a-h]", STEPS), "h": ("[0-7a-h]", STEPS), "v": ("[0-7a-h]", PRESSED), "l": ("[0-7]", "(?:%s){1,2}" % POINT),
    **{kind: ("[0-24-6]", POINT + LETTER + "*") for kind in "rodn"}, "t": ("[0-2a-c]", LETTER + "+"), "k": ("0", LETTER + "+"),
}
TEXTS: Dict[str, Pattern[str]] = {kind: re.compile(r"~%s[!#-\[\]-|]%s%s%s" % (kind, flag, POINT, rest), re.ASCII) for kind, (flag, rest) in FORMS.items()}

# white space, of which an address has none
SPACES = "\\s\u0085\u00a0\u1680\u2000-\u200a\u2028\u2029\u202f\u205f\u3000\ufeff"
ADDRESS = re.compile(r"https?://[^%s/?#@\\]+(?:[/?#][^%s]*)?" % (SPACES, SPACES))

# flags of ink, and those of ink that goes on
FLAGS, GOING_ON = "01234567", "abcdefgh"

# the value of a step that goes nowhere, and the greatest; of how far a lift goes; and of a letter of three signs
STILL, GREATEST, LIFT_STILL, LONG_LETTER = 45, 90, 4232, 46 * BASE * BASE


class Point(NamedTuple):
    """In units; whether the pen came without drawing; and how it was pressed, of 90."""

    x: int
    y: int
    is_lifted: bool = False
    pressure: Optional[int] = None


class Ink(NamedTuple):
    """What a text draws. Of a stroke the flag is the scale."""

    kind: str
    colour: int
    width: int
    flag: int
    goes_on: bool
    points: Tuple[Point, ...]
    letters: str


# ---- reading

def number(signs: str) -> int:
    value = 0
    for sign in signs:
        value = BASE * value + SIGNS.index(sign)
    return value


def far_of(steps: int) -> int:
    """How far the n-th value from the still one goes."""
    return steps if steps <= 20 else 2 * steps - 20 if steps <= 35 else 5 * steps - 125


def way(sign: str) -> int:
    """How far a step goes, in units of its scale."""
    steps = number(sign) - STILL
    return int(math.copysign(far_of(abs(steps)), steps))


def points_in(signs: str) -> Iterator[Point]:
    for at in range(0, len(signs), 6):
        yield Point(number(signs[at:at + 3]), number(signs[at + 3:at + 6]))


def walked(start: Point, unit: int, rest: str, is_pressed: bool) -> Iterator[Point]:
    """The points of a stroke."""
    x, y, steps = start.x, start.y, rest
    if is_pressed:
        yield Point(x, y, False, number(rest[0]))
        steps = rest[1:]
    else:
        yield start
    for lift, step, pressure in re.findall(r"(?:~(.{4})|([^~]{2}))%s" % ("(.)" if is_pressed else "()"), steps):
        across, down = (number(lift[:2]) - LIFT_STILL, number(lift[2:]) - LIFT_STILL) if lift else (way(step[0]), way(step[1]))
        x, y = x + across * unit, y + down * unit
        yield Point(x, y, bool(lift), number(pressure) if is_pressed else None)


def letter_of(signs: str) -> str:
    """One letter. ValueError if it has no such code."""
    if signs[0] != "~":
        return signs
    first = number(signs[1])
    code = 128 + number(signs[1:]) if first < 46 else number(signs[1:]) - LONG_LETTER
    if 0xD800 <= code < 0xE000 or (first >= 46 and code < 4360 and code not in (10, 126)):
        raise ValueError(signs)
    return chr(code)


def letters_of(signs: str) -> str:
    return "".join(letter_of(letter) for letter in re.findall(LETTER, signs))


def parsed(text: str) -> Ink:
    """ValueError if a point is off the page, or a letter has no such code."""
    kind, style, flag, rest = text[1], number(text[2]), ord(text[3]) & 7, text[10:]
    goes_on = text[3] in GOING_ON
    if goes_on:
        flag = GOING_ON.index(text[3])
    start = next(points_in(text[4:10]))
    points, letters = [start], ""
    if kind in "shv":
        points = list(walked(start, 2 ** flag, rest, kind == "v"))
    elif kind == "l":
        points += points_in(rest)
    elif kind in "rodn":
        points += points_in(rest[:6])
        letters = letters_of(rest[6:])
    else:
        letters = letters_of(rest)
    if not all(0 <= point.x < WIDE and 0 <= point.y < HIGH for point in points):
        raise ValueError(text)
    if kind == "k" and not ADDRESS.fullmatch(letters):
        raise ValueError(text)
    return Ink(kind, style // 9, style % 9, flag, goes_on, tuple(points), letters)


def read(text: str) -> Optional[Ink]:
    """The ink of a text, or None if it is none."""
    form = TEXTS.get(text[1:2])
    if form is None or len(text) > MOST_SIGNS or not form.fullmatch(text):
        return None
    try:
        return parsed(text)
    except ValueError:
        return None


def ink_of(drawop: Drawop) -> Optional[Ink]:
    """The ink of a drawop, or None if it is none."""
    drawing = drawop.drawing
    return read(drawing.text) if isinstance(drawing, Text) and drawing.y >= FIRST_ROW else None


# ---- writing

XY = Tuple[float, float]


def spelled(value: int, many: int) -> str:
    """A number in a number of signs."""
    signs = ""
    for _ in range(many):
        value, digit = divmod(value, BASE)
        signs = SIGNS[digit] + signs
    return signs


def settled(point: XY) -> Tuple[int, int]:
    """The unit of the page that is nearest."""
    return min(max(round(point[0]), 0), WIDE - 1), min(max(round(point[1]), 0), HIGH - 1)


def spelled_point(point: XY) -> str:
    x, y = settled(point)
    return spelled(x, 3) + spelled(y, 3)


def head(kind: str, style: Tuple[int, int], flag: int, goes_on: bool, point: XY) -> str:
    return "~" + kind + spelled(9 * style[0] + style[1], 1) + (GOING_ON if goes_on else FLAGS)[flag] + spelled_point(point)


def style_of(colour: int, width: int) -> Tuple[int, int]:
    if not (0 <= colour <= 9 and 0 <= width <= 8):
        raise ValueError("a colour is 0 to 9, and a width 0 to 8")
    return colour, width


def step_to(start: int, end: int, unit: int, many: int) -> Tuple[int, int]:
    """The value of the step that ends nearest to a place and on the page, and where it ends."""
    def there(value: int) -> int:
        return start + int(math.copysign(far_of(abs(value - STILL)), value - STILL)) * unit

    best = min((value for value in range(GREATEST + 1) if 0 <= there(value) < many), key=lambda value: abs(there(value) - end))
    return best, there(best)


def bend(points: Sequence[XY], at: int) -> Tuple[XY, XY]:
    """The two middle points of the curve from a point of a stroke to the next: centripetal Catmull-Rom."""
    start, end = points[at], points[at + 1]
    before, after = points[at - 1] if at else None, points[at + 2] if at + 2 < len(points) else None
    return middle(before if before and not is_corner(before, start, end) else None, start, end), middle(after if after and not is_corner(start, end, after) else None, end, start)


def is_corner(a: XY, b: XY, c: XY) -> bool:
    size = math.dist(a, b) * math.dist(b, c)
    return size > 0 and ((b[0] - a[0]) * (c[0] - b[0]) + (b[1] - a[1]) * (c[1] - b[1])) / size < 0.2588


def middle(before: Optional[XY], start: XY, end: XY) -> XY:
    d1, d2 = math.sqrt(math.dist(before, start)) if before else 0.0, math.sqrt(math.dist(start, end))
    if not before or d1 == 0 or d2 == 0:
        return start[0] + (end[0] - start[0]) / 3, start[1] + (end[1] - start[1]) / 3
    a, b, c, whole = d1 * d1, d2 * d2, 2 * d1 * d1 + 3 * d1 * d2 + d2 * d2, 3 * d1 * (d1 + d2)
    x, y = ((a * end[axis] - b * before[axis] + c * start[axis]) / whole for axis in (0, 1))
    return x, y


def dense(points: Sequence[XY], longest: float) -> Iterator[XY]:
    """The points of a stroke, with more of its curve between those that are far apart."""
    yield points[0]
    for at in range(len(points) - 1):
        start, end = points[at], points[at + 1]
        many = math.ceil(max(abs(end[0] - start[0]), abs(end[1] - start[1])) / longest)
        b, c = bend(points, at)
        for part in (step / many for step in range(1, many)):
            left = 1 - part
            weights = left ** 3, 3 * left * left * part, 3 * left * part * part, part ** 3
            x, y = (sum(weight * point[axis] for weight, point in zip(weights, (start, b, c, end))) for axis in (0, 1))
            yield x, y
        yield end


def stroke(points: Sequence[XY], *, colour: int = 0, width: int = 2, kind: str = "s", scale: int = 1, pressures: Optional[Sequence[float]] = None) -> List[str]:
    """The texts of a stroke, or of a highlighter of kind `h`. Each step has 2^scale units as its unit. Of kind `v` each point has a pressure, 0 to 1:
    its points are no more than 50 of these units apart. Texts after the first go on from the one before, so no drawing comes between them."""
    style, unit = style_of(colour, width), 2 ** scale
    if kind not in "shv" or not points or (kind == "v") != (pressures is not None) or (pressures is not None and len(pressures) != len(points)):
        raise ValueError("a stroke has points, and of kind v a pressure for each")
    way_of = [settled(point) for point in (points if pressures is not None else dense(points, 50 * unit))]
    signs = [spelled(round(GREATEST * min(1.0, max(0.0, pressure))), 1) for pressure in pressures] if pressures is not None else [""] * len(way_of)
    x, y = way_of[0]
    texts = [head(kind, style, scale, False, (x, y)) + signs[0]]
    for at, (to, pressed) in enumerate(zip(way_of[1:], signs[1:])):
        across, next_x = step_to(x, to[0], unit, WIDE)
        down, next_y = step_to(y, to[1], unit, HIGH)
        step = spelled(across, 1) + spelled(down, 1) + pressed
        if len(texts[-1]) + len(step) > MOST_SIGNS:
            texts.append(head(kind, style, scale, True, (x, y)) + signs[at])
        texts[-1] += step
        x, y = next_x, next_y
    return texts


def letter_signs(letter: str) -> str:
    """A letter as signs. One that has none is a question mark."""
    code = ord(letter)
    if 32 <= code < 126:
        return letter
    if 128 <= code < 4360:
        return "~" + spelled(code - 128, 2)
    is_long = code in (10, 126) or (4360 <= code < LONG_LETTER and not 0xD800 <= code < 0xE000)
    return "~" + spelled(LONG_LETTER + code, 3) if is_long else "?"


def in_texts(first: str, letters: str, following: str) -> List[str]:
    """The signs of letters in texts, of which the first has begun."""
    texts = [first]
    for signs in map(letter_signs, letters):
        if len(texts[-1]) + len(signs) > MOST_SIGNS:
            texts.append(following)
        texts[-1] += signs
    return texts


def shape(kind: str, points: Sequence[XY], *, colour: int = 0, width: int = 2, flag: int = 0, letters: str = "") -> List[str]:
    """The texts of a line (`l`: its ends, and perhaps the point that it passes half way), or by two corners of a frame (`r`), an ellipse (`o`), a
    diamond (`d`) or a note (`n`), with letters."""
    style = style_of(colour, width)
    is_right = len(points) in (2, 3) if kind == "l" else kind in ("r", "o", "d", "n") and len(points) == 2 and flag & 3 < 3
    if not is_right or not 0 <= flag < 8 or (kind == "l" and letters):
        raise ValueError("no such shape")
    first = head(kind, style, flag, False, points[0]) + "".join(map(spelled_point, points[1:]))
    return in_texts(first, letters, head("t", style, 0, True, points[0]))


def words(at: XY, letters: str, *, colour: int = 0, size: int = 2, font: int = 0) -> List[str]:
    """The texts of letters of any language, from their upper left corner."""
    style = style_of(colour, size)
    if not 0 <= font <= 2:
        raise ValueError("a font is 0 to 2")
    return in_texts(head("t", style, font, False, at), letters, head("t", style, font, True, at)) if letters else []


def link(at: XY, address: str, *, colour: int = 6, width: int = 2) -> str:
    """The text of a link. ValueError where it is none, or too long."""
    text = head("k", style_of(colour, width), 0, False, at) + "".join(map(letter_signs, address))
    if not ADDRESS.fullmatch(address) or len(text) > MOST_SIGNS:
        raise ValueError("no address, or one that is too long: %r" % address[:80])
    return text


def placed(text: str, n: int) -> Text:
    """The n-th ink of a page, from 0, where it covers no other."""
    return Text(CELL_WIDE * (n % COLUMNS), FIRST_ROW + n // COLUMNS % ROWS, text)


def inks(shown: Iterable[Drawop]) -> List[Tuple[Drawop, Ink]]:
    """The inks of what a page shows, each with its drawop."""
    found = ((drawop, ink_of(drawop)) for drawop in shown)
    return [(drawop, ink) for drawop, ink in found if ink is not None]
