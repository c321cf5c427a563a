"""Reads what Chromium prints: of each sheet its size, the lines and areas on it, and its letters as far as they are text."""
from __future__ import annotations

import base64
import re
import zlib
from dataclasses import dataclass, field

from .sheets import Sheet

Colour = tuple[float, ...]

# a, b, c, d, e, f of the matrix of PDF: x' = a x + c y + e, y' = b x + d y + f
Matrix = tuple[float, ...]
SAME: Matrix = (1, 0, 0, 1, 0, 0)

# the two formats of paper, in inches
FORMATS = {"A4": (8.27, 11.69), "letter": (8.5, 11.0)}


@dataclass
class Mark:
    """A line or an area: how it was painted, in which colour, and the least box about its points, in points of the sheet."""

    is_filled: bool
    colour: Colour
    wide: float
    high: float


@dataclass
class Paper:
    """A sheet."""

    wide: float
    high: float
    marks: list[Mark] = field(default_factory=list)
    text: str = ""
    has_pictures: bool = False


def printed(sheet: Sheet, name: str) -> list[Paper]:
    """The sheets that a window prints on paper of this format."""
    wide, high = FORMATS[name]
    return read_papers(base64.b64decode(sheet.page.call("Page.printToPDF", paperWidth=wide, paperHeight=high)["data"]))


def read_papers(data: bytes) -> list[Paper]:
    objects = {int(found[1]): found[2] for found in re.finditer(rb"(\d+) 0 obj\n(.*?)\nendobj", data, re.DOTALL)}
    kids = next(body for body in objects.values() if b"/Type /Pages" in body and b"/Kids" in body)
    return [read_paper(objects, objects[int(number)]) for number in re.findall(rb"(\d+) 0 R", kids.split(b"/Kids")[1].split(b"]")[0])]


def read_paper(objects: dict[int, bytes], page: bytes) -> Paper:
    box = re.search(rb"/MediaBox \[0 0 ([\d.]+) ([\d.]+)\]", page)
    contents = re.search(rb"/Contents (\d+) 0 R", page)
    assert box and contents
    paper = Paper(float(box[1]), float(box[2]))
    fonts = {name.decode(): letters_of(objects, int(number)) for name, number in re.findall(rb"/(F\d+) (\d+) 0 R", page)}
    Reading(paper, fonts).read(stream_of(objects[int(contents[1])]).decode("latin-1"))
    return paper


def stream_of(body: bytes) -> bytes:
    return zlib.decompress(body.split(b"stream\n", 1)[1])


def letters_of(objects: dict[int, bytes], font: int) -> dict[str, str]:
    """What the codes of a font mean."""
    found = re.search(rb"/ToUnicode (\d+) 0 R", objects[font])
    told = stream_of(objects[int(found[1])]).decode("latin-1") if found else ""
    letters = {code: bytes.fromhex(letter).decode("utf-16-be") for code, letter in re.findall(r"^<(\w{4})> <(\w+)>$", told, re.MULTILINE)}
    for first, last, letter in re.findall(r"^<(\w{4})> <(\w{4})> <(\w+)>$", told, re.MULTILINE):
        letters.update((f"{int(first, 16) + n:04X}", chr(int(letter, 16) + n)) for n in range(int(last, 16) - int(first, 16) + 1))
    return letters


class Reading:
    """Goes through the content of a sheet."""

    def __init__(self, paper: Paper, fonts: dict[str, dict[str, str]]) -> None:
        self.paper = paper
        self.fonts = fonts
        self.matrix = SAME
        self.stroke: Colour = (0.0,)
        self.fill: Colour = (0.0,)
        self.kept: list[tuple[Matrix, Colour, Colour]] = []
        self.points: list[tuple[float, float]] = []
        self.font = ""

    def read(self, content: str) -> None:
        words: list[str] = []
        for word in re.findall(r"\[[^\]]*\]|<[0-9A-Fa-f]*>|\([^)]*\)|[^\s\[\]<>()]+", content):
            if re.fullmatch(r"[A-Za-z*]+", word):
                self.do(word, words)
                words = []
            else:
                words.append(word)

    def do(self, word: str, words: list[str]) -> None:
        """What an operator does; others change nothing that is looked at."""
        if word in "mlc":
            self.go(list(map(float, words)))
        elif word == "re":
            x, y, wide, high = map(float, words)
            self.go([x, y, x + wide, y + high])
        elif word in ("S", "f", "f*", "B"):
            self.paint(self.stroke if word == "S" else self.fill, word != "S")
        elif word == "n":
            self.points = []
        elif word == "q":
            self.kept.append((self.matrix, self.stroke, self.fill))
        elif word == "Q":
            self.matrix, self.stroke, self.fill = self.kept.pop()
        elif word == "cm":
            self.move(tuple(map(float, words)))
        elif word == "RG":
            self.stroke = tuple(map(float, words))
        elif word == "rg":
            self.fill = tuple(map(float, words))
        elif word == "Tf":
            self.font = words[0][1:]
        elif word in ("Tj", "TJ"):
            self.write(words[0])
        elif word == "Do":
            self.paper.has_pictures = True

    def move(self, matrix: Matrix) -> None:
        a, b, c, d, e, f = matrix
        p, q, r, s, t, u = self.matrix
        self.matrix = (a * p + b * r, a * q + b * s, c * p + d * r, c * q + d * s, e * p + f * r + t, e * q + f * s + u)

    def go(self, numbers: list[float]) -> None:
        p, q, r, s, t, u = self.matrix
        self.points += [(x * p + y * r + t, x * q + y * s + u) for x, y in zip(numbers[::2], numbers[1::2])]

    def paint(self, colour: Colour, is_filled: bool) -> None:
        xs, ys = zip(*self.points)
        self.paper.marks.append(Mark(is_filled, colour, max(xs) - min(xs), max(ys) - min(ys)))
        self.points = []

    def write(self, codes: str) -> None:
        found = re.findall(r"\w{4}", "".join(re.findall(r"<(\w+)>", codes)))
        self.paper.text += "".join(self.fonts[self.font].get(code, "?") for code in found)
