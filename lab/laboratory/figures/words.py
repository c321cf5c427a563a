"""What is seen in a figure, in words of its table, so that no number on the page is older than the runs."""
from __future__ import annotations

import re
import textwrap
from collections.abc import Callable, Sequence

from laboratory.figures.cases import Record

WIDTH = 100

# a table of more lines than this stands in a file of its own, beside the plots
MOST_LINES = 8


def number(value: float | None) -> str:
    """Three figures that count."""
    if value is None:
        return "-"
    return f"{value:.0f}" if abs(value) >= 100 else f"{value:.3g}"


def sure(record: Record, column: str) -> str:
    """A mean with its interval, to the place at which the interval begins to count."""
    value, half = record[column], record.get(f"{column}_95")
    if value is None or half is None:
        return number(value)
    digits = 0 if half >= 10 else 1 if half >= 0.5 or value >= 100 else 2
    return f"{value:.{digits}f} ± {half:.{digits}f}"


def holds(record: Record, column: str, other: str) -> bool:
    """Whether the interval of a mean holds the value of a formula."""
    return bool(abs(record[column] - record[other]) <= record[f"{column}_95"] + 1e-9)


def paragraph(text: str) -> str:
    return "\n".join(textwrap.wrap(" ".join(text.split()), WIDTH, break_long_words=False, break_on_hyphens=False))


def picture(name: str, alt: str, text: str) -> str:
    """A plot with what is seen in it below."""
    return f"![{alt}](laboratory/{name}.svg)\n\n{paragraph(text)}".strip()


def table(heads: Sequence[str], records: Sequence[Record], cells: Callable[[Record], Sequence[str]]) -> str:
    lines = ["| " + " | ".join(heads) + " |", "|" + "---|" * len(heads)]
    return "\n".join([*lines, *("| " + " | ".join(cells(record)) + " |" for record in records)])


def apart(name: str, section: str) -> str:
    """A section in whose place of long tables stands a link to the table of its figure, which has what they have."""
    found: list[str] = []

    def moved(match: re.Match[str]) -> str:
        if match[0].count("\n") <= MOST_LINES:
            return match[0]
        found.append(match[0])
        return f"[Its table](laboratory/{name}.csv).\n" if len(found) == 1 else ""

    return re.sub(r"(?:^\|.*(?:\n|$))+", moved, section + "\n", flags=re.MULTILINE).rstrip("\n")


def put(page: str, name: str, section: str) -> str:
    """The page with this section between the marks of a figure's name; a page without these marks stays as it is."""
    begin, end = f"<!-- figure {name} -->\n", f"<!-- end {name} -->"
    if begin not in page or end not in page:
        return page
    head, _, rest = page.partition(begin)
    return head + begin + section + "\n" + end + rest.partition(end)[2]
