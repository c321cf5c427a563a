"""Transcripts: each line that is given stands after `> `, what is printed of it below, and what standard error has in the end after `! `.

A row between bars is what stands between them. Transcripts stand in fences, as in docs/HOST-LINES.md: `host` and `judged host` for `wb host`, `host goes on` for one that goes on, and `script` for `wb run`.
In the files of tests `{..}` is what that gives in Python, by the names of the test that reads them."""

from __future__ import annotations

import re
from collections.abc import Iterable, Mapping
from pathlib import Path
from typing import Any, NamedTuple

import pytest

HOST, JUDGED_HOST, SCRIPT = "host", "judged host", "script"


class Transcript(NamedTuple):
    """What it shows, by the heading above it, and its text."""

    shows: str
    text: str


def read(path: Path, kind: str = HOST, names: Mapping[str, Any] | None = None) -> list[Transcript]:
    """Those of one kind that a file has. A fence names each part, and whether it goes on with the one before."""
    found: list[Transcript] = []
    inside, heading = "", path.name
    for line in path.read_text().split("\n"):
        if line.startswith("```"):
            inside = "" if inside else line.strip("`") or "text"
            if inside == kind:
                found.append(Transcript(heading, ""))
        elif inside in (kind, f"{kind} goes on"):
            found[-1] = found[-1]._replace(text=f"{found[-1].text}{line}\n")
        elif line.startswith("#") and not inside:
            heading = line.lstrip("# ")
    known = dict(names or {})
    return [it._replace(text=re.sub(r"\{([^{}]+)\}", lambda said: str(eval(said[1], known)), it.text)) for it in found] if known else found


def cases(transcripts: Iterable[Transcript]) -> list[Any]:
    """For a test of each."""
    return [pytest.param(it.text, id=it.shows) for it in transcripts]


def parted(transcript: str) -> tuple[str, str]:
    """The lines that are given, and what is to be printed."""
    lines = transcript.strip("\n").split("\n")
    given = [line[2:] for line in lines if line == ">" or line.startswith("> ")]
    printed = [line[1:-1] if re.fullmatch(r"\|.*\|", line) else line for line in lines if line != ">" and not line.startswith(("> ", "! "))]
    return "".join(f"{line}\n" for line in given), "".join(f"{line}\n" for line in printed)


def first_difference(given: str, printed: str, wanted: str) -> str:
    """The first line that a host printed otherwise than wanted, and for which line that it was given; or nothing."""
    if printed == wanted:
        return ""
    lines, found, listed = given.splitlines(), [*printed.split("\n"), None], [*wanted.split("\n"), None]
    number = next(number for number, (one, other) in enumerate(zip(found, listed)) if one != other)
    block = sum(line is not None and line.startswith(("ok ", "refused ")) for line in listed[:number])
    what = f"{lines[block][:60]!r}" if block < len(lines) else "its end"
    return f"line {block + 1} of {len(lines)}, {what}: it printed {told(found[number])}, and not {told(listed[number])}"


def told(line: str | None) -> str:
    return "no more" if line is None else f"{line[:90]!r}"
