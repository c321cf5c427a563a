"""What of a datagram's words is judged."""

from __future__ import annotations

from typing import Dict, Tuple

from .reference import Datagram, Name, Origin


def name_of(words: str) -> Name:
    """A name as `7 1/1 3`."""
    source, page, number = words.split(" ")
    return Name(int(source), page, int(number))


def origin_of(text: str) -> Origin:
    """An origin as the table says it: `kept/NAME` has an owner, and so has `kept/NAME/TAG`."""
    if not text.startswith("kept/"):
        return Origin(text)
    owner, _, tag = text[len("kept/"):].partition("/")
    return Origin(tag or owner, owner)


def datagram_of(words: str) -> Datagram:
    kind, speaker, *rest = words.split(" ")
    if kind == "draw":
        page, number, time, operation = rest[:4]
        return Datagram(kind, int(speaker), Name(int(speaker), page, int(number)), int(time), operation not in ("delete", "restore"))
    if kind == "request":
        return Datagram(kind, int(speaker), name_of(" ".join(rest)))
    if kind == "ask-pages":
        return Datagram(kind, int(speaker))
    sent = int(rest.pop(0)) if kind == "session-message" else 0
    marks: Dict[int, int] = {}
    echoes: Dict[int, Tuple[int, int]] = {}
    for word in rest[1:]:
        if "@" in word:
            number, told = word.split("@")
            at, held = told.split("+")
            echoes[int(number)] = int(at), int(held)
        else:
            number, high = word.split("=")
            marks[int(number)] = int(high)
    return Datagram(kind, int(speaker), sent=sent, marks=marks, echoes=echoes, page=rest[0])
