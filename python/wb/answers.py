"""What a call of a host comes to."""
from __future__ import annotations

import enum
from typing import List, NamedTuple, Optional, Sequence

from .drawings import Drawop, drawop_of


class Became(enum.Enum):
    """What became of a drawop that was handed in or drawn."""

    NEW = "new"
    AGAIN = "again"
    CLASH = "clash"
    FULL = "full"


class Fetch(NamedTuple):
    """From where a stream is to be taken, and how many numbers are missing."""

    place: int
    owner: Optional[int]
    lacking: int


class Answer(NamedTuple):
    """What a call came to. If it was refused, nothing has changed. A judged host alone gives what follows `drawop`."""

    # datagrams to be sent to all others
    send: List[bytes]
    # the moment at which to call `tick` next, if there is one
    due: Optional[int]
    became: Optional[Became] = None
    # why the call was refused
    refused: Optional[str] = None
    # what people are to be warned of
    warning: Optional[str] = None
    # the drawop that is held now and was not before: its name, its page and what it draws
    drawop: Optional[Drawop] = None
    # why what came is dropped, and lines of the record, to be kept before anything is sent
    dropped: Optional[str] = None
    records: Sequence[str] = ()
    fetch: Optional[Fetch] = None


class Gap(NamedTuple):
    """Numbers of a source that are missing, from the first to the last."""

    source: int
    first: int
    last: int


class Refused(Exception):
    """A call that is the program's own was refused. It changed nothing. `fault` says why, as `listening`."""

    def __init__(self, call: str, fault: str) -> None:
        super().__init__("%s: %s" % (call[:80], fault))
        self.fault = fault


def drawn_in(send: Sequence[bytes], source: int) -> Optional[Drawop]:
    """The drawing of a source that a call sends: what it draws now goes out behind what is due before."""
    drawops = (drawop_of(datagram) for datagram in reversed(send))
    return next((drawop for drawop in drawops if drawop and drawop.source == source), None)

