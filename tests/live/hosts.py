"""A page at a real host, as a member learns of it."""
from __future__ import annotations

from typing import List, Tuple

from live.board import Board, said
from live.drawn import Drawn
from live.options import read_options
from live.record import Record
from live.showing import Change, Showing
from live.views import Drawop
from wbhost import Host
from .members import program

PAGE = (7, 1)


class AtHost:
    """A page at a real host, which takes in drawops one after another, and what a member learns of each."""

    def __init__(self, *lines: str) -> None:
        self.host, self.drawn = Host(program()), Drawn()
        self.board = Board("", read_options([]), Record(None), None, self.drawn.add)  # type: ignore[arg-type]
        self.board.host = self.host
        self.board.tell_all(["board 1 100 1 1", "judge 0 4000 1 0 - -"])
        self.showing = Showing(PAGE)
        self.changes = [self.add(line) for line in lines]

    def add(self, line: str) -> Change:
        if said(self.board.tell("held " + line), "drew"):
            self.drawn.add(Drawop(line))
        return self.showing.renew(self.board, self.drawn.sheet(PAGE))

    def end(self) -> None:
        self.host.end()

    def shown(self) -> List[Tuple[int, int]]:
        """What is shown at the end, by source and number."""
        self.end()
        return [(drawop.name[0], drawop.name[2]) for drawop in self.showing.shown]
