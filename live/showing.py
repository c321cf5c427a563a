"""What a page shows, as the host says it: it is asked for what the page shows otherwise than when it was asked last."""
from __future__ import annotations

from itertools import dropwhile
from typing import TYPE_CHECKING, Dict, Iterable, List, NamedTuple, Optional, Set, Tuple

from .drawn import Sheet
from .events import compact
from .views import Drawop, Name, Page

if TYPE_CHECKING:
    from .board import Board


class Erased(NamedTuple):
    """A drawing that is hidden, the delete that took it away, and what the source of that did just before."""

    drawop: Drawop
    by: Optional[Drawop]
    before: Optional[Drawop]

    @property
    def name(self) -> Name:
        return self.drawop.name

    @property
    def words(self) -> str:
        return self.drawop.words

    def text(self) -> str:
        """The drawing as JSON, with who erased it, under which number and when, and of which kind the operation before was."""
        by = [self.by.name[0], self.by.name[2], str(self.by.time), self.before and self.before.kind] if self.by else None
        return '%s,"erased":%s}' % (self.drawop.text()[:-1], compact(by))


class Since(NamedTuple):
    """A block of `since`: how many drawops the host holds, the names of the drawings that are to be taken off, and the place, the name and the words of
    each that is to be put in then, one after another."""

    held: int
    hidden: Set[Name]
    shown: List[Tuple[int, Name, str]]


class Change(NamedTuple):
    """What became of a page: the names of the drawings that changed and were there before, and those of all that changed that are shown now, each with
    its place, and that are hidden now."""

    names: List[Name]
    added: List[Tuple[int, Drawop]]
    hidden: List[Erased]

    def may_be_painted(self, columns: int, rows: int) -> bool:
        """Whether something of it may lie on the first columns and rows, where ink never does."""
        drawings = [*(drawop for _, drawop in self.added), *(erased.drawop for erased in self.hidden)]
        return len(drawings) < len(self.names) or any(drawop.begins_within(columns, rows) for drawop in drawings)


NO_CHANGE = Change([], [], [])


class Showing:
    """One page at one host. `hidden` has the drawings of which the last word is a delete, the one last that was deleted last."""

    def __init__(self, page: Page) -> None:
        self.page = page
        self.held = 0  # how many drawops the host held when it was asked last
        self.seen = 0  # how many of the page were held then
        self.shown: List[Drawop] = []
        self.names: Set[Name] = set()  # of these
        self.hidden: Dict[Name, Erased] = {}

    def copy(self) -> Showing:
        """The same for another host that holds the same drawops, which shows the same."""
        made = Showing(self.page)
        vars(made).update(vars(self), shown=list(self.shown), names=set(self.names), hidden=dict(self.hidden))
        return made

    def renew(self, board: Board, sheet: Sheet) -> Change:
        """Asks the host once more. What was shown and still is has not changed, though the host may say it."""
        since, held = board.since(self.page, self.held), sheet.drawops
        stays = {name for _, name, _ in since.shown} & self.names
        added = [(place, held.get(name) or Drawop(words)) for place, name, words in since.shown if name not in stays]
        gone, names = (since.hidden & self.names) - stays, stays.union(drawop.name for _, drawop in added)
        new = sheet.order[self.seen:]
        # What a hidden drawing's eraser did before may come after that. Then views get the hidden ones from there on anew, in their order.
        late = {drawop.aimed() for drawop in filter(None, map(sheet.after, new)) if not drawop.is_drawing()}
        changed = touched(new, dropwhile(lambda name: name not in late, self.hidden if late else ()))
        hidden = [erased_on(sheet, held[name]) for name in changed if name not in names and name in held and held[name].is_drawing()]
        change = Change([name for name in changed if name in gone or name in self.hidden], added, hidden)
        self.held, self.seen = since.held, len(held)
        self.put_in(change, gone)
        return change

    def is_as(self, other: Optional[Showing]) -> bool:
        """Whether another host shows the same of the page."""
        return other is not None and (self.page, self.shown, list(self.hidden.values())) == (other.page, other.shown, list(other.hidden.values()))

    def put_in(self, change: Change, gone: Set[Name]) -> None:
        if gone:
            self.shown = [drawop for drawop in self.shown if drawop.name not in gone]
            self.names -= gone
        for place, drawop in change.added:
            self.shown.insert(place, drawop)
            self.names.add(drawop.name)
            self.hidden.pop(drawop.name, None)
        for erased in change.hidden:
            self.hidden.pop(erased.name, None)
            self.hidden[erased.name] = erased


def erased_on(sheet: Sheet, drawop: Drawop) -> Erased:
    by = sheet.eraser(drawop.name)
    return Erased(drawop, by, sheet.before(by) if by else None)


def touched(drawops: Iterable[Drawop], before: Iterable[Name]) -> Dict[Name, None]:
    """These names, and those of the drawings that these drew, deleted or restored, in the order in which the last of them did so."""
    names = dict.fromkeys(before)
    for drawop in drawops:
        name = drawop.name if drawop.is_drawing() else drawop.aimed()
        names.pop(name, None)
        names[name] = None
    return names
