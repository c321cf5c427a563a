"""The drawops that the host holds, by page. What of them a page shows, the host says (showing.py)."""
from __future__ import annotations

from typing import Dict, List, Optional, Set, Tuple

from .clock import SECOND
from .views import Drawop, Name, Page


class Sheet:
    """One page: its drawops in the order in which they came."""

    def __init__(self) -> None:
        self.drawops: Dict[Name, Drawop] = {}
        self.order: List[Drawop] = []
        self.tops: Dict[int, int] = {}  # the greatest number of each source
        self.counts: Dict[int, int] = {}  # how many of each source
        self.begun = 0  # the least time of its drawops
        self.last = 0  # the greatest time of what was drawn or restored
        self.aimed: Dict[Name, List[Drawop]] = {}  # the deletes and restores of each drawing

    def add(self, drawop: Drawop) -> bool:
        """Whether it is new."""
        source, _, seq = drawop.name
        if drawop.name in self.drawops:
            return False
        self.begun = min(self.begun, drawop.time) if self.drawops else drawop.time
        self.drawops[drawop.name] = drawop
        self.order.append(drawop)
        if drawop.kind != "delete":
            self.last = max(self.last, drawop.time)
        if not drawop.is_drawing():
            self.aimed.setdefault(drawop.aimed(), []).append(drawop)
        self.tops[source] = max(seq, self.tops.get(source, 0))
        self.counts[source] = 1 + self.counts.get(source, 0)
        return True

    def copy(self) -> Sheet:
        """The same for another member, which goes on by itself."""
        made = Sheet()
        vars(made).update(vars(self), drawops=dict(self.drawops), order=list(self.order), tops=dict(self.tops), counts=dict(self.counts),
                          aimed={name: list(each) for name, each in self.aimed.items()})
        return made

    def eraser(self, name: Name) -> Optional[Drawop]:
        """The delete that took a drawing away: the first after its last restore."""
        found: Optional[Drawop] = None
        for drawop in sorted(self.aimed.get(name, []), key=lambda each: each.key):
            found = None if drawop.kind == "restore" else found or drawop
        return found

    def before(self, drawop: Drawop) -> Optional[Drawop]:
        """What the source of a delete did just before it here, if that was within a second, and is not what it takes back."""
        source, page, seq = drawop.name
        found = self.drawops.get((source, page, seq - 1))
        is_back = found is not None and found.kind == "restore" and found.aimed() == drawop.aimed()
        return found if found and drawop.time - found.time <= SECOND and not is_back else None

    def after(self, drawop: Drawop) -> Optional[Drawop]:
        """What its source did next here."""
        source, page, seq = drawop.name
        return self.drawops.get((source, page, seq + 1))

    def begun_by(self, strange: Set[Name]) -> float:
        """The time of its first drawop that has none of these names; of a page that has no other, that of its first; and after all if it has none."""
        times = [drawop.time for drawop in self.drawops.values() if drawop.name not in strange] if strange else []
        return min(times, default=self.begun) if self.drawops else float("inf")


# a page that has nothing: it is not remembered, however many are looked at
NOTHING = Sheet()


class Drawn:
    """All pages, and how many drawops there are."""

    def __init__(self) -> None:
        self.pages: Dict[Page, Sheet] = {}
        self.total = 0

    def add(self, drawop: Drawop) -> None:
        self.total += self.pages.setdefault(drawop.name[1], Sheet()).add(drawop)

    def copy(self) -> Drawn:
        made = Drawn()
        made.pages, made.total = {page: sheet.copy() for page, sheet in self.pages.items()}, self.total
        return made

    def sheet(self, page: Page) -> Sheet:
        """A page, to be looked at alone."""
        return self.pages.get(page, NOTHING)

    def get(self, name: Name) -> Optional[Drawop]:
        return self.sheet(name[1]).drawops.get(name)

    def holds(self, name: Name) -> bool:
        return self.get(name) is not None

    def top(self, page: Page, source: int) -> int:
        """The greatest number of a source that is held of a page; 0 if there is none."""
        return self.sheet(page).tops.get(source, 0)

    def lacking(self, page: Page, source: int, high: int) -> int:
        """How many numbers of a source are lacking at least, if it has drawn as many."""
        return max(0, high - self.sheet(page).counts.get(source, 0))

    def count(self, page: Page) -> int:
        return len(self.sheet(page).drawops)

    def drawn_pages(self) -> List[Page]:
        """The pages that have drawops."""
        return list(self.pages)

    def missing(self, page: Page) -> int:
        """How many numbers of a page are missing below the greatest that is held of each source."""
        sheet = self.sheet(page)
        return sum(sheet.tops.values()) - len(sheet.drawops)

    def gaps(self, page: Page, strange: Set[Name]) -> Dict[int, Tuple[int, int]]:
        """Of each source the greatest number of a page that is none of these names, and how many below it are missing."""
        sheet = self.sheet(page)
        gaps = {source: (top, top - sheet.counts[source]) for source, top in sheet.tops.items()}
        held: Dict[int, List[int]] = {source: [] for source, top in sheet.tops.items() if (source, page, top) in strange}
        for source, _, seq in sheet.drawops if held else ():
            if source in held:
                held[source].append(seq)
        for source, numbers in held.items():
            top = max((seq for seq in numbers if (source, page, seq) not in strange), default=0)
            gaps[source] = top, top - sum(seq <= top for seq in numbers)
        return gaps

    def all(self) -> List[Drawop]:
        return [drawop for sheet in list(self.pages.values()) for drawop in list(sheet.order)]

    def beyond(self, other: Drawn) -> List[Drawop]:
        """What came here since that was a copy."""
        return [drawop for page, sheet in self.pages.items() for drawop in sheet.order[other.count(page):]]
