"""What views get: the newest state of each thing by its name, what changed on the page, and the datagrams as they went by.

The member's thread tells; JSON of a whole page is made by the thread of a view that needs it, and once for all."""
from __future__ import annotations

import json
import threading
from collections import deque
from itertools import takewhile
from typing import TYPE_CHECKING, Any, Callable, Deque, Dict, List, Optional, Sequence, Tuple, TypeVar

from .views import Drawop

if TYPE_CHECKING:
    from .showing import Erased

# a view that begins gets them in this order; the page comes after the first
NAMES = ("hello", "pages", "members", "health")

# what only some members tell
OTHERS = ("scenes", "film", "presence")

# datagrams that a view which begins still sees
MOST_ENTRIES = 200

# changes of the page that are remembered: a view that is further behind gets the whole page
MOST_CHANGES = 256
MOST_BYTES = 4 << 20

# the name of a thing, and its state as JSON
News = List[Tuple[str, str]]


def compact(value: Any) -> str:
    return json.dumps(value, separators=(",", ":"))


class Whole:
    """All of a page at some time. Its JSON is made for the view that needs it, and not remembered: it is long."""

    def __init__(self, turn: int, version: int, head: Dict[str, Any], drawops: Sequence[Drawop], hidden: Sequence[Erased]) -> None:
        self.turn = turn
        self.version = version
        self.head = head
        self.drawops = drawops
        self.hidden = hidden

    def text(self) -> str:
        drawops, hidden = ",".join([drawop.json or drawop.text() for drawop in self.drawops]), ",".join([erased.text() for erased in self.hidden])
        return compact(self.head)[:-1] + ',"drawops":[%s],"hidden":[%s]}' % (drawops, hidden)


class Events:
    """One thread tells, and each view waits for what it has not seen. A slow view skips what is out of date."""

    def __init__(self) -> None:
        self.changed = threading.Condition()
        self.told: Dict[str, Dict[str, Any]] = {}
        self.states: Dict[str, Tuple[int, str]] = {}  # the same as JSON, and the version of each
        self.entries: Deque[Tuple[int, Dict[str, Any]]] = deque(maxlen=MOST_ENTRIES)
        self.page: Optional[Whole] = None
        self.page_version = 0  # of the page in view now, which the changes since that whole make of it
        self.changes: Deque[Tuple[int, str]] = deque()
        self.bytes = 0  # of these
        self.version = 0
        self.is_ended = False

    def tell(self, name: str, state: Dict[str, Any]) -> None:
        """The state of a thing from now on."""
        if self.told.get(name) == state:
            return
        self.told[name], text = state, compact(state)
        with self.changed:
            self.version += 1
            self.states[name] = self.version, text
            self.changed.notify_all()

    def tell_page(self, page: Whole) -> None:
        """Another page is in view from now on."""
        with self.changed:
            self.changes.clear()
            self.bytes = 0
            self.page, self.page_version = page, page.version
            self.changed.notify_all()

    def tell_change(self, version: int, change: Dict[str, Any], whole: Callable[[], Whole]) -> None:
        """What of the page changed since the version before. The whole page is asked for if views that begin need it anew: not all that changed since
        it was asked for is remembered."""
        text = change_text(change)
        with self.changed:
            self.page_version = version
            self.changes.append((version, text))
            self.bytes += len(text)
            while len(self.changes) > MOST_CHANGES or len(self.changes) > 1 and self.bytes > MOST_BYTES:
                self.bytes -= len(self.changes.popleft()[1])
            if self.page is None or self.changes[0][0] > self.page.version + 1:
                self.page = whole()
            self.changed.notify_all()

    def tell_entry(self, entry: Dict[str, Any]) -> None:
        """A datagram went by. Views get it with what else is new: twice a second at least, since the counts are others then."""
        self.entries.append((entry["id"], entry))

    def end(self) -> None:
        with self.changed:
            self.is_ended = True
            self.changed.notify_all()


def change_text(change: Dict[str, Any]) -> str:
    """A change as JSON, in which each drawop's own is taken over."""
    added = ",".join("[%d,%s]" % (at, drawop.text()) for at, drawop in change["added"])
    hidden = ",".join(erased.text() for erased in change["hidden"])
    rest = {name: value for name, value in change.items() if name not in ("added", "hidden")}
    return compact(rest)[:-1] + ',"added":[%s],"hidden":[%s]}' % (added, hidden)


T = TypeVar("T")


def newer(many: Deque[Tuple[int, T]], seen: int) -> List[T]:
    """Those that came after one that was seen."""
    return [each for _, each in takewhile(lambda told: told[0] > seen, reversed(many))][::-1]


class Watcher:
    """One view: what it has seen."""

    def __init__(self, events: Events) -> None:
        self.events = events
        self.seen: Dict[str, int] = {}
        self.turn = -1  # how often the page was turned, and its version there
        self.version = -1
        self.last_entry = 0

    def news(self) -> Tuple[News, Optional[Whole]]:
        """What is new since, each with its name; and the whole page, if that is needed. Nothing before all things have a state."""
        events, page = self.events, self.events.page
        if not all(name in events.states for name in NAMES) or page is None:
            return [], None
        told = [name for name in NAMES + OTHERS if name in events.states and events.states[name][0] > self.seen.get(name, 0)]
        news = [(name, events.states[name][1]) for name in told]
        self.seen.update((name, events.states[name][0]) for name in told)
        changes = newer(events.changes, self.version)
        is_whole = self.turn != page.turn or len(changes) != events.page_version - self.version
        if is_whole:
            changes = newer(events.changes, page.version)
        self.turn, self.version = page.turn, events.page_version
        news += [("change", text) for text in changes]
        entries = newer(events.entries, self.last_entry)
        if entries:
            self.last_entry = events.entries[-1][0]
            news.append(("wire", compact({"entries": entries})))
        return news, page if is_whole else None

    def wait(self, seconds: float) -> Optional[News]:
        """What is new, as soon as something is; nothing after the seconds given; None at the end."""
        with self.events.changed:
            news, page = self.news()
            if not news and page is None and not self.events.is_ended:
                self.events.changed.wait(seconds)
                news, page = self.news()
            if self.events.is_ended:
                return None
        if page is not None:
            at = 1 if news and news[0][0] == "hello" else 0
            news.insert(at, ("board", page.text()))
        return news
