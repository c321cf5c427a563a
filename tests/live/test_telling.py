"""What a member tells its views and its people: how full the board is, who is here, what is missing, and that views show what the host has."""
from __future__ import annotations

import json
import random
from types import SimpleNamespace
from typing import Any, Dict, List, Tuple

from live.board import COLUMNS
from live.drawn import Drawn
from live.events import MOST_BYTES, MOST_CHANGES, NAMES, Events, Watcher, Whole
from live.heard import Other
from live.showing import Showing
from live.telling import IN_VAIN, MOST_MEMBERS, MOST_REPORTED, MOST_SHOWINGS, Reported, Telling
from live.views import Drawop
from ..facts import Facts
from .hosts import AtHost, PAGE as HOSTS_PAGE
from .test_judging import PAGE, Answering, One, X, drawing


class Told(One):
    """A member whose telling goes to events, with this page in view."""

    def __init__(self) -> None:
        super().__init__()
        self.page = PAGE
        self.telling.events = Events()

    def state(self, name: str) -> Dict[str, Any]:
        """The last state of a thing that went to the views."""
        told: Dict[str, Any] = json.loads(self.telling.events.states[name][1])
        return told


def test_room(facts: Facts) -> None:
    """Of 1,000 cells a fifth is few, and one in 32 is for deletes and restores."""
    warnings = {799: "", 800: "the board becomes full: 800 of", 968: "the board becomes full: 968 of", 969: "the board is full: 969 of", 1_000: "the board is full: 1000 of"}
    for total, wanted in warnings.items():
        one = Told()
        one.drawn.total = total
        one.telling.notice_room()
        facts("with %d cells taken" % total, [text[:len(wanted)] for text in one.alarms.told()], [wanted] if wanted else [])


def test_members(facts: Facts) -> None:
    """If more are here than views get, those that have answered us come before strangers; they stand by their numbers."""
    one = Told()
    here = {number: Other(X.word, 0) for number in range(1, MOST_MEMBERS + 1)}
    here[9_000] = Other(X.word, 0, answered=0, delay=5_000)
    one.judging.present = lambda: here  # type: ignore[assignment]
    one.telling.tell_members()
    told: List[Tuple[int, Any]] = [(each["member"], each["delay"]) for each in one.state("members")["members"]]
    facts("who has answered is told before strangers", (len(told), told[-1]), (MOST_MEMBERS, (9_000, 5.0)))
    facts("by their numbers", [number for number, _ in told], [*range(1, MOST_MEMBERS), 9_000])


def test_news(facts: Facts) -> None:
    """A member tells what is new of a page that is not in view, whatever came: put into what it told before, that is what the host shows."""
    chance, at = random.Random(5), AtHost()
    member: Any = SimpleNamespace(board=at.board, drawn=at.drawn)
    telling, last, shown = Telling(member, Events()), "", []  # type: Telling, str, List[List[int]]
    lengths = []
    for step in range(60):
        for number in range(1 + 4 * step, 4 * step + 1 + chance.randrange(4)):
            aims = "line 0 0 4 0 *" if chance.randrange(3) else "%s 7 %d" % (chance.choice(("delete", "restore")), chance.randrange(1, 4 * step + 2))
            if aims.split()[-1] != str(number):
                at.add("draw 7 7/1 %d %d %s" % (number, chance.randrange(1, 500), aims))
        text = telling.news_of(HOSTS_PAGE, last)
        news = json.loads(text)
        lengths.append(len(text))
        shown = [] if news["whole"] else [name for name in shown if name not in news["names"]]
        for place, each in news["added"]:
            shown.insert(place, [each["source"], each["seq"]])
        facts("step %d" % step, (shown, news["whole"]), ([[source, seq] for source, _, seq in at.board.view(HOSTS_PAGE)], not last))
        last = news["since"]
    facts("if nothing is new, nothing is told", (json.loads(telling.news_of(HOSTS_PAGE, last))["added"], sorted(lengths)[30] < 400), ([], True))
    facts("what is no word of ours has all of it", [json.loads(telling.news_of(HOSTS_PAGE, word))["whole"] for word in ("", "-", last + "x", "a-1", last.split("-")[0], last + "9", last + "9" * 9_000)], [True] * 7)
    other = AtHost("draw 7 7/1 1 5 line 0 0 4 0 *")
    member.board, member.drawn = other.board, other.drawn
    news = json.loads(telling.news_of(HOSTS_PAGE, last))
    facts("of another host too", (news["whole"], [it["seq"] for _, it in news["added"]]), (True, [1]))
    at.end()
    other.end()


def test_missing(facts: Facts) -> None:
    """What was reported, and came by another way than a datagram, is missing no more."""
    reported, drawn = Reported(), Drawn()
    reported.tell((7, PAGE, 1))
    facts("what is not held is missing", reported.missing(PAGE, drawn), 1)
    drawn.add(Drawop(drawing(7, 1)))
    facts("and what is held is not, though nobody said so", reported.missing(PAGE, drawn), 0)


def asking(source: int, seq: int) -> str:
    """Our request for a drawop of the page, in hexadecimal."""
    return "5742010300000014" + "%08x" * 5 % (1, source, *PAGE, seq)


def test_awaited(facts: Facts) -> None:
    """People wait for what members tell of: for no hole below what no member gave, and for nothing that was asked for in vain."""
    one = Told()
    one.inbox, one.streams = SimpleNamespace(bad=0, dropped=0, foreign=0, trouble=""), None  # type: ignore[attr-defined]

    def missing() -> Any:
        one.telling.tell_health()
        return one.state("health")["missing"]

    def given(source: int, seq: int, is_strange: bool = False) -> None:
        one.drawn.add(Drawop(drawing(source, seq)))
        one.board.strange |= {(source, PAGE, seq)} if is_strange else set()
        one.telling.notice_fate((source, PAGE, seq), "new")

    def ask_beside_another(seq: int) -> None:
        one.meet(more=" 7=9")
        one.judging.outgoing(asking(7, seq))

    given(900, 2**32 - 1, is_strange=True)
    facts("nothing is missing below a stranger's drawing", missing(), 0)
    one.meet(more=" 900=4294967295")
    facts("nor if a member has it too", missing(), 0)
    for seq in (1, 5):
        given(7, seq)
    facts("three are below what a member gave", missing(), 3)
    one.meet(more=" 7=9")
    given(7, 1_000, is_strange=True)
    facts("and one is told by its mark, also beside a stranger's of that number", missing(), 4)
    for _ in range(2 * IN_VAIN):
        one.judging.outgoing(asking(7, 2))
    facts("while nobody is heard, it is waited for", missing(), 4)
    for asked in range(1, IN_VAIN):
        facts("asked %d times in vain" % asked, missing(), 4)
        ask_beside_another(2)
    facts("what nobody has is not waited for", missing(), 0)
    given(8, 3)
    facts("what another has is", missing(), 2)
    given(7, 900, is_strange=True)
    facts("no stranger's drawing changes that", missing(), 2)
    given(7, 2)
    facts("one that comes of a member does", missing(), 5)
    one.judging.outgoing(asking(8, 1))
    for _ in range(IN_VAIN):
        ask_beside_another(3)
    facts("nor is one waited for whose turn to be asked for has not come again", missing(), 0)
    for page in range(2 * MOST_REPORTED):
        one.telling.reported.ask((7, (9, page), 1))
    facts("what is remembered is bounded", (len(one.telling.reported.asked), len(one.telling.reported.since)), (MOST_REPORTED, MOST_REPORTED))


def test_showing(facts: Facts) -> None:
    """What the host says piece by piece: what is taken off, and what is put in where. What is hidden is what it does not show of what is held."""
    one, showing = Told(), Showing(PAGE)

    def renew(held: int, lines: List[str], *came: str) -> Tuple[List[Any], List[Any], List[str]]:
        for words in came:
            one.drawn.add(Drawop(words))
        one.host.said["since"] = ["since %d %d" % (held, len(lines)), *lines]
        names, added, hidden = showing.renew(one.board, one.drawn.sheet(PAGE))
        return names, [(place, drawop.words) for place, drawop in added], [drawop.words for drawop in hidden]

    def state() -> Tuple[List[str], List[str]]:
        return [drawop.words for drawop in showing.shown], [drawop.words for drawop in showing.hidden.values()]

    first, second, third = drawing(7, 1), drawing(7, 2, 6), drawing(8, 1, 5)
    facts("all of it at first", renew(3, ["shown 0 " + first, "shown 1 " + second], first, second, "draw 9 7/2 1 5 line 0 0 1 1 *"), ([], [(0, first), (1, second)], []))
    facts("by how many drawops are held on all pages", one.host.told[-1], "since 7 1 0")
    facts("one between", renew(4, ["shown 1 " + third], third), ([], [(1, third)], []))
    facts("since then", one.host.told[-1], "since 7 1 3")
    facts("in the order of display", state(), ([first, third, second], []))
    facts("one is deleted", renew(5, ["hidden 7 1"], "draw 8 7/1 2 9 delete 7 1"), ([(7, PAGE, 1)], [], [first]))
    facts("and is hidden", state(), ([third, second], [first]))
    facts("one is restored, and one deleted", renew(7, ["hidden 7 1", "hidden 7 2", "shown 0 " + first], "draw 8 7/1 3 10 restore 7 1", "draw 8 7/1 4 10 delete 7 2"),
          ([(7, PAGE, 1), (7, PAGE, 2)], [(0, first)], [second]))
    facts("each stands where it belongs", state(), ([first, third], [second]))
    late = drawing(9, 1)
    facts("one comes after its delete", renew(9, [], "draw 8 7/1 5 11 delete 9 1", late), ([], [], [late]))
    facts("it is hidden, and was deleted last", state(), ([first, third], [second, late]))
    facts("a delete that is not the last word", renew(10, ["hidden 7 1", "shown 0 " + first], "draw 9 7/1 2 9 delete 7 1"), ([], [], []))
    facts("changes nothing", state(), ([first, third], [second, late]))
    facts("nothing is new", (renew(10, []), state()), (([], [], []), ([first, third], [second, late])))
    fourth = drawing(7, 4, 12)
    facts("one comes with its delete, and was not there before", renew(12, ["hidden 7 4"], fourth, "draw 8 7/1 6 13 delete 7 4"), ([], [], [fourth]))
    words = ["draw 8 7/1 %d %d %s" % (seq, seq + 20, what) for seq, what in enumerate(("delete 7 1", "delete 8 1", "restore 7 1", "delete 7 1"), 7)]
    facts("two are deleted, one of them twice", renew(16, ["hidden 7 1", "hidden 8 1"], *words), ([(8, PAGE, 1), (7, PAGE, 1)], [], [third, first]))
    facts("what was deleted last is the last that is hidden", state(), ([], [second, late, fourth, third, first]))
    fifth, sixth, before = drawing(5, 1, 30), drawing(5, 2, 32), drawing(6, 1, 31)
    renew(20, [], fifth, "draw 6 7/1 2 31 delete 5 1", sixth, "draw 8 7/1 11 33 delete 5 2")
    facts("what its eraser did before comes late", renew(21, ["shown 0 " + before], before), ([(5, PAGE, 1), (5, PAGE, 2)], [(0, before)], [fifth, sixth]))
    facts("what is hidden stays in its order", state()[1][-2:], [fifth, sixth])


def test_turns(facts: Facts) -> None:
    """Views get another page as a whole, and one of which another host shows something else; what was seen of a page lasts while its host does."""
    one, first = Told(), drawing(7, 1)

    def turn(page: Tuple[int, int], *lines: str) -> int:
        one.page = page
        one.host.said["since"] = ["since %d %d" % (len(lines), len(lines)), *lines]
        one.telling.tell_board()
        assert one.telling.events.page is not None
        return one.telling.events.page.turn

    def begin_again() -> None:
        one.board.host, said = Answering(), one.host.said  # type: ignore[assignment]
        one.host = one.board.host  # type: ignore[assignment]
        one.host.said = said

    one.host.said["paint"] = ["paint 2", "|ok never", "|  "]
    facts("each turn is told", [turn(PAGE), turn((7, 2)), turn(PAGE)], [1, 2, 3])
    facts("the rows stand after their marks", one.telling.events.page and one.telling.events.page.head, {"page": "7/1", "columns": COLUMNS, "rows": ["ok never"]})
    facts("what was seen of a page is not asked again", (turn(PAGE, "shown 0 " + first), turn(PAGE), one.host.told[-1]), (3, 3, "since 7 1 1"))
    begin_again()
    facts("another host is asked for all", (turn(PAGE), one.host.told[-2:]), (4, ["since 7 1 0", "paint 7 1 200 100"]))
    begin_again()
    facts("one that shows the same tells nothing", (turn(PAGE), turn(PAGE, "shown 0 " + first)), (4, 4))
    facts("of another host nothing is remembered", list(one.telling.showings), [PAGE])
    last = [one.telling.showing((9, number)) for number in range(99)][-1]
    facts("and of few pages", (len(one.telling.showings), one.telling.showing((9, 98)) is last), (MOST_SHOWINGS, True))


def test_paintings(facts: Facts) -> None:
    """The host paints a page at first, and then when something may have changed in the part that it paints: ink lies below."""
    one, held = Told(), 0
    one.host.said["since"] = ["since 0 0"]
    one.telling.tell_board()

    def paints(words: str, *lines: str) -> bool:
        nonlocal held
        held += 1
        one.drawn.add(Drawop(words))
        one.host.told, one.host.said["since"] = [], ["since %d %d" % (held, len(lines)), *lines]
        one.telling.tell_board()
        return any(line.startswith("paint") for line in one.host.told)

    ink, frame = 'draw 7 7/1 1 5 text 64 4000 "~s"', "draw 7 7/1 3 7 frame 300 4000 199 99 *"
    facts("ink is not painted", paints(ink, "shown 0 " + ink), False)
    facts("nor if it is deleted", paints("draw 7 7/1 2 6 delete 7 1", "hidden 7 1"), False)
    facts("what ends in the part is", paints(frame, "shown 0 " + frame), True)
    facts("and if it is deleted", paints("draw 7 7/1 4 8 delete 7 3", "hidden 7 3"), True)
    beside = "draw 7 7/1 5 9 line 200 0 200 99 *"
    facts("what is beside it is not", paints(beside, "shown 0 " + beside), False)


class Page:
    """The page in view as it goes on, and one who watches it and has seen all so far."""

    def __init__(self) -> None:
        self.events = Events()
        for name in NAMES:
            self.events.tell(name, {})
        self.turn = self.version = 0
        self.turn_over()
        self.watcher = Watcher(self.events)
        self.watcher.news()

    def turn_over(self) -> None:
        self.turn, self.version = self.turn + 1, 0
        self.events.tell_page(Whole(self.turn, 0, {}, [], []))

    def change(self, text: str = "") -> None:
        self.version += 1
        self.events.tell_change(self.version, {"text": text, "added": [], "hidden": []}, lambda: Whole(self.turn, self.version, {}, [], []))

    def news(self) -> Tuple[int, bool]:
        """How many changes are new to the watcher, and whether it gets the whole page before them."""
        news, page = self.watcher.news()
        return sum(name == "change" for name, _ in news), page is not None


def test_changes(facts: Facts) -> None:
    """Who is a little behind gets the changes, and who is far behind the whole page."""
    page = Page()
    facts("nothing is new", page.news(), (0, False))
    for count, wanted in ((1, (1, False)), (MOST_CHANGES, (MOST_CHANGES, False)), (MOST_CHANGES + 1, (0, True))):
        for _ in range(count):
            page.change()
        facts("after %d changes" % count, page.news(), wanted)
    page.change("x" * MOST_BYTES)
    facts("one change may be long", page.news(), (1, False))
    for _ in range(2):
        page.change("x" * (MOST_BYTES // 2))
    facts("of more only the last is remembered, and the page before it", (page.news(), len(page.events.changes)), ((1, True), 1))
    page.watcher = Watcher(page.events)
    facts("so one who begins gets both", page.news(), (1, True))
    for _ in range(2):
        page.turn_over()
        facts("another page is told as a whole", page.news(), (0, True))
