"""What people do at a member: they draw, turn pages and undo; what waits, and what is refused."""
from __future__ import annotations

from concurrent.futures import Future
from functools import partial
from types import SimpleNamespace
from typing import Any, Callable, List, Tuple

from live.alarms import Alarms
from live.drawn import Drawn
from live.kept import Kept
from live.member import PARTED_LATELY, Member
from live.people import People, Refused
from live.telling import Reported
from live.views import Drawop, Page
from wbhost import Block
from ..facts import Facts

PAGE = (7, 1)


def fate_of(act: Callable[[], Any]) -> str:
    """What becomes of what somebody draws."""
    try:
        act()
    except Refused as fault:
        return str(fault)
    return "drawn"


def test_room_of_words(facts: Facts) -> None:
    """One cell in 16 is kept: of what people draw, names, titles and the chat alone have room there, and deletes and restores."""
    drawn, drawings, others = SimpleNamespace(total=0), ("line 0 0 1 1 *", "frame 0 0 1 1 *", 'text 0 0 "a"'), ("delete 1 1", "restore 1 1")
    draws = SimpleNamespace(cells=1_000, moment=0, draw=lambda page, time, operation, keep: (Block([], None, None), Drawop("draw 1 7/1 1 5 line 0 0 1 1 *")))
    judging = SimpleNamespace(fault_of_drawing=lambda: None, tails=SimpleNamespace(drew=lambda drawop, moment: None))
    member: Any = SimpleNamespace(me=1, drawn=drawn, board=draws, judging=judging, send_all=lambda sent: None, kept=Kept())
    people = People(member)

    def fates(total: int, page: Page, operations: Tuple[str, ...]) -> List[str]:
        drawn.total = total
        return [fate_of(lambda: people.draw_now(page, operation)) for operation in operations]

    facts("up to them people draw", fates(937, PAGE, drawings), ["drawn"] * 3)
    facts("no more from there on", fates(938, PAGE, drawings), ["full"] * 3)
    facts("but for deletes and restores", fates(938, PAGE, others), ["drawn"] * 2)
    facts("and for names, titles and the chat", fates(938, (0, 0), drawings), ["drawn"] * 3)


def test_waiting_drawings(facts: Facts) -> None:
    """Until the member may draw, 1,024 drawings wait."""
    settled: List[str] = []
    judging = SimpleNamespace(tails=SimpleNamespace(drew=lambda drawop, moment: None))
    member: Any = SimpleNamespace(is_ready=False, board=SimpleNamespace(settle=lambda: settled.append("settled"), moment=0), judging=judging, send_all=settled.extend, kept=Kept())
    people, futures = People(member), [Future() for _ in range(1_025)]  # type: People, List[Future[Any]]
    for number, future in enumerate(futures):
        people.put(future, partial(Drawop, "draw 7 1/1 %d 10 delete 8 1" % (number + 1)))
    facts("one more is refused at once", (len(people.draws), fate_of(lambda: futures.pop().result(0))), (1_024, "busy"))
    people.draw_all()
    facts("none is drawn yet", any(future.done() for future in futures), False)
    people.begin()
    facts("then all that waited are drawn", [future.result(0)["seq"] for future in futures], list(range(1, 1_025)))
    facts("by one sync", settled, ["settled"])


def test_page_in_view(facts: Facts) -> None:
    """Until somebody turns, the page in view is the first that is drawn on, but for the one of names."""
    member: Any = SimpleNamespace(has_turned=False, page=(7, 1), drawn=Drawn(), telling=SimpleNamespace(is_changed=False, are_pages_changed=False))

    def after(page: str, number: int) -> Page:
        Member.hold(member, Drawop("draw 8 %s %d 10 line 0 1 4 1 *" % (page, number)))
        page_in_view: Page = member.page
        return page_in_view

    facts("names are on no page to look at", after("0/0", 1), (7, 1))
    facts("the first", after("8/2", 1), (8, 2))
    facts("no other afterwards", after("8/3", 1), (8, 2))
    member.has_turned, member.page = True, (7, 4)
    facts("nor from the one that somebody has turned to", after("8/3", 2), (7, 4))


def test_new_page(facts: Facts) -> None:
    """A new page of ours is the first that nobody drew on or told of; one that is empty yet is new enough."""
    drawn, reported, turned = Drawn(), Reported(), []  # type: Drawn, Reported, List[Any]
    member: Any = SimpleNamespace(me=7, page=(1, 1), drawn=drawn, telling=SimpleNamespace(reported=reported), turn_to=turned.append)
    for page in ((7, 1), (7, 3), (8, 2)):
        drawn.add(Drawop("draw 7 %d/%d 1 10 line 0 1 4 1 *" % page))
    people = People(member)
    facts("the first that is free", people.new_page(), {"page": "7/2"})
    reported.tell((8, (7, 2), 1))
    facts("not one that somebody told of", people.new_page(), {"page": "7/4"})
    member.page = (7, 1)
    facts("another than one that is drawn on", people.new_page(), {"page": "7/4"})
    member.page = (7, 9)
    facts("one that is empty yet", (people.new_page(), turned), ({"page": "7/9"}, [(7, 2), (7, 4), (7, 4), (7, 9)]))


def test_parting(facts: Facts) -> None:
    """If somebody else has our number, we take another by ourselves, eight times in an hour, unless the words name the number."""
    taken: List[int] = []
    alarms = Alarms()
    member: Any = SimpleNamespace(me=7, options=SimpleNamespace(me=None), parted=[], alarms=alarms)

    def renumber() -> None:
        if len(taken) == 7:
            raise Refused("no new number: its record can't be written")
        taken.append(member.me)
        member.me += 1

    member.people = SimpleNamespace(renumber=renumber)
    for _ in range(8):
        facts("it may", Member.may_part(member), True)
        Member.part(member)
    facts("not once more, where the record had no room either", (Member.may_part(member), taken), (False, [7, 8, 9, 10, 11, 12, 13]))
    facts("it says so, and why not", (alarms.told()[-2:]), ["somebody else spoke under our number 13: we draw on as member 14", "no new number: its record can't be written"])
    member.parted = [at - PARTED_LATELY for at in member.parted]
    facts("an hour later it may again", Member.may_part(member), True)
    member.options.me = 7
    facts("not if the words name the number", Member.may_part(member), False)


def test_undo(facts: Facts) -> None:
    """What we drew last is deleted, wherever its time puts it: of drawings that the host shows on the page in view."""
    deleted: List[Any] = []
    shown = {PAGE: [(7, PAGE, 2), (7, PAGE, 1), (8, PAGE, 4)], (7, 2): [(7, (7, 2), 5)]}
    member: Any = SimpleNamespace(me=7, former=[], page=PAGE, board=SimpleNamespace(view=shown.__getitem__))
    people = People(member)
    people.draw_now = lambda page, operation: deleted.append((page, operation)) or Drawop("draw 7 7/1 9 10 delete 7 2")  # type: ignore[assignment, func-returns-value, misc]
    people.undo_now()
    facts("the greatest number of ours that is shown", deleted, [(PAGE, "delete 7 2")])
    member.me, member.former = 9, [8, 7]
    people.undo_now()
    facts("also of what we drew under the number before", deleted[1:], [(PAGE, "delete 7 2")])
    member.me, member.former = 8, [7]
    people.undo_now()
    facts("but first under that of now", deleted[2:], [(PAGE, "delete 8 4")])
