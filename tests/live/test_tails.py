"""The last drawing before a pause, which is sent again: by itself, and in sessions in virtual time.

    python3 -m tests.live.test_tails [MEMBERS ..]     how soon all have what was drawn where a third of all datagrams is lost"""
from __future__ import annotations

import statistics
import sys
from pathlib import Path
from typing import List, NamedTuple, Optional, Tuple
from unittest import mock

from live.carriers.carrier import Origin
from live.clock import SECOND
from live.tails import LATELY, MOST_PAGES, WAITS, Tails
from live.views import Datagram, Drawop, datagram_of
from ..facts import Facts
from .members import program
from .attacks.test_hostile import session
from .test_virtual import PAGE, Virtual, World

ME = 7
FIRST, LAST = WAITS

# the number of a drawop in its datagram
NUMBER = slice(20, 24)

# of the figures: drawings in a row, seconds between two of them, the pause after them, and after how many seconds nobody waits any more
ROW, BETWEEN, PAUSE, LONGEST = 6, 0.15, (3.0, 8.0), 90.0
LOST = 1 / 3


# ---- by itself


def drawing(seq: int, page: str = "1/1", source: int = ME) -> Drawop:
    return Drawop("draw %d %s %d 10 line 0 1 4 1 *" % (source, page, seq), "%s-%d" % (page, seq))


def lossy() -> Tails:
    """Somebody has asked for a drawing of another."""
    tails = Tails(ME)
    tails.hear(datagram_of("request 8 9 1/1 1"), 0)
    return tails


def test_waits(facts: Facts) -> None:
    tails = lossy()
    facts("nothing was drawn", (tails.due(), tails.take(9 * SECOND)), (None, []))
    tails.drew(drawing(1), 100)
    facts("a drawing is sent again after a quarter of a second, and after a second", [tails.due(), tails.take(99 + FIRST), tails.take(100 + FIRST), tails.due(),
          tails.take(99 + LAST), tails.take(100 + LAST), tails.due(), tails.take(9 * SECOND)], [100 + FIRST, [], ["1/1-1"], 100 + LAST, [], ["1/1-1"], None, []])
    tails.drew(drawing(2), 0)
    tails.drew(drawing(3), FIRST - 1)
    facts("one that another follows is not", [tails.take(FIRST), tails.take(2 * FIRST - 1)], [[], ["1/1-3"]])
    tails.drew(drawing(4), SECOND)
    facts("nor is one that was sent again once", [tails.take(SECOND + FIRST), tails.due()], [["1/1-4"], SECOND + LAST])
    tails.drew(drawing(1, "2/1"), SECOND)
    facts("each page has one", sorted(tails.take(SECOND + LAST)), ["1/1-4", "2/1-1"])


def test_quiet_networks(facts: Facts) -> None:
    """If nothing is lost, once is enough."""
    tails = Tails(ME)
    for asked, wanted in ((None, []), (0, ["1/1-1"]), (LAST - LATELY, ["1/1-1"]), (LAST - LATELY - 1, [])):
        if asked is not None:
            tails.asked(asked)
        tails.drew(drawing(1), 0)
        facts("asked for at %s" % asked, [tails.take(FIRST), tails.take(LAST), tails.due()], [["1/1-1"], wanted, None])
    tails = Tails(ME)
    tails.hear(datagram_of("ask-pages 8"), LAST)
    facts("a question for pages tells of no loss", tails.asked_at, None)


def test_told(facts: Facts) -> None:
    """What others ask for, send or report they know of, and so do all who hear that."""
    def goes(told: Datagram) -> List[str]:
        tails = Tails(ME)
        tails.drew(drawing(5), 0)
        tails.hear(told, 1)
        return tails.take(FIRST)

    for words in ("request 8 7 1/1 5", "draw 7 1/1 5 10 line 0 1 4 1 *", "session-message 8 50 1/1 7=5 9=3", "session-message 8 50 1/1 7=6", "page-state 8 1/1 7=5"):
        facts(words, goes(datagram_of(words)), [])
    for words in ("request 8 7 1/1 4", "request 8 9 1/1 5", "request 8 7 1/2 5", "draw 7 1/1 4 10 line 0 1 4 1 *", "draw 9 1/1 5 10 line 0 1 4 1 *", "ask-pages 8",
                  "session-message 8 50 1/1 7=4", "session-message 8 50 1/2 7=5", "session-message 8 50 1/1 9=5", "session-message 8 50 1/1", "page-state 8 1/1 7=4"):
        facts(words, goes(datagram_of(words)), ["1/1-5"])


def test_bounds(facts: Facts) -> None:
    tails = Tails(ME)
    for page in range(MOST_PAGES + 2):
        tails.drew(drawing(1, "1/%d" % page), page)
    tails.drew(drawing(2, "1/2"), 99)
    facts("of many pages the last wait", sorted(tails.tails), [(1, page) for page in range(2, MOST_PAGES + 2)])
    tails.drew(drawing(1, "2/1"), 100)
    facts("the one that was drawn on first goes", (1, 3) in tails.tails, False)


# ---- in sessions


class Sent(NamedTuple):
    """A drawop that a member sent, of which source and number, and whether its record had it before."""

    at: int
    source: int
    number: int
    was_kept: bool


def note_of(member: Virtual) -> List[Sent]:
    """The drawops that a member sends from now on."""
    sent: List[Sent] = []
    send, record = member.send, member.member.board.record

    def note(data: bytes) -> bool:
        if data[3] == 1:
            source, number = int.from_bytes(data[8:12], "big"), int.from_bytes(data[NUMBER], "big")
            words = "say draw %d %d/%d %d " % (source, *PAGE, number)
            sent.append(Sent(member.world.now, source, number, any(line.startswith(words) for line in record.acts())))
        return send(data)

    member.send = note  # type: ignore[assignment]
    return sent


def met(world: World, count: int, record: Optional[str] = None) -> List[Virtual]:
    """Members that know one another, over a network that loses nothing."""
    members = [world.join(1, record), *(world.join(number) for number in range(2, count + 1))]
    world.run(20)
    world.loss = 0.0
    return members


def test_lost(facts: Facts, tmp_path: Path) -> None:
    """The last drawings of a member are lost: the others have them after the wait, and what is sent again is in the record."""
    with World(1) as world:
        one, other, third = met(world, 3, str(tmp_path / "one.wb"))
        sent, of_others = note_of(one), note_of(other)
        world.loss = 1.0
        began = world.now
        for row in range(3):
            one.draw(row)
        world.run(FIRST / SECOND - 0.001)
        facts("nobody has any", [other.held(), third.held()], [0, 0])
        world.loss = 0.0
        world.run(0.2)
        facts("all have all three, by one that was sent again", [other.held(), third.held(), sent[3].at - began - FIRST < 10], [3, 3, True])
        facts("it is the last, and repairs are sent once", sorted(each.number for each in [*sent[3:], *of_others]), sorted({1, 2, 3, *(each.number for each in of_others)}))
        facts("the record has each before it is sent", [each.was_kept for each in sent], [True] * len(sent))


def test_outage(facts: Facts) -> None:
    """Without a network, after something was asked for: twice, and never again. If it is back by then, the last time is in time."""
    with World(2) as world:
        one, other = met(world, 2)
        one.judging.tails.asked(one.now())
        sent, began = note_of(one), world.now
        world.loss = 1.0
        one.draw(1)
        world.run(5)
        facts("it goes after a quarter of a second, and after a second", [each.at - began for each in sent], [0, FIRST, LAST])
        one.draw(2)
        world.run(0.5)
        facts("the other has neither", other.held(), 0)
        world.loss = 0.0
        world.run(LAST / SECOND - 0.5 + 0.1)
        facts("the other has both by the last time", other.held(), 2)


def test_at_work(facts: Facts) -> None:
    """Nothing is sent again while somebody draws, and once in a pause if all arrives; nothing of others ever."""
    with World(3) as world:
        one, other = met(world, 2)
        sent, of_other = note_of(one), note_of(other)
        for row in range(20):
            one.draw(row)
            world.run(0.2)
        facts("while it draws", [each.number for each in sent], list(range(1, 21)))
        world.run(5)
        facts("in the pause, unless a report came before", [each.number for each in sent[20:]] in ([20], []), True)
        facts("of others nothing", (of_other, other.held()), ([], 20))


def test_alone(facts: Facts) -> None:
    """Where nobody was heard, and under another number, nothing is sent again."""
    with World(4) as world:
        one = world.join(1)
        world.run(1)
        sent = note_of(one)
        one.draw(1)
        world.run(5)
        facts("alone", len(sent), 1)
        world.join(2)
        world.run(20)
        one.draw(2)
        one.member.presence = mock.Mock()
        one.member.renumber(77)
        facts("what was drawn under another number is no tail", one.member.judging.tails.due(), None)


def test_strangers(facts: Facts) -> None:
    """What a stranger asks for or reports ends nothing, and shows no losses; what a member reports does."""
    for stranger, wanted in ((True, 1), (False, 0)):
        with World(5) as world:
            one, other = met(world, 2)
            world.loss = 1.0
            one.draw(1)
            origin = Origin("eve") if stranger else other.origin
            for words in ("request 900 1 1/1 1", "session-message 900 5 1/1 1=1"):
                one.judging.heed(datagram_of(words), session(900, 5, PAGE, {1: 1}).hex(), origin, [])
            tails = one.judging.tails
            facts("a tail is left, and somebody asked", (len(tails.tails), tails.asked_at is not None), (wanted, not stranger))


# ---- figures


class Soon(NamedTuple):
    """Seconds from the last drawing of each row until all had all, and the requests and drawops that were sent for each drawing."""

    took: List[float]
    requests: float
    drawops: float

    def __str__(self) -> str:
        took = sorted(self.took)
        return "%.2f s in the median, %.2f s in nine of ten, %.1f s at most; later than 2 s %.1f %%; %.2f requests and %.2f drawops a drawing" % (
            statistics.median(took), took[9 * len(took) // 10], took[-1], 100 * sum(each > 2 for each in took) / len(took), self.requests, self.drawops)


def after_pauses(count: int, rows: int, is_repeated: bool = True, lost: float = LOST) -> Soon:
    """Members draw rows of drawings in turn, each row after a pause."""
    without = mock.patch.object(Tails, "drew", lambda *_: None)
    with World(5) as world:
        members = met(world, count)
        world.loss = lost
        before, total = totals(members), members[0].held()
        took: List[float] = []
        if not is_repeated:
            without.start()
        for row in range(rows):
            for turn in range(ROW):
                world.run(BETWEEN if turn else 0)
                members[row % count].draw(turn)
            total += ROW
            took.append(seconds_until(world, total))
            world.run(world.chance.uniform(*PAUSE))
        if not is_repeated:
            without.stop()
        requests, drawops = ((after - each) / (rows * ROW) for after, each in zip(totals(members), before))
        return Soon(took, requests, drawops)


def totals(members: List[Virtual]) -> Tuple[int, int]:
    """The requests and the drawops that they have sent."""
    return sum(member.sent["request"] for member in members), sum(member.sent["draw"] for member in members)


def seconds_until(world: World, total: int) -> float:
    """Until all hold `total` drawings, to a hundredth."""
    began = world.now
    while any(member.held() < total for member in world.members) and world.now - began < LONGEST * SECOND:
        world.run(0.01)
    return (world.now - began) / SECOND


def test_soon(facts: Facts) -> None:
    """If a third is lost, a row of drawings is there much sooner than without: chance alone makes it so once in ten thousand times."""
    soon, late = (after_pauses(2, 200, is_repeated) for is_repeated in (True, False))
    print("a third lost, the last drawing is sent again: %s\n  sent once: %s" % (soon, late))
    facts.holds("all comes, with and without", max(*soon.took, *late.took) < LONGEST, max(*soon.took, *late.took))
    facts.holds("fewer rows take over 2 s", sum(each > 2 for each in soon.took) < sum(each > 2 for each in late.took), (str(soon), str(late)))
    quiet = after_pauses(2, 20, lost=0.0)
    facts.holds("where nothing is lost, a row costs one drawop more at most", 1 < quiet.drawops <= (ROW + 1) / ROW, quiet.drawops)


def main(words: List[str]) -> None:
    program()
    for count in map(int, words or ["2", "3", "8"]):
        for is_repeated in (False, True):
            print("%d members, a third lost, the last drawing is %s: %s" % (count, "sent again" if is_repeated else "sent once", after_pauses(count, 500, is_repeated)), flush=True)


if __name__ == "__main__":
    main(sys.argv[1:])
