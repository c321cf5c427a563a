"""What is between a member and its host, which judges: what the member takes from the lines of a block, and what it decides itself. The host
answers as the test says. What a host decides the table of cases says (tests/judging)."""
from __future__ import annotations

from types import SimpleNamespace
from typing import Any, Dict, List, Optional, Tuple

from live.alarms import Alarms
from live.board import SLACK, Board
from live.carriers.carrier import Origin
from live.clock import SECOND, wall
from live.constants import NEAR
from live.digests import Digests
from live.drawn import Drawn
from live.heard import PATIENCE, PAUSE
from live.joining import FETCH_AGAIN, FETCH_PAUSE, LACKING, MANY, MOST_TRIED
from live.judging import Judging
from live.options import read_options
from live.record import Record
from live.telling import Telling
from live.views import Drawop, datagram_of
from live.wire import Wire
from wbhost import Block
from ..facts import Facts

PAGE = (7, 1)
X, Y, Z = Origin("x"), Origin("y"), Origin("z")

# session-message 1 5 7/1
REPORT = "5742010200000018000000010000000000000005000000070000000100000000"
# the same with marks of 121 sources: 1,000 bytes
LONG = "57420102%08x" % 992 + REPORT[16:56] + "0079" + 121 * "0000000100000001" + "0000"


class Answering:
    """In the place of a host: it answers all lines of one kind alike, and notes them."""

    def __init__(self) -> None:
        self.said: Dict[str, List[str]] = {"came": ["drew 7 1 7 1", "send 00ff", "became new"]}
        self.fault: Optional[str] = None
        self.told: List[str] = []

    def ask_all(self, lines: List[str]) -> List[Block]:
        self.told += lines
        kinds = [line.split(" ", 1)[0] for line in lines]
        return [Block(self.said.get(kind, []), None, self.fault if kind == "came" else None) for kind in kinds]

    def members(self, *members: str) -> None:
        self.said["members"] = ["members %d" % len(members), *("member " + each for each in members)]


class One:
    """A member that has what its judging asks for. Its clock stands."""

    def __init__(self) -> None:
        self.drawn, self.alarms, self.wire = Drawn(), Alarms(), Wire(None)  # type: ignore[arg-type]
        self.options = read_options([])
        self.options.many = lambda: NEAR  # type: ignore[assignment]
        self.record, self.host, self.at = Record(None), Answering(), 0
        self.board = Board("", self.options, self.record, None, self.drawn.add)  # type: ignore[arg-type]
        self.board.me, self.board.cells = 1, 1_000
        self.board.host = self.host  # type: ignore[assignment]
        self.board.now = lambda: self.at  # type: ignore[assignment]
        self.board.clock = SimpleNamespace(now=lambda: self.at)  # type: ignore[assignment]
        self.board.wall = wall()
        self.me, self.is_ready = 1, True
        self.telling = Telling(self, None)  # type: ignore[arg-type]
        self.digests = Digests(self)  # type: ignore[arg-type]
        self.judging = Judging(self)  # type: ignore[arg-type]

    def heed(self, words: str, origin: Origin = X, sent: Optional[List[str]] = None) -> Optional[str]:
        """Why a datagram changes nothing. In the place of its digits are its words."""
        return self.judging.heed(datagram_of(words, words), words, origin, [] if sent is None else sent)

    def says(self, *lines: str) -> None:
        """What the host says from now on of what comes in."""
        self.host.said["came"] = list(lines)

    def meet(self, number: int = 9, origin: Origin = X, more: str = "") -> Optional[str]:
        """A member answers our report from there."""
        self.at = max(self.at, 25)
        self.says()
        self.host.members("%d %s %d %d" % (number, origin.word, self.at, self.at))
        return self.heed("session-message %d 77 7/1%s 1@5+10" % (number, more), origin)

    def missing(self) -> int:
        return self.telling.reported.missing(PAGE, self.drawn)

    def kept(self) -> List[str]:
        return [str(line) for line in self.record.acts()]


def drawing(source: int, seq: int, time: int = 5) -> str:
    return "draw %d 7/1 %d %d line 0 0 1 1 *" % (source, seq, time)


def digits_of(source: int, seq: int) -> str:
    """How a drawing begins in hexadecimal."""
    return "5742010100000022%08x0000000700000001%08x" % (source, seq)


def test_reports(facts: Facts) -> None:
    """What members report and is not held is missing until it comes."""
    one, sent = One(), []  # type: One, List[str]
    one.at = -SECOND
    one.says()
    one.host.members("9 %s - 0" % X.word)
    one.heed("session-message 9 77 7/1 7=3")
    facts("what a stranger reports is not missing", one.missing(), 0)
    one.meet(9, X, " 7=3")
    facts("and what a member reports is", (one.missing(), list(one.telling.reported.names)), (1, [(7, PAGE, 3)]))
    one.says("drew 7 1 7 1", "send 00ff", "became new")
    for seq in (2, 3):
        facts("what comes is handed in", one.heed(drawing(7, seq), X, sent), None)
    facts("then it is forgotten, and what is below is missing", (one.missing(), one.telling.reported.names), (1, {}))
    facts("what the host sends goes out", sent, ["00ff"] * 2)
    one.says("dropped own")
    facts("what comes under our number is not handed in", one.heed("request 1 7 7/1 2"), "our own number")
    one.says()
    one.heed("page-state 8 7/1 7=3", Y)
    facts("who sends from there its own reports alone tell", one.wire.origins, {X: 9})
    facts("the host hears from where each comes", [line.split(" ")[2] for line in one.host.told if line.startswith("came ")], [X.word] * 5 + [Y.word])


def test_warnings(facts: Facts) -> None:
    """People get in words what the host warns of, and why it drops something."""
    one = One()
    one.says("dropped speaks", "warn speaks 9")
    facts("why", one.heed("request 9 7 7/1 2"), "speaks for another")
    facts("the warning says from where, and for whom", one.alarms.told(), ["x speaks for member 9, which is another's number: that is not heeded"])
    for what in ("mark", "full", "share"):
        one.says("dropped " + what, "warn " + what)
        one.heed(drawing(7, 1), Z)
    facts("each has its words", len(one.alarms.told()), 4)
    facts("nobody has our number", one.judging.fault_of_drawing(), None)
    one.says("dropped own", "warn twin")
    one.heed("session-message 1 77 7/1 1@5+10")
    facts("a twin lasts, also where a new host has not heard it yet", (one.judging.has_twin, one.judging.fault_of_drawing()), (True, "another member has our number: take a new one"))


def test_clash(facts: Facts) -> None:
    """A member's copy of what is held is dropped, since it would hush us. If it differs from what is held, people are warned all the same."""
    one = One()
    one.meet()
    for seq in (1, 2, 3):
        one.drawn.add(Drawop(drawing(1, seq)))
    one.says("dropped again")
    facts("a stranger repeats what is held", one.heed(drawing(1, 2, 6), Z), "it would hush us")
    facts("a member's copy of what is held", (one.heed(drawing(1, 2)), one.alarms.told()), ("it would hush us", []))
    facts("its drawing of another kind under that name", (one.heed(drawing(1, 2, 6)), one.alarms.told()), ("it would hush us", ["two members draw with number 1: what they drew differs from member to member"]))


def test_last(facts: Facts) -> None:
    """What we drew last waits to be sent again until a member tells the others of it, also by what would hush us alone."""
    one = One()
    one.meet()
    cases: List[Tuple[Origin, str, str, bool]] = [
        (Z, "", "session-message 8 78 7/1 1=2", True), (X, "dropped crowd", "session-message 9 78 7/1 1=2", True),
        (X, "dropped again", "request 9 1 7/1 2", False), (X, "", "session-message 9 78 7/1 1=2", False)]
    for origin, why, words, waits in cases:
        one.judging.tails.drew(Drawop(drawing(1, 2)), one.at)
        one.says(*filter(None, [why]))
        one.heed(words, origin)
        facts("%s from %s, %s" % (words, origin.text, why or "taken"), one.judging.tails.due() is not None, waits)


def test_stream(facts: Facts) -> None:
    """Of a stream the host gets each drawop that is not held, and nothing else."""
    one, sent = One(), []  # type: One, List[List[str]]
    stream = {digits_of(7, 1): drawing(7, 1), digits_of(7, 2): drawing(7, 2), "57420103": "request 9 7 7/1 3"}
    one.words = SimpleNamespace(all=lambda digits: [SimpleNamespace(words=stream[each]) for each in digits])  # type: ignore[attr-defined]
    one.send_all = sent.append  # type: ignore[attr-defined]
    one.drawn.add(Drawop(drawing(7, 1)))
    one.judging.take_stream([bytes.fromhex(each) for each in stream], Z)
    facts("what the host hears", [line.split(" ")[3] for line in one.host.told if line.startswith("came ")], [digits_of(7, 2)])
    facts("what it sends goes out", sent, [["00ff"]])


def test_refused(facts: Facts) -> None:
    """What the host refuses, or does not take, changes nothing here."""
    one = One()
    one.meet()
    one.host.fault = "datagram 4"
    facts("why a report is refused", one.heed("session-message 9 78 7/1 7=3"), "datagram 4")
    facts("what it told of is not missing", one.missing(), 0)
    facts("why a drawop is refused", one.heed(drawing(7, 1), Z), "datagram 4")
    one.host.fault = None
    one.says("became clash")
    facts("one that clashes", (one.heed(drawing(7, 1), Z), one.alarms.told()), (None, ["two members draw with number 7: what they drew differs from member to member"]))
    one.says("became left")
    facts("one without room", (one.heed(drawing(7, 1), Z), one.alarms.told()[-1]), (None, "the board is full: new drawops are not kept"))
    facts("none of them is kept", (one.board.strange, one.drawn.total, one.kept()), (set(), 0, []))


def test_record(facts: Facts) -> None:
    """The record has what the host says, in its order. What no member gave stands there in words, until a member turns out to be who gave it."""
    one = One()
    for source, origin in ((7, Y), (6, Z)):
        one.says("record tick 25", "record " + drawing(source, 1), "drew 7 1 %d 1" % source, "became new")
        one.heed(drawing(source, 1), origin)
    facts("what strangers gave", (one.kept(), one.board.strange), (["tick 25", drawing(7, 1), "tick 25", drawing(6, 1)], {(7, PAGE, 1), (6, PAGE, 1)}))
    one.says("record tick 30", "record datagram " + digits_of(7, 1))
    one.heed("session-message 7 77 7/1 1@5+10", Y)
    facts("is a member's once he answers, and no other's", (one.kept()[4:], one.board.strange), (["tick 30", "datagram " + digits_of(7, 1)], {(6, PAGE, 1)}))
    facts("the page has members' drawings, and would not if both were strangers'", one.telling.is_strange(PAGE), False)
    one.board.strange.add((7, PAGE, 1))
    facts("then it is a page of strangers", one.telling.is_strange(PAGE), True)


def test_heard(facts: Facts) -> None:
    """Who is heard the host says; how far away each is, its answer says."""
    one = One()
    one.meet()
    facts("a member", [(number, other.at, other.answered, other.delay) for number, other in one.judging.present().items()], [(9, 25, 25, 5)])
    asked = one.host.told.count("members")
    facts("nothing came in since, so nobody is asked", (len(one.judging.present()), one.host.told.count("members")), (1, asked))
    one.says()
    one.host.members("9 %s 25 26" % X.word, "8 %s - 26" % Z.word)
    one.at = 26
    one.heed("session-message 8 77 7/1", Z)
    facts("of one that was heard the host is asked seldom", (len(one.judging.present()), one.host.told.count("members")), (1, asked))
    one.at += PAUSE
    facts("and then again: no delay to a stranger is known, and to a member that of its answer", [(number, other.delay) for number, other in one.judging.present().items()], [(9, 5), (8, None)])
    facts("from where members speak", [one.judging.heard.is_member(origin) for origin in (X, Z)], [True, False])
    one.board.begun_at = one.at = SECOND
    one.host.members("7 %s - %d" % (Z.word, SECOND))
    one.heed("session-message 7 77 7/1", Z)
    facts("a new host has heard one, and two are remembered", sorted(one.judging.present()), [7, 8, 9])
    one.at += PATIENCE
    one.says()
    one.heed("session-message 7 77 7/1", Z)
    facts("for so long", sorted(one.judging.heard.within(2 * PATIENCE)), [7])
    one.judging.heard.leave(Z)
    facts("who is gone is gone", one.judging.heard.within(2 * PATIENCE), {})


def test_forgotten(facts: Facts) -> None:
    """Of those that it heard itself a host tells who is there. What it tells no more is forgotten, and what another place or an end has made untrue."""
    one = One()
    heard = one.judging.heard

    def tells(at: int, speaker: int, origin: Origin, *members: str, more: str = "") -> Dict[int, Optional[int]]:
        """How far away each is, after a report."""
        one.at = at
        one.says()
        one.host.members(*members)
        one.heed("session-message %d 78 7/1%s" % (speaker, more), origin)
        return {number: other.delay for number, other in one.judging.present().items()}

    one.meet(9, X)
    facts("an answer tells the delay to its speaker, and nothing else of it is remembered", (heard.within(PATIENCE)[9].delay, heard.echoes), (5, {}))
    facts("a report that answers nobody changes no delay", tells(25 + PAUSE, 9, X, "9 %s 25 125" % X.word), {9: 5})
    facts("nor does an echo that the host takes for no answer", tells(25 + 2 * PAUSE, 9, X, "9 %s 25 225" % X.word, more=" 1@5+10"), {9: 5})
    facts("from another place it says nothing of the delay", tells(25 + 3 * PAUSE, 9, Y, "9 %s 25 325" % Y.word), {9: None})
    both = "9 %s 25 425" % Y.word, "8 %s - 425" % Z.word
    facts("two are there", tells(25 + 4 * PAUSE, 8, Z, *both), {9: None, 8: None})
    facts("for each of two the pause is as long", tells(25 + 5 * PAUSE, 9, Y, both[0]), {9: None, 8: None})
    facts("after both, the host tells one no more", tells(25 + 6 * PAUSE, 9, Y, both[0]), {9: None})
    at = 25 + 7 * PAUSE
    facts("nobody is nearer than here, though a clock gains", tells(at, 9, Y, "9 %s %d %d" % (Y.word, at, at), more=" 1@5+%d" % at), {9: 0})
    facts("there speaks a member", heard.is_member(Y), True)
    heard.leave(Y)
    facts("and none once the network says that it is gone", (heard.is_member(Y), one.judging.present()), (False, {}))


def test_patience(facts: Facts) -> None:
    """A member is gone after a minute, or, where many speak seldom, after three reports."""
    one = One()
    one.says()
    one.host.members(*("%d p%d - 0" % (number, number) for number in range(2, 51)))
    one.heed("session-message 2 77 7/1", Origin("p2"))
    for rate, wanted in ((4_000, 60), (2_000, 75), (400, 192)):
        one.options.rate = rate
        one.judging.outgoing(LONG)
        facts("of fifty who have %d bytes a second one is gone after so many seconds" % rate, one.judging.patience, wanted * SECOND)
    there = len(one.judging.present())
    one.at = 192 * SECOND
    facts("until then it is here", (there, len(one.judging.present())), (49, 0))


def test_requests(facts: Facts) -> None:
    """No request goes out while a stream brings what it asks for."""
    one, request = One(), "57420103" + 24 * "00"
    facts("a request goes out", one.judging.outgoing(request), request)
    one.judging.joining.is_busy = True
    one.judging.joining.took(MANY)
    facts("and none beside a stream that brings much", (one.judging.outgoing(request), one.judging.outgoing("57420101")), (None, "57420101"))


def test_streams(facts: Facts) -> None:
    """A stream is taken of a member, if the host says so or holes are lacking that the host does not count; not too often."""
    one, begun = One(), []  # type: One, List[Origin]
    joining = one.judging.joining
    joining.fetch = lambda origin, _: begun.append(origin)  # type: ignore[assignment]
    report: Any = datagram_of("session-message 9 77 7/1 1=600 " + " ".join("%d=1" % source for source in range(2, 70)), "")
    facts("of 64 marks, without ours, one number of each is lacking", joining.lacking(report), 63)
    one.drawn.add(Drawop(drawing(2, 1)))
    facts("but of whom it is held", joining.lacking(report), 62)
    one.meet(9, X, " 2=499")
    facts("of a member that has few more no stream is taken", begun, [])
    one.drawn.add(Drawop(drawing(2, 502)))
    one.meet(9, X, " 2=502")
    facts("holes count", begun, [X])
    first = one.board.moment
    for after, number, origin, wanted in ((FETCH_PAUSE - SECOND, 8, Y, [X]), (FETCH_PAUSE + SECOND, 8, Y, [X, Y]), (2 * FETCH_PAUSE + 2 * SECOND, 9, X, [X, Y]), (FETCH_AGAIN - SECOND, 9, X, [X, Y]),
                                          (FETCH_AGAIN + SECOND, 9, X, [X, Y, X])):
        one.at = first + after
        one.meet(number, origin, " 2=502")
        facts("not within ten seconds, and of one member not within a minute: after %d s" % (after // SECOND), list(begun), wanted)
    one.says("fetch %s 700" % Z.word)
    one.host.members("7 %s %d %d" % (Z.word, one.at, one.at))
    one.heed("session-message 7 77 7/1 2=502 1@5+10", Z)
    facts("but whenever the host says so", begun[3:], [Z])


def test_streams_in_vain(facts: Facts) -> None:
    """Of a member that has not what its marks leave room for, since a number was forged or left out, no second stream is taken, until it reports more."""
    one, begun = One(), []  # type: One, List[Any]
    joining = one.judging.joining
    joining.fetch = lambda _, marks: begun.append(marks)  # type: ignore[assignment]
    one.drawn.add(Drawop(drawing(900, 1_000)))

    def streams(number: int, origin: Origin, high: int) -> int:
        one.at += FETCH_AGAIN
        one.meet(number, origin, " 900=%d" % high)
        return len(begun)

    facts("a member reports a number of which those below are lacking", streams(9, X, 1_000), 1)
    joining.brought = LACKING
    joining.note(begun[-1])
    facts("the stream brought much, so another is taken", streams(9, X, 1_000), 2)
    joining.brought = LACKING - 1
    joining.note(begun[-1])
    facts("that one brought little, so no more are", [streams(9, X, high) for high in (1_000, 1_000, 999 + LACKING)], [2, 2, 2])
    facts("but of another member, and if it reports more", [streams(8, Y, 1_000), streams(9, X, 1_000 + LACKING)], [3, 4])
    for source in range(MOST_TRIED):
        joining.note({(9, PAGE, source): 5})
    facts("what is remembered is bounded", len(joining.tried), MOST_TRIED)


def test_time(facts: Facts) -> None:
    """The host gets the time of day if it reckons with another, and with each drawing."""
    one = One()
    facts("it is right", one.board.is_wrong(), False)
    one.at = 2 * SLACK
    facts("this clock has gone otherwise", one.board.is_wrong(), True)
    facts("the line", one.board.line_of_time(one.at, wall()).split(" ")[:2], ["wall", "%d" % one.at])
    facts("then it is right again", one.board.is_wrong(), False)
    one.host.said["add"] = ["record tick 2000000", "record say draw 1 7/1 1 60 line 0 0 1 1 *", "drew 7 1 1 1", "send " + digits_of(8, 1), "send " + digits_of(1, 1), "became new"]
    block, drawop = one.board.draw(PAGE, 60, "line 0 0 1 1 *")
    facts("what the host is told", one.host.told[-2:], ["wall 2000000 60", "add 2000000 7/1 line 0 0 1 1 *"])
    facts("the drawing is what the record has, and not what is repaired besides", drawop and (drawop.words, drawop.digits), ("draw 1 7/1 1 60 line 0 0 1 1 *", digits_of(1, 1)))
    facts("both are sent", len(block.sent()), 2)
