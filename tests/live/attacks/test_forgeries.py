"""Forged datagrams: pages, marks, members, times, questions and floods of drawops change nothing that lasts."""
from __future__ import annotations

import time
from typing import Any, Callable, Dict, List

from ...facts import Facts
from .test_hostile import Attacker, asking, deleting, drawn, session, state
from ..members import Process, comes

FIRST_PORT = 26_320
PAGE = "1/1"
HOME = (1, 1)
MOST = 2**32 - 1
MINUTE = 60_000_000

# seconds for which it is watched that nothing happens
WHILE = 2


def now() -> int:
    return time.time_ns() // 1000


def sent_since(member: Process, start: int, kind: str) -> List[Dict[str, Any]]:
    """What a member has sent of a kind since an entry."""
    return [entry for entry in member.entries[start:] if entry["way"] == "out" and entry["kind"] == kind]


def warns(member: Process, word: str) -> bool:
    """Whether a member comes to warn with this word."""
    return member.wait_for(lambda states: any(word in text for text in states["health"]["warnings"]))


def check_last_page(facts: Facts, member: Process, attacker: Attacker) -> None:
    """A page state names the last page of ours."""
    member.draw(PAGE, "line 0 0 4 0 a")
    attacker.reach(member, [state(9, (member.me, MOST), {9: 1})])
    status, answer = member.post("/page", {"new": True})
    facts("beside a page of the last number a new one is made", status, 200)
    facts("its number is in range", int(answer.get("page", "0/%d" % 2**32).split("/")[1]) <= MOST, True)
    facts("it is drawn on", member.draw(answer.get("page", PAGE), "line 0 0 4 0 b")[0], 200)
    facts("and shown", member.wait_for(lambda states: states["board"]["page"] == answer["page"] and states["board"]["rows"] == ["bbbbb"]), True)


def check_own_mark(facts: Facts, member: Process, attacker: Attacker) -> None:
    """Others report drawings of ours that we did not make."""
    attacker.reach(member, [state(9, HOME, {member.me: MOST}), session(9, 5, HOME, {member.me: MOST})])
    status, answer = member.draw(PAGE, "line 0 1 4 1 a")
    facts("beside a mark of our number one draws", (status, answer.get("seq", MOST) < 100), (200, True))
    facts("a mark of our number is told", warns(member, "did not make"), True)


def check_crowd(facts: Facts, member: Process, attacker: Attacker) -> None:
    """1,700 members that are none."""
    facts("1,700 members speak", attacker.reach(member, [session(sender, 1) for sender in range(1000, 2700)]), True)
    start = len(member.entries)
    facts("beside them this member speaks on", member.wait_for(lambda states: sent_since(member, start, "session-message")), True)
    facts("its report is short", max([len(entry["words"]) for entry in sent_since(member, start, "session-message")], default=10**6) < 2_000, True)
    facts("they start no host", member.counts()["starts"], 1)
    facts("few of them are remembered", member.wait_for(lambda states: len(states["members"]["members"]) <= 100), True)


def check_future(facts: Facts, member: Process, attacker: Attacker) -> None:
    """A delete of the last time, and a drawing of the next minutes."""
    member.turn(PAGE)
    status, answer = member.draw(PAGE, "line 0 2 4 2 f")
    facts("what a member draws is shown", member.wait_for(lambda states: states["board"]["rows"][2] == "fffff"), True)
    attacker.reach(member, [deleting(9, 1, 2**64 - 1, (member.me, answer["seq"]))])
    is_hidden = member.wait_for(lambda states: len(states["board"]["rows"]) < 3 or states["board"]["rows"][2] != "fffff", WHILE)
    facts("a delete of the last time hides nothing", (status, is_hidden), (200, False))
    member.draw(PAGE, "delete %d %d" % (member.me, answer["seq"]))
    member.draw(PAGE, "restore %d %d" % (member.me, answer["seq"]))
    facts("what is restored is shown", member.wait_for(lambda states: states["board"]["rows"][2] == "fffff"), True)
    later = drawn(8, 1, now() + MINUTE + 10_000_000, 5, b"z")
    attacker.reach(member, [later])
    facts("a stranger's drawing of the next minutes is not taken", member.wait_for(lambda states: "zzzzz" in states["board"]["rows"], WHILE), False)

    def is_taken() -> bool:
        attacker.send(later)
        return member.wait_for(lambda states: "zzzzz" in states["board"]["rows"], 0.5)

    facts("and is once its time has come", comes(is_taken), True)


def check_clock(facts: Facts, member: Process, attacker: Attacker) -> None:
    """Members that never answered us, whose clocks are an hour ahead: what is drawn has the time of this machine."""
    ahead = now() + 60 * MINUTE
    forged = [datagram for source in (21, 22, 23, 24) for datagram in (session(source, 1), drawn(source, 1, ahead, 6, b"h"))]
    attacker.reach(member, forged)
    status, answer = member.draw(PAGE, "line 0 7 4 7 c")
    facts("clocks of who never answered count for nothing", (status, int(answer["words"].split(" ")[4]) < now() + MINUTE), (200, True))


def check_questions(facts: Facts, member: Process, attacker: Attacker) -> None:
    """Many questions for pages: an answer comes within half a second, and then none for one."""
    for number in range(1, 71):
        member.draw("8/%d" % number, "line 0 0 4 0 q")
    start = len(member.entries)
    attacker.send(*[asking(9)] * 20)
    facts("a question is answered", member.wait_for(lambda states: sent_since(member, start, "page-state")), True)
    time.sleep(WHILE)
    facts("twenty have one answer, of 64 pages", len(sent_since(member, start, "page-state")), 64)
    time.sleep(WHILE)
    start = len(member.entries)
    attacker.reach(member, [state(10, (8, 1), {member.me: 1}), asking(9)])
    time.sleep(1)
    facts("where another answers nothing is said", len(sent_since(member, start, "page-state")), 0)


def check_gaps(facts: Facts, member: Process, attacker: Attacker) -> None:
    """A stranger leaves a number out, under 600 numbers."""
    start, sources = len(member.entries), range(1, 601)
    for top in (600, 300):
        attacker.reach(member, [drawn(source, seq, now(), 9, b"g") for source in range(top, top - 300, -1) for seq in (1, 3)])
    time.sleep(WHILE)
    names = {entry["name"] for entry in sent_since(member, start, "request")}
    facts("none of those that are left out is asked for", [name for name in names if int(name.split()[0]) in sources and name.endswith(" 2")], [])


def test_cells(facts: Facts) -> None:
    """A flood of drawops of strangers, and a board that becomes full."""
    member = Process(["--ports", str(FIRST_PORT + 40), "--speed", "10", "--cells", "320"])
    attacker = Attacker(member.udp_port)
    try:
        facts("400 drawops of a stranger come in", attacker.reach(member, [drawn(9, seq, now(), 9, b"x") for seq in range(1, 401)]), True)
        facts("they are told", warns(member, "share"), True)
        facts("beside them one draws", member.draw(PAGE, "line 0 0 4 0 c")[0], 200)
        all_came = attacker.reach(member, [drawn(source, 1, now(), 9, b"y") for source in range(100, 500)])
        facts("and beside 400 strangers", (all_came, member.draw(PAGE, "line 0 1 4 1 c")[0]), (True, 200))
        held = [member.draw(PAGE, "line 0 2 4 2 c")[0] for _ in range(250)]
        facts("a board that becomes full is told", (set(held), warns(member, "becomes full")), ({200}, True))
        while held[-1] == 200 and len(held) < 400:
            held.append(member.draw(PAGE, "line 0 3 4 3 c")[0])
        facts("a full board takes no drawing", held[-1], 422)
        facts("but a name", member.draw("0/0", 'text 0 0 "name Ada"')[0], 200)
        facts("and where the board goes on", member.draw("0/0", 'text 0 1 "next class-2"')[0], 200)
        facts("and a delete", member.draw(PAGE, "delete %d 1" % member.me)[0], 200)
        facts("which is shown", member.wait_for(lambda states: states["board"]["rows"][0] == ""), True)
    finally:
        facts("the full one ends with 0", member.end(), 0)


def check_member(facts: Facts, words: List[str], *parts: Callable[..., None]) -> None:
    """Parts with one member, one after another."""
    member = Process(["--ports", str(FIRST_PORT), *words])
    attacker = Attacker(member.udp_port)
    try:
        for part in parts:
            part(facts, member, attacker)
        facts("the host was started once", member.counts()["starts"], 1)
    finally:
        facts("the member ends with 0", member.end(), 0)


def test_by_ten_times_the_time(facts: Facts) -> None:
    check_member(facts, ["--speed", "10"], check_last_page, check_own_mark, check_crowd, check_future, check_clock)


def test_by_a_persons_time(facts: Facts) -> None:
    """Answers and requests are counted in it."""
    check_member(facts, [], check_questions, check_gaps)
