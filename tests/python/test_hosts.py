"""Hosts, by the program and by the library."""

from __future__ import annotations

import os
import random
import threading
import time
from hashlib import sha256

import pytest
import wb
from wb.blocks import Block
from wb.child import Child

from ..facts import Facts
from ..host.program import program
from .conftest import Start, by_library, by_program, raised, refused

LINE = "line 0 0 4 0 *"


def test_two(start: Start, facts: Facts) -> None:
    """What one draws is shown by the other; what is refused changes nothing."""
    with wb.Host(1, seed=42, listen=0, by=start()) as one, wb.Host(2, seed=43, listen=1000, by=start()) as two:
        facts("a host has something to do", one.due, 34_890)
        drawn = one.add(1000, 5, "1/1", LINE)
        facts("a drawing is sent", [len(datagram) for datagram in drawn.send], [42])
        facts("one that comes in is new", two.came(500, drawn.send[0]).became, wb.Became.NEW)
        facts("and then known", two.came(600, drawn.send[0]).became, wb.Became.AGAIN)
        facts("it is shown", two.show("1/1", 6, 1), ["***** "])
        facts("and told", two.view((1, 1)), [wb.Drawop(1, wb.Page(1, 1), 1, 5, LINE)])
        due = two.due
        facts("what is no datagram is refused, and what is due is as it was", two.came(700, b"WB"), wb.Answer([], due, None, "datagram 1"))
        facts("so is a drawing while it listens", refused(lambda: two.add(800, 5, "1/1", "line 0 0 4 0 +")), "listening")
        facts("after which it is known too", two.due, due)
        facts("time goes on", raised(lambda: two.tick(10)), "Refused")
        facts("questions", (two.report("1/1"), two.gaps("1/1"), two.pages(), two.known(), two.next_number("1/1"), two.version()),
              ({1: 1}, [], [wb.Page(1, 1)], [wb.Page(1, 1)], 1, 1))
        rows = two.add(2000, 6, "1/1", 'text 0 0 "ok 7"')
        facts("a row that looks like a closing line is a row", (rows.became, two.show("1/1", 4, 2)[0]), (wb.Became.NEW, "ok 7"))
        facts("what is new is told with its name, its page and what it draws", [(each.name, each.drawing) for each in (drawn.drawop, rows.drawop) if each],
              [((1, (1, 1), 1), wb.Line(0, 0, 4, 0, "*")), ((2, (1, 1), 1), wb.Text(0, 0, "ok 7"))])
        digests = [one.digest("1/1"), sha256(drawn.send[0]).digest(), two.digest((1, 1)), sha256(drawn.send[0] + rows.send[-1]).digest(), two.digest("1/2")]
        facts("a digest is of what is held of the page", [digests[0] == digests[1], digests[2] == digests[3], digests[4]], [True, True, sha256().digest()])
        two.tune(3, 16, 1, 11)
        facts("a text of 64 characters, in another host", one.came(4000, two.add(3000, 8, "1/1", 'text 0 1 "%s"' % ("x" * 64)).send[-1]).became, wb.Became.NEW)


def test_refusals(start: Start) -> None:
    with wb.Host(2, listen=0, by=start()) as host:
        assert refused(lambda: host.add(2001, 6, "1/1", wb.Delete(2, 1))) == "word 6: target is the drawop itself"
        assert refused(lambda: host.add(3000, 7, "1/1", 'text 0 0 "\U0001f600"')) == "word 7: text byte outside space to ~"
        assert raised(lambda: host.add(3000, 7, "1/1", LINE + "\n")) == "ValueError"
        questions = [lambda: host.show("1/1", 0, 1), lambda: host.gaps((1, 2**32)), lambda: host.view((-1, 1)), lambda: host.digest((1, 2**32))]
        assert [refused(call) for call in questions] == ["number"] * 4


def test_full(start: Start) -> None:
    with wb.Host(3, cells=1, listen=0, by=start()) as full:
        full.add(1, 1, "1/1", LINE)
        assert full.add(2, 2, "1/1", LINE).became == wb.Became.FULL
        blocks = [block.lines for block in full.by.ask_all(["pages"] * 700)]
        assert blocks == [["pages 1", "1 1"]] * 700, "blocks of many lines"
    assert raised(lambda: full.tick(9)) == "HostEnded"
    assert raised(lambda: wb.Host(3, cells=0, by=start())) == "Refused"


def test_many_lines(facts: Facts) -> None:
    """More lines at once than pipes take, whose blocks are not taken apart."""
    host = wb.ChildHost(program())
    due = [host.ask(line).due for line in ("board 1 100 1 42", "keep 4000 0")][-1]
    printed = host.take_all(b"next 1 1\n" * 30_000 + b"no such line\n")
    facts("each has its block", (printed.count(b"next 1"), sum(line.startswith(b"ok ") for line in printed), printed[-1][:8]), (30_000, 30_000, b"refused "))
    facts("a refused one changes nothing", (host.due, host.ask("next 1 1")), (due, Block(["next 1"], due, None)))
    facts("of no lines nothing", host.take_all(b""), [])
    host.end()


def test_listening(start: Start) -> None:
    """A host listens for six seconds."""
    with wb.Host(4, by=start()) as host:
        assert [refused(lambda: host.add(now, 5, "1/1", LINE)) for now in (5_999_999, 6_000_000)] == ["listening", "nothing"]


def test_threads(start: Start) -> None:
    """Two threads ask one host at once, each a question of its own, and then draw, each on a page of its own: no answer is another's."""
    with wb.Host(5, listen=0, by=start()) as host:
        host.add(1, 5, "1/1", LINE)
        answers: dict[str, list[object]] = {"1/1": [], "2/2": []}

        def ask(page: str) -> None:
            try:
                answers[page] += {host.next_number(page) for _ in range(1500)}
                drawn = [host.add(2, 5, page, LINE).drawop for _ in range(300)]
                answers[page] += [(str(each.page), each.number) for each in drawn if each]
            except Exception as fault:
                answers[page].append(fault)

        both = [threading.Thread(target=ask, args=(page,)) for page in answers]
        for each in both:
            each.start()
        for each in both:
            each.join()
    assert answers == {page: [first, *((page, number) for number in range(first, first + 300))] for page, first in (("1/1", 2), ("2/2", 1))}


class Meeting:
    """Hosts that meet in time that is not real, each datagram 1 to 20 ms on its way, of which a third is lost."""

    def __init__(self, start: Start) -> None:
        self.hosts = [wb.Host(number, seed=number, listen=0, by=start()) for number in range(1, 6)]
        self.chance = random.Random(7)
        self.under_way: list[tuple[int, int, bytes]] = []
        self.now = 0

    def send(self, answer: wb.Answer, source: int) -> None:
        self.under_way.extend((self.now + self.chance.randrange(1_000, 20_000), at, datagram) for datagram in answer.send for at in range(len(self.hosts))
                              if at != source and self.chance.random() >= 0.33)

    def step(self) -> None:
        """All that is due now."""
        for at, host in enumerate(self.hosts):
            if host.due is not None and host.due <= self.now:
                self.send(host.tick(self.now), at)
        for each in sorted(each for each in self.under_way if each[0] <= self.now):
            self.under_way.remove(each)
            self.send(self.hosts[each[1]].came(self.now, each[2]), each[1])

    def is_over(self, draws: int) -> bool:
        reports = [host.report("1/1") for host in self.hosts]
        return all(report == reports[0] for report in reports) and not any(host.gaps("1/1") for host in self.hosts) and sum(reports[0].values()) == draws

    def run(self, draws: int) -> tuple[int, list[wb.Drawop]]:
        """Lets them draw until all show one page. Gives the moment, and the page."""
        drawn = 0
        while True:
            if drawn < draws and self.now >= drawn * 20_000:
                source = self.chance.randrange(len(self.hosts))
                self.send(self.hosts[source].add(self.now, drawn, "1/1", "line %d 0 %d 9 %s" % (drawn, drawn, "*+#@"[source % 4])), source)
                drawn += 1
            self.step()
            if drawn == draws and self.is_over(draws):
                break
            moments = [host.due for host in self.hosts if host.due is not None] + [each[0] for each in self.under_way]
            self.now = max(self.now + 1, min(moments + ([drawn * 20_000] if drawn < draws else [])))
        views = [host.view("1/1") for host in self.hosts]
        digests = {host.digest("1/1") for host in self.hosts}
        assert all(view == views[0] for view in views) and len(digests) == 1
        for host in self.hosts:
            host.end()
        return self.now, views[0]


def test_session() -> None:
    """Five hosts that lose a third show one page, by the library the same at the same moment."""
    moment, page = Meeting(by_program()).run(40)
    assert len(page) == 40
    assert Meeting(by_library()).run(40) == (moment, page)


@pytest.mark.measures
def test_figures(start: Start, request: pytest.FixtureRequest) -> None:
    """Microseconds a line, the least of five thousand in each of nine turns, beside an echo of the same bytes."""
    lines = ["draw 7 7/1 %d 10 line 0 0 4 0 *" % number for number in range(1, 5001)]
    host, echo = start(), Child(["cat"])
    host.ask("board 1 65535 1 42")

    def echoed(line: str) -> None:
        os.write(echo.input.fileno(), line.encode() + b"\n")
        os.read(echo.reads, 65_536)

    for name, ask in ((request.node.name, host.ask), ("a bare echo through two pipes", echoed)):
        times = []
        for _ in range(9):
            began = time.perf_counter()
            for line in lines:
                ask(line)
            times.append((time.perf_counter() - began) / len(lines) * 1e6)
        print("%s: %.1f us a line at least, %.1f in the median" % (name, min(times), sorted(times)[4]))
    host.end()
    echo.end()
