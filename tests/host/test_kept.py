"""A self-managing host: its lines, with values worked out here, each refusal, and lines at random beside `policy`."""

from __future__ import annotations

import os
import random
from collections.abc import Callable, Iterator
from pathlib import Path

import pytest

from ..seeds import seeds
from . import datagrams
from ..transcripts import HOST, first_difference, read
from .datagrams import Echo, Mark, Page, Words, drawn, drawop, session
from .model import Drawop, Name
from .policy import COST, AskPages, Datagram, Kept, Message, Refused, Request, State, digits_of
from .program import Dialog, host
from .sessions import ME, MEMBERS, Session

PAGE = (7, 1)
FORGED = 2**31
SEED = 41
LINES = 400
TEN_MINUTES = 600_000_000
CROWD = 60_000
timers = Words(SEED)
TIMERS = [timers.next() for _ in range(80)]
policy = Words(SEED, 55)
DRAWN = [policy.next() for _ in range(12)]
STARS = drawop(7, PAGE, 1, 10, datagrams.line(0, 1, 4, 1, "*"))
OURS = drawop(1, PAGE, 1, 11, datagrams.text(0, 0, "hi"))


def asked_at(now: int, word: int, delay: int = 20_000, level: int = 0) -> int:
    """When a request timer is due that is set, or backed off to a level, with a word of the timers' stream."""
    return drawn(now, delay, TIMERS[word], 2, 2, level)


# a host of this seed that keeps itself from 0 on: when it first reports, when it asks for pages, when it asks again, and when it has its first turn
REPORT = DRAWN[0] % 1_000_001
QUESTION = DRAWN[1] % 200_001
AGAIN = QUESTION + 500_000 + DRAWN[2] % 1_000_001
THIRD = AGAIN + 1_000_000 + DRAWN[3] % 2_000_001
ANSWER = DRAWN[2] % 500_001
TURN = 1_000_000
assert ANSWER < QUESTION < AGAIN < REPORT < TURN < 2 * TURN < THIRD


def kept(listen: int = 0, cells: int = 100, rate: int = 4000) -> str:
    return f"""> board 1 {cells} 1 {SEED}
ok never
> keep {rate} {listen}
ok {QUESTION}"""


def questions() -> str:
    return f"""> tick {QUESTION}
send {datagrams.ask_pages(1)}
ok {AGAIN}
> tick {AGAIN}
send {datagrams.ask_pages(1)}
ok {REPORT}"""


def report(now: int, page: Page, marks: list[Mark], echoes: list[Echo]) -> str:
    return session(1, now, page, marks, echoes)


def dot(source: int, page: Page, seq: int, time: int = 1) -> str:
    return drawop(source, page, seq, time, datagrams.line(0, 0, 0, 0, "x"))


STROKE = datagrams.line(0, 0, 4, 0, "*")
NEAR = [asked_at(100, word) for word in (0, 1)]

WRITTEN = Path(__file__).parent / "transcripts"
DRAWING = read(WRITTEN / "drawing.md", HOST, globals())
TELLING = [it for file in ("telling.md", "asking.md") for it in read(WRITTEN / file, HOST, globals())]



# lines that a self-managing host refuses
ACTING = [
    f"arrive {STARS}",
    f"datagram {STARS}",
    "draw 7 7/1 1 10 line 0 1 4 1 *",
    f"hear {datagrams.ask_pages(9)}",
    f"datagram {datagrams.ask_pages(9)}",
    "request 9 7 7/1 1",
    "session-message 9 50 7/1 7=9",
    "page-state 9 7/1 7=9",
    "ask-pages 9",
    "say ask-pages 1",
    "say ask-pages 2",
    "say draw 1 7/1 1 11 line 0 0 4 0 *",
    "look 7 1",
    "ask 7 1 7 1",
    "stop 7 1 7 1",
    "session 7 1",
    "distance 7 5",
    "keep 4000 0",
]

# lines and their faults, as they are read
MISTYPED = {
    "keep": "words",
    "keep 4000": "words",
    "keep 4000 0 0": "words",
    "keep 0 0": "number",
    "keep 1000001 0": "number",
    "keep 4000 4294967296": "number",
    "keep x 0": "number",
    "came": "words",
    "came 5": "words",
    "came 5 00 00": "words",
    "came 281474976710656 00": "number",
    "came -1 zz": "number",
    "came 5 zz": "hex",
    "came 5 574": "hex",
    "came 5 5742": "datagram 1",
    "add": "words",
    " add 1 2 7/1 line 0 0 4 0 *": "words",
    "add  1 2 7/1 line 0 0 4 0 *": "word 1: number",
    "add x 2 7/1 line 0 0 4 0 *": "word 1: number",
    "add 281474976710656 2 7/1 line 0 0 4 0 *": "word 1: number",
    "add 1": "word 2: missing",
    "add 1 18446744073709551616 7/1 line 0 0 4 0 *": "word 2: number",
    "add 1 2": "word 3: missing",
    "add 1 2 7 line 0 0 4 0 *": "word 3: page",
    "add 1 2 7/1": "word 4: missing",
    "add 1 2 7/1 circle 0 0 4 0 *": "word 4: operation",
    "add 1 2 7/1 line 4096 0 4 0 *": "word 5: number",
    "add 1 2 7/1 line 0 0 4": "word 8: missing",
    "add 1 2 7/1 line 0 0 4 0 **": "word 9: glyph",
    "add 1 2 7/1 line 0 0 4 0 \x7f": "word 9: glyph outside ! to ~",
    "add 1 2 7/1 line 0 0 4 0 * ": "word 10: one too many",
    'add 1 2 7/1 text 0 0 "a': "word 7: text",
    'add 1 2 7/1 text 0 0 ""': "word 7: text of 0 or over 64 bytes",
    "add 1 2 7/1 delete 7 0": "word 6: target sequence number 0",
    "add 1 2 7/1 restore 7 1 1": "word 7: one too many",
}


def test_refused() -> None:
    """Each refusal, and that what is refused changes nothing, the time too."""
    before = f'board 1 16 1 {SEED}\nkeep 4000 0\nadd 900 11 7/1 text 0 0 "hi"\ncame 1000 {STARS}\n'
    after = f"show 7 1 5 2\nadd 1000 0 7/1 line 0 0 4 0 *\ntick {REPORT}\nknown\nnext 7 1\n"
    want = host(before + after).splitlines(keepends=True)
    kept_refusals = {line: "kept" for line in ACTING}
    kept_refusals |= {
        "board 1 16 1 42": "second board",
        "tick 999": "back in time",
        f"came 999 {STARS}": "back in time",
        f"came 999 {drawop(1, PAGE, FORGED, 1, datagrams.line(0, 0, 0, 0, 'x'))}": "back in time",
        "add 999 0 7/1 line 0 0 4 0 *": "back in time",
        "add 999 0 7/1 delete 1 2": "back in time",
        f"came 1000 {drawop(1, PAGE, FORGED, 1, datagrams.line(0, 0, 0, 0, 'x'))}": "ours",
        f"came 1000 {drawop(1, PAGE, 2**32 - 1, 1, datagrams.line(0, 0, 0, 0, 'x'))}": "ours",
        "add 2000 0 7/1 delete 1 2": "word 6: target is the drawop itself",
        "add 2000 0 7/1 restore 1 2": "word 6: target is the drawop itself",
    }
    for line, fault in (kept_refusals | MISTYPED).items():
        printed = host(f"{before}{line}\n{after}").splitlines(keepends=True)
        assert printed == [*want[:6], f"refused {fault}\n", *want[6:]], f"a kept host refuses {line[:40]!r}"


def test_kept_or_not() -> None:
    """When a host may become self-managing, and what is refused if it may not."""
    opened = f"board 1 16 1 {SEED}\n"
    drawing = "add 5 0 7/1 line 0 0 4 0 *"
    for line in ["keep 4000 0", f"came 5 {STARS}", drawing]:
        assert host(f"{line}\n{opened}") == "refused no board\nok never\n", f"no board: {line[:10]}"
    for line in [f"came 5 {STARS}", drawing, f"came 0 {datagrams.ask_pages(1)}"]:
        assert host(f"{opened}{line}\ntick 5\n") == "ok never\nrefused not kept\nok never\n", f"not kept: {line[:10]}"
    for line, fault in MISTYPED.items():
        assert host(f"{line}\n") == f"refused {fault}\n", f"as it is read: {line[:30]!r}"
    for line in ACTING[:-1]:
        printed = host(f"{opened}{line}\nkeep 4000 0\n").splitlines()
        refused = [said for said in printed if said.startswith("refused")]
        wanted = ["refused member"] if line == "say ask-pages 2" else ["refused too late"]
        assert refused == wanted, f"too late behind {line[:20]!r}"
    asked = "tick 0\nshow 7 1 5 1\nview 7 1\ngaps 7 1\nreport 7 1\npages\nknown\nversion\nnext 7 1\n# and so on\n\nfly\ntick 0\n"
    printed = host(f"{opened}{asked}keep 4000 0\nkeep 4000 0\n").splitlines()
    assert printed[-2:] == [f"ok {QUESTION}", "refused kept"], "not too late behind questions"


class KeptSession(Session):
    """Lines at random at a self-managing host, and what it is to print for each."""

    def __init__(self, numbers: random.Random) -> None:
        super().__init__(numbers)
        self.listen = self.random.choice([0, 300_000, 4_000_000])
        self.kept = Kept(self.model, self.random.choice([40, 4000, 1_000_000]), self.listen, Words(self.seed, 55))
        self.lines = [self.come, self.come, self.come, self.come, self.draw, self.on, self.on, self.asking]

    def any_drawop(self) -> Drawop:
        made = self.drawop()
        if self.below(40) == 0:
            return Drawop(Name(ME, self.page(), FORGED + self.below(3)), 5, datagrams.text(0, 0, "x"), 'text 0 0 "x"')
        return made

    def datagram(self) -> Datagram:
        sender, page, marks = self.random.choice(MEMBERS), self.page(), self.marks()
        if self.below(9) == 0:
            marks = [(ME if source == ME else source, self.random.choice([high, FORGED - 5, FORGED, 2**32 - 1])) for source, high in marks]
        kind = self.below(9)
        if kind < 4:
            return self.any_drawop()
        if kind < 6:
            ago = self.below(400_000)
            echoes: list[Echo] = [(ME, max(0, self.model.now - ago), self.below(ago + 5))] if self.below(2) else []
            return Message(sender, self.below(10**9), page, marks, echoes)
        if kind == 6:
            return State(sender, page, marks)
        if kind == 7:
            held = list(self.model.held)
            return Request(sender, self.random.choice(held) if held and self.below(2) else self.name())
        return AskPages(sender)

    def moment(self) -> int:
        if self.below(3) == 0:
            return max(self.model.now, self.kept.due() - self.below(2))
        return self.model.now + self.below(self.random.choice([2_000, 150_000, 2_000_000]))

    def come(self) -> tuple[str, str]:
        now, datagram = self.moment(), self.datagram()
        return f"came {now} {digits_of(datagram)}", self.answered(lambda: self.kept.came(now, datagram))

    def draw(self) -> tuple[str, str]:
        now, time, page = self.moment(), self.below(40), self.page()
        operation, told = self.operation()
        line = f"add {now} {time} {page[0]}/{page[1]} {told}"
        return line, self.answered(lambda: self.kept.add(now, time, page, operation, told))

    def on(self) -> tuple[str, str]:
        now = self.moment() - (self.below(30) == 0)
        return f"tick {max(0, now)}", self.answered(lambda: self.kept.tick(max(0, now)))

    def asking(self) -> tuple[str, str]:
        page = self.page()
        word = self.random.choice(["gaps", "report", "digest", "next", "view"])
        return f"{word} {page[0]} {page[1]}", getattr(self.model, word)(page) + f"ok {self.kept.due()}\n"

    def answered(self, does: Callable[[], str]) -> str:
        try:
            return does() + f"ok {self.kept.due()}\n"
        except Refused as fault:
            return f"refused {fault}\n"

    def conversation(self, count: int = LINES) -> tuple[str, str]:
        given = f"board {ME} {self.cells} 1 {self.seed}\nkeep {self.kept.rate} {self.listen}\n"
        printed = f"ok never\nok {self.kept.due()}\n"
        for _ in range(count):
            line, block = self.random.choice(self.lines)()
            given += f"{line}\n"
            printed += block
            owed = self.kept.owed - self.kept.host.now
            assert self.kept.is_full() or owed <= len(self.kept.asked()) * COST, f"no more is owed than stands asked, after {line}"
        return given, printed


class Crowd(KeptSession):
    """Sixty senders, of whom some answer, and some are not heard for minutes."""

    def __init__(self, numbers: random.Random) -> None:
        super().__init__(numbers)
        self.lines = [self.come, self.come, self.come, self.on]

    def datagram(self) -> Datagram:
        sender, now = 100 + self.below(self.random.choice([8, 60])), self.model.now
        echoes: list[Echo] = [(ME, max(0, now - 9), min(now, 3))] if sender % 2 == self.seed % 2 else []
        return Message(sender, now, self.page(), [], echoes)

    def moment(self) -> int:
        return max(self.model.now, self.kept.due()) if self.below(3) == 0 else self.model.now + self.below(self.random.choice([2_000, 30_000_000]))


def test_seldom() -> None:
    """A name that a report told, and that lies in no hole, is not asked for anew in ten minutes, and is requested 15 times: the bound that is proved is reached."""
    dialog = Dialog()
    for line in (f"board {ME} 100 1 {SEED}", "keep 1 0", "tuning 1 1 1 1", f"came 1000 {session(9, 50, PAGE, [(9, 1)], [(ME, 500, 500)])}"):
        block = dialog.ask(line)
    wanted = f"send {datagrams.request(ME, 9, PAGE, 1)}"
    moments: list[int] = []
    moment = 1000
    while not moments or moment <= moments[0] + TEN_MINUTES:
        moment = int(block.splitlines()[-1].removeprefix("ok "))
        block = dialog.ask(f"tick {moment}")
        moments += [moment] * block.splitlines().count(wanted)
    dialog.end()
    assert sum(at <= moments[0] + TEN_MINUTES for at in moments) == 15, "requests for one name in ten minutes"


def test_old() -> None:
    """A request timer is old once it was backed off four times: then, and not before, it is given up where another name is asked for."""
    old, other = f"send {datagrams.request(ME, 8, PAGE, 5)}", f"send {datagrams.request(ME, 9, PAGE, 3)}"
    for times in 3, 4:
        dialog = Dialog()
        for line in f"board {ME} 100 1 {SEED}", "keep 1 0", f"came 0 {session(9, 50, PAGE, [(8, 5)], [])}":
            block = dialog.ask(line)
        sent = 0
        while sent < times:
            moment = int(block.splitlines()[-1].removeprefix("ok "))
            block = dialog.ask(f"tick {moment}")
            sent += block.splitlines().count(old)
        block = dialog.ask(f"came {moment} {session(9, 50, PAGE, [(9, 3)], [])}")
        requests = {old: 0, other: 0}
        while moment < 100_000_000:
            moment = int(block.splitlines()[-1].removeprefix("ok "))
            block = dialog.ask(f"tick {moment}")
            requests = {wanted: count + block.splitlines().count(wanted) for wanted, count in requests.items()}
        dialog.end()
        assert requests[other] > 0, f"the other name is asked for, {times} times"
        assert (requests[old] > 0) == (times < 4), f"the name that was asked for {times} times is asked for on"


def memory_of(dialog: Dialog) -> int:
    """The kilobytes that a host has."""
    lines = Path(f"/proc/{dialog.child.pid}/status").read_text(encoding="ascii").splitlines()
    return next(int(line.split()[1]) for line in lines if line.startswith("VmRSS:"))


def test_askers() -> None:
    """Forged requests, each of another asker: a delay is lent to each for a line, and none is kept."""
    dialog = Dialog()
    for line in f"board {ME} 100 1 {SEED}", "keep 4000 0", f"came 0 {STARS}":
        dialog.ask(line)
    taken: list[int] = []
    for first in 10_000, 20_000:
        for asker in range(first, first + 10_000):
            dialog.ask(f"came 1 {datagrams.request(asker, 7, PAGE, 1)}")
        taken.append(memory_of(dialog))
    dialog.end()
    assert taken[1] - taken[0] < 100, "10,000 askers that are forged take no memory"


def test_starving() -> None:
    """One forged drawop a second, of ever greater sources on one page, for nine minutes: every second report tells that page, and the others tell all
    in turn. The telling of the page ends after as many reports in turn as it had slices when it began."""
    dialog = Dialog()
    for line in f"board {ME} 1000 1 {SEED}", "keep 4000 0", f"came 0 {dot(9, (7, 2), 1)}", f"came 0 {dot(9, (7, 3), 1)}":
        block = dialog.ask(line)
    told: list[tuple[str, int]] = []
    for second in range(1, 541):
        moment = int(block.splitlines()[-1].removeprefix("ok "))
        while moment < second * 1_000_000:
            block = dialog.ask(f"tick {moment}")
            told += [(line[45:61], second) for line in block.splitlines() if line.startswith("send 57420102")]
            moment = int(block.splitlines()[-1].removeprefix("ok "))
        block = dialog.ask(f"came {second}000000 {dot(100 + second, PAGE, 1)}")
    dialog.end()
    pages = {page: f"{page[0]:08x}{page[1]:08x}" for page in (PAGE, (7, 2), (7, 3))}
    in_turn, newest = told[::2], told[3::2]
    others = sum(page != pages[PAGE] for page, _ in in_turn)
    assert (len(told) > 200, others > 40) == (True, True), "of reports beside forged drawops, so many tell other pages"
    assert {page for page, _ in newest} == {pages[PAGE]}, "every second report tells the page that changed last"
    longest, run = 0, 0
    for page, second in in_turn:
        run = run + 1 if page == pages[PAGE] else 0
        longest = max(longest, run - (second + 63) // 64)
    assert longest <= 0, "a telling takes no more reports than its page has slices"


def test_credit() -> None:
    """How many names are asked for at once, by how many requests go out once their timers are due."""
    neighbours = f"came 50 {dot(7, PAGE, 70)}\n"
    known = f"came 50 {session(7, 9, PAGE, [], [(ME, 10, 20)])}\n"
    told = f"came 50 {session(9, 50, (7, 2), [(source, 1) for source in range(100, 164)], [])}\n"
    cases = {
        "48 neighbours of a source that told no delay": (neighbours, 48),
        "64 neighbours of one that told its delay": (known + neighbours, 64),
        "16 more that are told": (neighbours + told, 64),
        "64 that are told, and no neighbours": (told + neighbours, 64),
    }
    for title, (lines, want) in cases.items():
        said = host(f"board {ME} 1000 1 {SEED}\nkeep 4000 0\n{lines}tick 90000\n").splitlines()
        assert sum(line.startswith("send 57420103") for line in said) == want, f"asked for at once: {title}"
    others = f"came 50 {session(9, 50, (7, 3), [(source, 1) for source in range(200, 210)], [])}\n"
    said = host(f"board {ME} 1000 1 {SEED}\nkeep 4000 0\n{told}came 50 {dot(100, (7, 2), 1)}\n{others}tick 90000\n").splitlines()
    names = [f"send {datagrams.request(ME, source, (7, 3), 1)}" for source in range(200, 210)]
    assert [name for name in names if name in said] == names[:2], "what came pays for two names"
    own = f"came 50 {session(9, 50, (7, 2), [(source, 1) for source in (ME, *range(100, 163))], [])}\nadd 50 5 7/2 line 0 0 1 1 *\n"
    said = host(f"board {ME} 1000 1 {SEED}\nkeep 4000 0\n{own}{others}tick 90000\n").splitlines()
    assert [name for name in names if name in said] == names[:2], "what is drawn and was asked for pays for two names"


def test_owed() -> None:
    """An old timer starts anew once less is owed than stands asked: that of a single name once it is paid for, a quarter of a second later."""
    wanted = f"send {datagrams.request(ME, 9, PAGE, 1)}"
    for moment in 249_999, 250_000:
        dialog = Dialog()
        for line in f"board {ME} 100 1 {SEED + 1}", "keep 1 0", "tuning 1 1 1 1", f"came 0 {session(9, 0, PAGE, [(9, 1)], [(ME, 0, 0)])}":
            block = dialog.ask(line)
        while (due := int(block.splitlines()[-1].removeprefix("ok "))) < 240_000:
            block = dialog.ask(f"tick {due}")
        dialog.ask(f"came {moment} {session(9, 1, PAGE, [(9, 1)], [])}")
        block = dialog.ask("tick 280000")
        dialog.end()
        assert (wanted in block.splitlines()) == (moment == 250_000), f"it is asked for anew at {moment}"


def test_sleeping() -> None:
    """Sixty-four timers of numbers that nobody holds are old. One that is reported comes: of what was not asked for yet, that which has its turn is
    asked for then, beside what a leap asks for."""
    dialog, moment = Dialog(), 9_500_000
    opening = f"board {ME} 1000 1 {SEED}", "keep 4000 0", f"came 50 {session(20, 9, PAGE, [], [(ME, 10, 20)])}", f"came 50 {dot(20, PAGE, 200)}"
    reported = f"came {moment} {session(9, 50, (7, 3), [(9, 1)], [])}", f"came {moment} {dot(9, (7, 3), 1)}"
    sent: dict[bool, set[str]] = {}
    for lines, until in (opening, moment), (reported, moment + 90_000):
        block, requests = "".join(dialog.ask(line) for line in lines), set[str]()
        while (due := int(block.splitlines()[-1].removeprefix("ok "))) < until:
            block = dialog.ask(f"tick {due}")
            requests |= {line for line in block.splitlines() if line.startswith("send 57420103")}
        sent[lines is reported] = requests
    dialog.end()
    assert len(sent[False]) > 64, "so many were asked for before"
    assert sent[True] - sent[False] == {f"send {datagrams.request(ME, 20, PAGE, 10)}"}, "a number that has its turn is asked for"


def test_states() -> None:
    """Page states are paid for by the rate, 534 bytes each: before that no question is taken up. It takes a second at least, and 64 at most."""
    question = datagrams.ask_pages(9)
    for rate, pause in (4000, 8_544_000), (40_000, 1_000_000), (400, 64_000_000):
        for early in 1, 0:
            dialog = Dialog()
            for line in f"board {ME} 100 1 {SEED}", f"keep {rate} 0", *(f"came 0 {dot(7, (7, page), 1)}" for page in range(1, 65)):
                dialog.ask(line)
            block, moment, answers = dialog.ask(f"came 1000 {question}"), 1000, list[int]()
            while moment < 66_000_000:
                if "send 57420105" in block:
                    answers.append(moment)
                    assert block.count("send 57420105") == 64, "each answer has all pages"
                due = int(block.splitlines()[-1].removeprefix("ok "))
                again = answers[0] + pause - early if len(answers) == 1 else due
                moment = min(due, again) if moment < again else due
                block = dialog.ask(f"came {moment} {question}" if moment == again and len(answers) == 1 else f"tick {moment}")
            dialog.end()
            assert len(answers) == (1 if early else 2), f"at {rate} bytes a second, {early} microseconds before the pause is over"


def test_holes() -> None:
    """Sixty forged drawops a second, each of another source and behind a number that nobody holds: what a member reports meanwhile is asked for
    all the same, since neighbours of sources that told no delay leave sixteen places of the credit."""
    dialog = Dialog()
    for line in f"board {ME} 10000 1 {SEED}", "keep 4000 0":
        block = dialog.ask(line)
    requested: set[str] = set()
    for count in range(30 * 60):
        now = 1_000_000 + count * 16_000
        moment = int(block.splitlines()[-1].removeprefix("ok "))
        while moment < now:
            block = dialog.ask(f"tick {moment}")
            requested |= set(block.splitlines())
            moment = int(block.splitlines()[-1].removeprefix("ok "))
        told = session(9, count, PAGE, [(9, 1 + count // 60)], [])
        block = dialog.ask(f"came {now} {dot(1000 + count, PAGE, 2) if count % 60 else told}")
    dialog.end()
    names = [f"send {datagrams.request(ME, 9, PAGE, number)}" for number in range(1, 30)]
    assert not [name for name in names if name not in requested], "beside forged drawops with holes what is reported is asked for"


def heard_by(count: int, together: int) -> Iterator[tuple[str, list[tuple[int, int]]]]:
    """Senders in three orders, each with the moment at which it is heard: some at each moment."""
    rising = list(range(2, count + 2))
    orders = {"rising": rising, "falling": rising[::-1], "mixed": random.Random(count).sample(rising, count)}
    for name, senders in orders.items():
        yield name, [(sender, place // together) for place, sender in enumerate(senders)]


def hearing(heard: list[tuple[int, int]]) -> str:
    """The lines of a self-managing host that hears these senders at these moments."""
    came = [f"came {at} {session(sender, sender, PAGE, [], [])}\n" for sender, at in heard]
    return f"board 1 100 1 {SEED}\nkeep 4000 0\n" + "".join(came)


def test_strangers() -> None:
    """The first report echoes the 32 senders of the least numbers, if none has answered, whenever and in whatever order they were heard."""
    for count in 31, 32, 33, 400:
        for together in 1, 3, count:
            for name, heard in heard_by(count, together):
                echoes: list[Echo] = [(sender, sender, REPORT - at) for sender, at in sorted(heard)[:32]]
                said = host(hearing(heard) + f"tick {REPORT}\n").splitlines()[-2]
                wanted = f"send {report(REPORT, (0, 0), [], echoes)}"
                assert said == wanted, f"echoes of {count} senders, {name}, {together} at once"


def echoed_in(count: int, *lines: str) -> list[list[int]]:
    """Whom each of `count` reports without marks echoes after these lines."""
    dialog, told = Dialog(), list[list[int]]()
    block = "".join(dialog.ask(line) for line in (f"board {ME} 100 1 {SEED}", "keep 1000000 0", *lines))
    while True:
        reports = [bytes.fromhex(line[5:]) for line in block.splitlines() if line.startswith("send 57420102")]
        told += [[int.from_bytes(data[at : at + 4], "big") for at in range(32, len(data), 20)] for data in reports]
        if len(told) >= count:
            break
        block = dialog.ask(f"tick {block.split()[-1]}")
    dialog.end()
    return told


def test_echoes() -> None:
    """Of 40 strangers and a member that has answered, a report echoes that one, and 31 of the others: those above the last that had its turn, and
    then round. Beside 30 that have answered, 8 places stay for the others. Who was not heard for 192 seconds comes last."""

    def heard(senders: list[int], echoes: list[Echo], now: int = 0) -> list[str]:
        return [f"came {now} {session(sender, 5, PAGE, [], echoes)}" for sender in senders]

    answer, strangers = [(ME, 0, 0)], heard([*range(100, 140)], [])
    want = [[*range(100, 131)], [*range(100, 122), *range(131, 140)], [*range(100, 131)]]
    assert echoed_in(3, *strangers, *heard([7], answer)) == [[7, *numbers] for numbers in want], "one has answered"
    want = [[*range(100, 108), *range(200, 224)], [*range(108, 116), *range(200, 224)]]
    assert echoed_in(2, *strangers, *heard([*range(200, 230)], answer)) == want, "thirty have"
    again = heard([*range(135, 140)], [], 193_000_000)
    assert echoed_in(2, *strangers, *heard([7], answer), *again)[1] == [7, *range(100, 126), *range(135, 140)], "five are here"


def least_time(given: str) -> float:
    """The least of three times of processor that a host takes for these lines, in seconds. Other work beside it counts little."""
    times: list[float] = []
    for _ in range(3):
        before = os.times()
        host(given)
        times.append(os.times().children_user - before.children_user)
    return min(times)


def test_crowd() -> None:
    """However many senders are forged, a report takes no longer than a few times what it took to hear them."""
    _, heard = next(heard_by(CROWD, 100))
    lines = hearing(heard)
    told = least_time(lines + f"tick {REPORT}\n")
    assert told < 5 * least_time(lines), f"a report beside {CROWD} senders holds nobody up"


@pytest.mark.parametrize("seed", seeds(16))
def test_random(seed: int) -> None:
    given, printed = KeptSession(random.Random(seed)).conversation()
    assert first_difference(given, host(given), printed) == ""


@pytest.mark.parametrize("seed", seeds(8))
def test_crowded(seed: int) -> None:
    given, printed = Crowd(random.Random(seed)).conversation()
    assert first_difference(given, host(given), printed) == ""
