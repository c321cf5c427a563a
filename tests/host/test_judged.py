"""A judged host: its lines, with values worked out here, each refusal, a start from a record, and lines at random beside `judged`."""

from __future__ import annotations

import random
from collections.abc import Callable

import pytest

from ..judging import reference
from ..seeds import seeds
from . import datagrams, test_kept
from ..transcripts import JUDGED_HOST, first_difference, parted, read
from .datagrams import Echo, Words, drawop, session
from .judged import Judged, paged
from .model import Drawop, Name
from .policy import AskPages, Datagram, Kept, Message, Refused, Request, State, digits_of
from .program import close, host
from .sessions import ME, MEMBERS, NUMBERS, PAGES, Session
from .test_kept import ACTING, FORGED, PAGE, QUESTION, REPORT, SEED, TURN, WRITTEN, asked_at

LINES = 300
WALL = 1_764_000_000_000_000  # the time of day at the moment 0
DAY = 86_400_000_000
STROKE = datagrams.line(0, 0, 4, 0, "*")
LATER = TURN  # when something is due after the first report: the first turn
NEAR = [asked_at(REPORT, word, 18_750) for word in (0, 1)]  # requests for what a member 10,000 away reports
STARS = drawop(7, PAGE, 1, WALL, STROKE)
OWNED = ["0@3", "1@4", "2@3"]  # origins that the network keeps


def judge(listen: int = 0, cells: int = 1024, here: str = "-", strangers: str = "-") -> str:
    return f"""> board 1 {cells} 1 {SEED}
ok never
> judge 0 4000 {listen} {WALL} {here} {strangers}
ok {QUESTION}"""


def answer(member: int) -> str:
    """A report that echoes our first one, as of a member that heard it."""
    return session(member, 5, PAGE, [], [(1, REPORT, 0)])


def drawn(time: int, words: str = "line 0 0 4 0 *", source: int = 7, number: int = 1) -> str:
    return f"draw {source} 7/1 {number} {time} {words}"


TRANSCRIPTS = read(WRITTEN / "judged.md", JUDGED_HOST, {**vars(test_kept), **globals()})

# lines and their faults, as they are read at every host
MISTYPED_JUDGE = {
    "judge": "words",
    f"judge 0 4000 0 {WALL} -": "words",
    f"judge 0 4000 0 {WALL} - - -": "words",
    f"judge 281474976710656 4000 0 {WALL} - -": "number",
    f"judge 0 0 0 {WALL} - -": "number",
    f"judge 0 1000001 0 {WALL} - -": "number",
    f"judge 0 4000 4294967296 {WALL} - -": "number",
    f"judge 0 4000 0 {2**62} - -": "number",
    f"judge 0 4000 0 {WALL} {2**64} -": "number",
    f"judge 0 4000 0 {WALL} - 65536": "number",
    f"judge 0 4000 0 {WALL} x -": "number",
}

# and at a judged one
MISTYPED = {
    "came": "words",
    "came 5": "words",
    f"came 5 {STARS}": "words",
    "came 5 6 00 00": "words",
    "came 281474976710656 6 00": "number",
    "came 5 -1 00": "number",
    "came 5 18446744073709551616 00": "number",
    "came 5 @ 00": "number",
    "came 5 6@ 00": "number",
    "came 5 @6 00": "number",
    "came 5 6@7@8 00": "number",
    "came 5 6 574": "hex",
    "came 5 6 5z": "hex",
    "tick": "words",
    "tick 5 6": "words",
    "tick x": "number",
    "tick 281474976710656": "number",
    "add": "words",
    " add 1 7/1 line 0 0 4 0 *": "words",
    "add x 7/1 line 0 0 4 0 *": "word 1: number",
    "add 281474976710656 7/1 line 0 0 4 0 *": "word 1: number",
    "add 1": "word 2: missing",
    "add 1 7": "word 2: page",
    "add 1 7/1": "word 3: missing",
    "add 1 7/1 circle 0 0 4 0 *": "word 3: operation",
    "add 1 7/1 line 0 0 a 0 *": "word 6: number",
    "add 1 7/1 line 0 0 4 0 * ": "word 9: one too many",
    "add 1 7/1 delete 7 0": "word 5: target sequence number 0",
    f"add 1 {WALL} 7/1 line 0 0 4 0 *": "word 2: page",
    "wall 5": "words",
    "wall 5 6 7": "words",
    f"wall 5 {2**62}": "number",
    "gone 5": "words",
    "gone 5 6@x": "number",
    "members 1": "words",
    "held": "words",
    "list": "words",
    "list 4294967296": "number",
    "paint 7 1 2": "words",
    "paint 7 1 2 1 1": "words",
    "paint 7 1 0 1": "number",
    "paint 7 1 201 1": "number",
    "paint 7 1 1 101": "number",
    "paint 7 4294967296 1 1": "number",
    "since 7 1": "words",
    "since 7 1 2 3": "words",
    "since x 1 2": "number",
    "lacks 7": "words",
    "lacks 7 1 2": "words",
    "lacks 7 x": "number",
    "since 7 1 4294967296": "number",
    "words": "words",
    "words 5742 5742": "words",
    "words 574": "hex",
    " held tick 5": "words",
    "held datagram": "words",
    "held datagram 5742": "datagram 1",
    "held say hello": "word 1: unknown",
    "held owner": "unknown",
    "held owner 7": "words",
    "held owner 7 5": "words",
    "held owner 7 5@6 8": "words",
    "held owner 7 5@x": "number",
    "held owner 4294967296 5@6": "number",
    "fly": "unknown",
}


def blocks(printed: str) -> list[str]:
    """The blocks of what is printed."""
    found, block = [], ""
    for said in printed.splitlines(keepends=True):
        block += said
        if close(said.encode()):
            found.append(block)
            block = ""
    return [*found, block] if block else found


def test_refused() -> None:
    """A line that is wrong, or that a judged host leaves to no driver, is refused, and the lines after it print what they print without it."""
    given, _ = parted(judge())
    after = f"add 1000 7/1 line 0 0 4 0 *\ncame 1000 5 {STARS}\ntick {REPORT}\nview 7 1\nmembers\n"
    wanted = blocks(host(given + after))
    refused = {**{line: "kept" for line in ACTING}, **MISTYPED, **MISTYPED_JUDGE, f"judge 0 4000 0 {WALL} - -": "kept"}
    for line_, fault in refused.items():
        if not line_.startswith("say ask-pages 2"):
            printed = blocks(host(f"{given}{line_}\n{after}"))
            assert printed == [*wanted[:2], f"refused {fault}\n", *wanted[2:]], f"a judged host refuses {line_[:40]!r}"


def test_back_in_time() -> None:
    given, _ = parted(judge())
    for line_ in ["tick 5", f"came 5 6 {STARS}", "came 5 6 00", "add 5 7/1 line 0 0 4 0 *", "wall 5 5", "gone 5 6"]:
        assert blocks(host(f"{given}tick 6\n{line_}\n"))[-1] == "refused back in time\n", line_


def test_judged_or_not() -> None:
    """`judge` stands in the place of `keep`: it is refused for what that is refused for, and a host without it has none of its lines."""
    opened, begin = f"board 1 16 1 {SEED}\n", f"judge 0 4000 0 {WALL} - -\n"
    assert host(begin + opened) == "refused no board\nok never\n"
    for acting in ACTING[:-1]:
        said = [block for block in blocks(host(f"{opened}{acting}\n{begin}")) if block.startswith("refused")]
        assert said == ["refused member\n" if acting == "say ask-pages 2" else "refused too late\n"], f"too late after {acting[:20]!r}"
    assert host(f"{opened}keep 4000 0\n{begin}").endswith("refused kept\n")
    assert host(f"{opened}{begin}{begin}") == f"ok never\nok {QUESTION}\nrefused kept\n"
    for line_, fault in MISTYPED_JUDGE.items():
        assert host(f"{line_}\n") == f"refused {fault}\n", f"as it is read: {line_!r}"
    for line_ in ["held tick 5", "wall 5 5", "gone 5 5", "members", "list 5", "paint 7 1 2 1", "since 7 1 0", "lacks 7 1", "words 574201040000000400000002"]:
        assert host(f"{opened}{line_}\n") == "ok never\nrefused unknown\n", f"no line of a host that is not judged: {line_}"


def test_begins_anew() -> None:
    """`judge` opens the member anew at its moment: its first words are those of the board, whatever was ticked before."""
    later = f"board 1 16 1 {SEED}\ntick 7\njudge 5000 4000 0 {WALL} - -\n"
    assert host(later) == f"ok never\nok never\nok {5000 + QUESTION}\n"


def test_many() -> None:
    """So much at once is taken, and no more: requests and questions of strangers, numbers that are heard first, and pages of strangers."""
    given, _ = parted(judge(cells=4096))
    cases = {
        "flood": [f"came 5 6 {datagrams.ask_pages(9 + count)}" for count in range(65)],
        "crowd": [f"came 5 {count} {session(9 + count, 5, PAGE, [], [])}" for count in range(257)],
        "pages": [f"came 5 {count} {drawop(9, (9, count), 1, WALL, STROKE)}" for count in range(17)],
        "share": [f"came 5 6 {drawop(9, PAGE, 1 + count, WALL, STROKE)}" for count in range(33)],
    }
    for why, lines in cases.items():
        said = [block.splitlines()[0] for block in blocks(host(given + "".join(f"{line_}\n" for line_ in lines)))[2:]]
        assert [number for number, first in enumerate(said) if first.startswith("dropped")] == [len(lines) - 1], why
        assert said[-1] == f"dropped {why}"


class JudgedSession(Session):
    """Lines at random at a judged host, and what it is to print for each."""

    def __init__(self, numbers: random.Random, held: int = 0) -> None:
        super().__init__(numbers)
        self.cells = self.model.cells = self.random.choice([12, 64, 400])
        listen, here, strangers = self.random.choice([0, 300_000, 4_000_000]), self.random.choice([None, "3"]), self.random.choice([None, 0, 3, 60])
        rate = self.random.choice([40, 4000, 1_000_000])
        kept = Kept(self.model, rate, listen, Words(self.seed, 55))
        self.judged = Judged(kept, reference.Judge(ME, self.cells, 0, WALL, here, strangers))
        self.begin = f"judge 0 {rate} {listen} {WALL} {here or '-'} {'-' if strangers is None else strangers}"
        self.lines = [self.come] * 8 + [self.draw, self.draw, self.on, self.on, self.on, self.told_day, self.left, self.asking, self.asking]
        self.lines += [self.recalled] * held
        self.record: list[str] = []

    def origin(self) -> reference.Origin:
        place, owner = self.below(5), self.random.choice([None, None, "3", "4"])
        return reference.Origin(f"{place}@{owner}" if owner else str(place), owner)

    def any_drawop(self) -> Drawop:
        made = self.drawop()
        if made.name in self.model.held:
            return made
        time = WALL + self.model.now + self.random.choice([0, 0, 0, 0, 59_000_000, 61_000_000, DAY - 1_000_000, DAY + 1_000_000])
        seq = self.random.choice([made.name.seq, made.name.seq, made.name.seq, 65_530 + self.below(20), FORGED + self.below(3)])
        return Drawop(Name(made.name.source, made.name.page, seq), time, made.operation, made.told)

    def datagram(self) -> Datagram:
        sender, page, marks = self.random.choice(MEMBERS), self.page(), self.marks()
        if self.below(9) == 0:
            marks = [(source, self.random.choice([high, 700, 70_000, FORGED])) for source, high in marks]
        kind = self.below(9)
        if kind < 4:
            return self.any_drawop()
        if kind < 6:
            return Message(sender, self.below(10**9), page, marks, self.echoes(sender))
        if kind == 6:
            return State(sender, page, marks)
        if kind == 7:
            held = list(self.model.held)
            return Request(sender, self.random.choice(held) if held and self.below(2) else self.name())
        return AskPages(sender)

    def echoes(self, sender: int) -> list[Echo]:
        """Of a report of ours, or of none. Seldom under our own number, since then nothing is drawn."""
        own = self.judged.judge.own
        if sender == ME and self.below(8):
            return []
        if own and self.below(3):
            sent = self.random.choice(own)
            return [(ME, sent, self.below(max(1, self.model.now - sent) + 5))]
        return [(ME, self.below(self.model.now + 1), 0)] if self.below(2) else []

    def moment(self) -> int:
        if self.below(3) == 0:
            return max(self.model.now, self.judged.kept.due() - self.below(2))
        return self.model.now + self.below(self.random.choice([2_000, 150_000, 2_000_000, 40_000_000]))

    def come(self) -> tuple[str, str]:
        now, origin = self.moment(), self.origin()
        if self.below(20) == 0:
            return f"came {now} {origin.text} 574201", self.answered(lambda: self.judged.garbled(now))
        datagram = self.datagram()
        return f"came {now} {origin.text} {digits_of(datagram)}", self.answered(lambda: self.judged.came(now, origin, datagram))

    def draw(self) -> tuple[str, str]:
        now, page = self.moment(), self.page()
        operation, told = self.operation()
        return f"add {now} {paged(page)} {told}", self.answered(lambda: self.judged.add(now, page, operation, told))

    def on(self) -> tuple[str, str]:
        now = max(0, self.moment() - (self.below(30) == 0))
        return f"tick {now}", self.answered(lambda: self.judged.tick(now))

    def told_day(self) -> tuple[str, str]:
        now, wall = self.moment(), WALL + self.model.now + self.random.choice([0, 5, -DAY, DAY])
        return f"wall {now} {wall}", self.answered(lambda: self.judged.wall(now, wall))

    def left(self) -> tuple[str, str]:
        now, origin = self.moment(), self.origin()
        return f"gone {now} {origin.text}", self.answered(lambda: self.judged.gone(now, origin))

    def recalled(self) -> tuple[str, str]:
        """A line of a record."""
        made, own, page, high = self.any_drawop(), self.drawop(ME), self.page(), 1 + self.below(NUMBERS)
        lines: list[tuple[str, Drawop | State | None]] = [
            (made.words(), made),
            (f"datagram {made.digits()}", made),
            (f"say {own.words()}", own),
            (f"page-state 9 {paged(page)} {ME}={high}", State(9, page, [(ME, high)])),
            (f"tick {self.below(10**9)}", None),
            (f"owner {self.random.choice(MEMBERS)} {self.random.choice(OWNED)}", None),
            self.random.choice([("# a comment", None), ("board 1 16 1 42", None), ("", None)]),
        ]
        line_, datagram = self.random.choice(lines)
        return f"held {line_}", self.answered(lambda: self.judged.held(line_, datagram))

    def asking(self) -> tuple[str, str]:
        page, count = self.page(), self.below(len(self.model.held) + 2)
        ways: list[tuple[str, Callable[[], str]]] = [
            ("members", self.judged.members),
            ("list 1", lambda: self.judged.listing(1)),
            ("list 9", lambda: self.judged.listing(9)),
            (f"since {page[0]} {page[1]} {count}", lambda: self.judged.since(page, count)),
            (f"lacks {page[0]} {page[1]}", lambda: self.judged.lacks(page)),
            *((f"{word} {page[0]} {page[1]}", lambda word=word: getattr(self.model, word)(page)) for word in ("gaps", "report", "digest", "next", "view")),
        ]
        line_, does = self.random.choice(ways)
        return line_, self.answered(does)

    def answered(self, does: Callable[[], str]) -> str:
        try:
            block = does() + f"ok {self.judged.kept.due()}\n"
        except Refused as fault:
            return f"refused {str(fault).replace('word 6', 'word 5')}\n"
        self.record += [said.removeprefix("record ") for said in block.splitlines() if said.startswith("record ")]
        return block

    def conversation(self, count: int = LINES) -> tuple[str, str]:
        given = f"board {ME} {self.cells} 1 {self.seed}\n{self.begin}\n"
        printed = f"ok never\nok {self.judged.kept.due()}\n"
        for _ in range(count):
            line_, block = self.random.choice(self.lines)()
            given += f"{line_}\n"
            printed += block
        return given, printed


@pytest.mark.parametrize("seed", seeds(16))
def test_random(seed: int) -> None:
    given, printed = JudgedSession(random.Random(seed), held=seed % 4).conversation()
    assert first_difference(given, host(given), printed) == ""


@pytest.mark.parametrize("seed", seeds(4))
def test_patched(seed: int) -> None:
    """The view of then, where what `since` hides is taken off and what it shows is put in, is the view of now."""
    begun = JudgedSession(random.Random(seed), held=8)
    given, _ = begun.conversation()
    counts = range(0, len(begun.model.held) + 1, 5)
    asked = "".join(f"since {page[0]} {page[1]} {count}\n" for page in PAGES for count in counts)
    printed = iter(blocks(host(given + asked))[-len(PAGES) * len(counts) :])
    for page in PAGES:
        for count in counts:
            first, *changes, _ = next(printed).splitlines()
            assert first == f"since {len(begun.model.held)} {len(changes)}"
            assert patched(begun.judged.view_at(page, count), changes) == begun.judged.view_at(page, len(begun.model.held))


def patched(shown: list[str], changes: list[str]) -> list[str]:
    """What a page shows, in words, with what is said to have changed."""
    for change in changes:
        word, at, rest = change.split(" ", 2)
        if word == "hidden":
            shown = [words for words in shown if (words.split()[1], words.split()[3]) != (at, rest)]
        else:
            shown = [*shown[: int(at)], rest, *shown[int(at) :]]
    return shown


QUESTIONS = [f"{word} {page[0]} {page[1]}" for page in PAGES for word in ("view", "report")] + ["pages", "list 99"]


@pytest.mark.parametrize("seed", seeds(8))
def test_record(seed: int) -> None:
    """A host that begins anew, and is handed what another printed after `record `, shows and lists the same, and records nothing."""
    begun = JudgedSession(random.Random(seed))
    given, _ = begun.conversation()
    board, begin = given.splitlines()[:2]
    questions_ = "".join(f"{question}\n" for question in QUESTIONS)
    shown = blocks(host(given + questions_))[-len(QUESTIONS) :]
    held = "".join(f"held {line_}\n" for line_ in begun.record)
    printed = host(f"{board}\n{begin}\n{held}{questions_}")
    again = blocks(printed)[-len(QUESTIONS) :]
    assert [block.splitlines()[:-1] for block in again] == [block.splitlines()[:-1] for block in shown]
    assert "record " not in printed and "refused " not in printed


def test_as_kept() -> None:
    """A judged host is a self-managing one that is handed the same line, or a tick of its moment: DUE is the same, and what is sent, but for the echo
    of a report that is under our own number."""
    for seed in seeds(4):
        begun = JudgedSession(random.Random(seed))
        given, printed = begun.conversation()
        handed, wanted = [], []
        for line_, block in zip(given.splitlines(), blocks(printed)):
            words, said = line_.split(), block.splitlines()
            if words[0] not in ("came", "tick", "add", "wall", "gone") or said[-1].startswith("refused"):
                continue
            if words[0] == "came" and not said[0].startswith("dropped"):
                handed.append(f"came {words[1]} {words[3]}")
            elif words[0] == "add":
                recorded = [line__ for line__ in said if line__.startswith("record say draw ")]
                time = recorded[0].split()[6] if recorded else "0"
                handed.append(f"add {words[1]} {time} {' '.join(line_.split(' ')[2:])}")
            else:
                handed.append(f"tick {words[1]}")
            wanted.append([without_own_echo(line__) for line__ in said if line__.startswith(("send ", "ok "))])
        rate, listen = begun.begin.split()[2:4]
        kept = host(f"board {ME} {begun.cells} 1 {begun.seed}\nkeep {rate} {listen}\n" + "".join(f"{line_}\n" for line_ in handed))
        said_ = [[line__ for line__ in block.splitlines() if line__.startswith(("send ", "ok "))] for block in blocks(kept)[2:]]
        assert said_ == wanted


def without_own_echo(said: str) -> str:
    """A report without its echo under our own number."""
    if not said.startswith("send 57420102"):
        return said
    data = bytes.fromhex(said.split()[1])
    first = 30 + 8 * int.from_bytes(data[28:30], "big")
    echoes = [data[at : at + 20] for at in range(first + 2, len(data), 20) if data[at : at + 4] != datagrams.number(ME, 4)]
    return f"send {datagrams.datagram(datagrams.SESSION, data[8:first] + datagrams.number(len(echoes), 2) + b''.join(echoes))}"
