"""Parts by themselves: words and their fields, who is heard, what the page is sent, the record, the inbox."""
from __future__ import annotations

import contextlib
import io
import json
import os
import random
import re
import socket
import tempfile
from functools import partial
from pathlib import Path
from types import SimpleNamespace
from typing import Any, Callable, Dict, List, Optional

import pytest

from live.alarms import Alarms
from live.carriers.carrier import Origin
from live.carriers.mqtt import GONE, is_name
from live.clock import Clock
from live.drawn import Drawn, Sheet
from live import board as boards, connections, inbox as inboxes
from live.inbox import MOST_WAITING, PACE, PACE_BYTES, Arrival, Inbox
from live.letters import fitting, letter_rows, printable
from live.member import Member
from live.options import read_options
from live.record import NoRoom, Record, RecordFault, read_played
from live.state import folder_of, open_record
from live.telling import MOST_REPORTED, Reported
from live.unseen import UNSEEN
from live.views import Drawop, Question, Report, datagram_of, name_in, name_of, page_of
from live.waiting import Waiting
from live.wire import MOST_CHARACTERS, MOST_REMEMBERED, Wire
from ..facts import Facts
from .attacks.test_hostile import framed
from .hosts import AtHost
from .members import PATIENCE, TOP

PAGE = (7, 1)


HOME = Origin("127.0.0.1:1")


def test_words(facts: Facts) -> None:
    told = Drawop('draw 8 7/1 1 20 text 1 2 "say \\"hi\\\\\\""').fields()
    facts("a text", (told["text"], told["x"], told["y"], told["seq"]), ('say "hi\\"', 1, 2, 1))
    told = Drawop("draw 7 7/1 1 10 line 0 1 4 1 *").fields()
    facts("a line", [told[key] for key in ("op", "x0", "y0", "x1", "y1", "glyph", "time")], ["line", 0, 1, 4, 1, "*", "10"])
    facts("the name of a request", name_in("request 8 7 7/4 2"), (7, (7, 4), 2))
    digits = "57420101000000220000000800000001000000020000000300000000000003e7"
    facts("the name of a drawop by its digits, in both versions", [name_of(digits), name_of("57420201" + digits[8:])], [(8, (1, 2), 3)] * 2)
    facts("what is cut off or no drawop has none", [name_of(each) for each in (digits[:47], "57420101", "57420102" + digits[8:], "")], [None] * 4)
    facts("the target of a delete", Drawop("draw 8 7/1 1 20 delete 7 3").aimed(), (7, (7, 1), 3))
    report = Report("session-message 1 50 7/4 7=1 9=3 8@100+50")
    facts("a report", (report.speaker, report.sent, report.page, report.marks, report.echoes), (1, 50, (7, 4), {7: 1, 9: 3}, {8: (100, 50)}))
    facts("a page state", Report("page-state 9 8/1 8=4").marks, {8: 4})
    kinds = ["draw 7 7/1 1 10 line 0 1 4 1 *", "session-message 1 50 7/4", "page-state 9 8/1 8=4", "request 8 7 7/4 2", "ask-pages 8"]
    facts("which datagram it is", [(type(each), each.speaker) for each in map(datagram_of, kinds)], [(Drawop, 7), (Report, 1), (Report, 9), (Question, 8), (Question, 8)])
    for text in ("7", "7/", "/1", "7/1/1", "-7/1", "4294967296/1", "\u0667/1"):
        with pytest.raises(ValueError):
            facts("no page: " + text, page_of(text), "a fault")


def test_drawn(facts: Facts) -> None:
    """What is shown, drawop by drawop, in any order of coming."""
    lines = ["draw 7 7/1 1 10 line 0 1 4 1 *", "draw 7 7/1 2 90 line 0 1 4 1 *", "draw 8 7/1 1 50 delete 7 1", "draw 8 7/1 2 60 restore 7 1",
             "draw 9 7/1 1 60 delete 7 1", "draw 7 7/1 3 5 frame 0 0 4 1 +"]
    chance = random.Random(3)
    for _ in range(20):
        chance.shuffle(lines)
        at = AtHost(*lines)
        facts("what is shown", at.shown(), [(7, 3), (7, 2)])
        facts("what is hidden", list(at.showing.hidden), [(7, PAGE, 1)])
        names = [name for change in at.changes for name in [*change.names, *(drawop.name for drawop in change.hidden)]]
        facts("nothing else was ever told to change, or to be hidden", set(names) - {(7, PAGE, 1)}, set())
    facts("a restore of equal time by a greater source", len(AtHost(*lines, "draw 9 7/1 2 60 restore 7 1").shown()), 3)
    drawn = Drawn()
    for line in [*lines, lines[0]]:
        drawn.add(Drawop(line))
    facts("each counts once", (drawn.total, drawn.count(PAGE), drawn.top(PAGE, 7), drawn.top((1, 1), 7)), (6, 6, 3, 0))
    facts("nothing is missing", (drawn.missing(PAGE), drawn.missing((1, 1))), (0, 0))
    drawn.add(Drawop("draw 7 7/1 6 10 line 0 1 4 1 *"))
    facts("two numbers are missing", drawn.missing(PAGE), 2)
    counts = [len(drawn.sheet((9, number)).drawops) for number in range(1_000)]
    facts("of pages that are looked at and have nothing none is remembered", (set(counts), len(drawn.pages)), ({0}, 1))


def test_erased(facts: Facts) -> None:
    """Who erased what, what was done just before, and when a page was begun, in any order of coming."""
    lines = ["draw 7 7/1 1 1000000 line 0 1 4 1 *", "draw 8 7/1 1 1200000 line 0 1 4 1 *", "draw 8 7/1 2 1300000 delete 7 1", "draw 9 7/1 1 1400000 delete 7 1",
             "draw 8 7/1 3 1500000 restore 7 1", "draw 8 7/1 4 1600000 delete 7 1", "draw 9 7/1 2 1700000 delete 7 1", "draw 8 7/1 5 2700000 delete 8 1"]
    chance = random.Random(5)
    for _ in range(20):
        chance.shuffle(lines)
        at = AtHost(*lines)
        told = {name: json.loads(erased.text())["erased"] for name, erased in at.showing.hidden.items()}
        # 8 deletes what it restored just before: that was no move; and after over a second nothing stands before a delete
        facts("the first delete after the last restore counts", told, {(7, PAGE, 1): [8, 4, "1600000", None], (8, PAGE, 1): [8, 5, "2700000", None]})
    moved = AtHost("draw 8 7/1 2 1300000 delete 7 1", "draw 7 7/1 1 1000000 line 0 1 4 1 *", "draw 8 7/1 1 1200000 line 1 2 5 2 *")
    facts("what came before a delete is told, though it came late", json.loads(moved.showing.hidden[(7, PAGE, 1)].text())["erased"], [8, 2, "1300000", "line"])
    sheet = Sheet()
    for line in lines:
        sheet.add(Drawop(line))
    facts("a page is as old as its first drawop, and as new as its last that is no delete", (sheet.begun, sheet.last), (1_000_000, 1_500_000))
    facts("without what strangers gave", (sheet.begun_by({(7, PAGE, 1)}), sheet.begun_by(set(sheet.drawops)), Sheet().begun_by(set())), (1_200_000, 1_000_000, float("inf")))


def test_order(facts: Facts) -> None:
    """What lies on what, and what a delete or a restore does, in the order of their times and not of their coming."""
    def line(source: int, seq: int, time: int) -> str:
        return "draw %d 7/1 %d %d line 0 1 4 1 *" % (source, seq, time)

    above = AtHost(line(8, 1, 5), line(7, 2, 5), line(7, 3, 5), line(7, 1, 5), line(9, 1, 4))
    facts("of one time the greater source lies above, and then the greater number", above.shown(), [(9, 1), (7, 1), (7, 2), (7, 3), (8, 1)])
    back = AtHost(line(7, 1, 5), "draw 8 7/1 1 50 delete 7 1", "draw 8 7/1 2 60 restore 7 1")
    facts("what was restored is shown, and not hidden", ([drawop.name[2] for drawop in back.showing.shown], back.showing.hidden), ([1], {}))
    for words in ("draw 8 7/1 3 70 delete 8 1", "draw 9 7/1 1 55 delete 7 1"):
        facts("a delete of a delete, and an earlier one, change nothing", back.add(words), ([], [], []))
    deleted = back.add("draw 8 7/1 4 80 delete 7 1")
    facts("a later one does, which is told", (deleted.names, [drawop.name for drawop in deleted.hidden], deleted.added), ([(7, PAGE, 1)], [(7, PAGE, 1)], []))
    facts("it is hidden", (back.shown(), list(back.showing.hidden)), ([], [(7, PAGE, 1)]))
    late = AtHost(line(7, 9, 5), line(7, 2, 6))
    sheet = late.drawn.sheet(PAGE)
    facts("the greatest number of a source, and how many are held, whichever came last", (sheet.tops, sheet.counts), ({7: 9}, {7: 2}))
    facts("what is held is shown as it is held", late.showing.shown, list(sheet.drawops.values()))
    late.board.tell("held " + line(7, 4, 5))  # of which the member knows nothing
    for words in (line(7, 3, 6), line(7, 10, 5)):
        late.add(words)
    facts("what the host alone has is shown, and what comes then has its place", late.shown(), [(7, 4), (7, 9), (7, 10), (7, 2), (7, 3)])
    drawn = Drawn()
    for words in (line(7, 9, 5), line(7, 2, 6)):
        drawn.add(Drawop(words))
    facts("numbers that are lacking at least", [drawn.lacking(PAGE, *each) for each in ((7, 9), (7, 1), (8, 3))] + [drawn.lacking((9, 9), 7, 2)], [7, 0, 3, 2])
    facts("what is held", (drawn.holds((7, PAGE, 2)), drawn.holds((7, PAGE, 1)), drawn.drawn_pages(), len(list(drawn.all()))), (True, False, [PAGE], 2))


class Entries:
    """In the place of events: the entries that were sent."""

    def __init__(self) -> None:
        self.entries: List[Dict[str, Any]] = []

    def tell_entry(self, entry: Dict[str, Any]) -> None:
        self.entries.append(entry)


def test_wire(facts: Facts) -> None:
    """What the page hears of a datagram that goes by, which request a repair answers, and how much is remembered."""
    told = Entries()
    wire = Wire(told)  # type: ignore[arg-type]

    def came(words: Optional[str], origin: Origin = HOME, refused: Optional[str] = None, **more: bool) -> None:
        wire.tell({**wire.came(Arrival(b"", origin, **more), words), "refused": refused})

    wire.learn(HOME, 9)
    came("request 9 7 7/1 1", is_lost=True)
    came("request 9 7 7/1 2", Origin("127.0.0.1:2"), is_second=True)
    came("request 9 7 7/1 2")
    wire.went("request 1 7 7/1 3")
    for seq in (1, 2, 3):
        wire.went("draw 7 7/1 %d 11 line 0 0 1 1 *" % seq)
    came(None, refused="no datagram")
    entries = told.entries
    facts("a repair answers the first request that came or went, and none that was lost", [entry["answers"] for entry in entries], [None] * 5 + [2, 4, None])
    facts("who sends from there", [entry["by"] for entry in entries[:4]], [9, None, 9, None])
    facts("what was done on purpose", [(entry["lost"], entry["twice"]) for entry in entries[:3]], [(True, False), (False, True), (False, False)])
    facts("what goes by", [(entry["id"], entry["way"], entry["kind"], entry["member"], entry["name"]) for entry in (entries[3], entries[4], entries[7])],
          [(4, "out", "request", 1, "7 7/1 3"), (5, "out", "draw", 7, "7 7/1 1"), (8, "in", "bad", None, None)])
    facts("what is counted", wire.counts, {"in": 4, "out": 4, "lost": 1, "twice": 1, "refused": 1, "requests": 1, "repairs": 2})
    came('draw 7 7/1 9 11 text 0 1 "%s"' % ("a" * 500))
    facts("a long one is cut", (len(entries[-1]["words"]), entries[-1]["words"][-4:]), (MOST_CHARACTERS + 3, "a .."))
    for seq in range(10, 10 + MOST_REMEMBERED):
        came("request 9 7 7/1 %d" % seq)
    facts("the last requests are remembered", (len(wire.requests), (7, PAGE, 2) in wire.requests, (7, PAGE, 10) in wire.requests), (MOST_REMEMBERED, False, True))
    for port in range(MOST_REMEMBERED + 1):
        wire.learn(Origin("127.0.0.1:%d" % (1 + port)), port)
    facts("of origins no more than so many", (len(wire.origins) <= MOST_REMEMBERED, wire.origins.get(Origin("127.0.0.1:%d" % (1 + MOST_REMEMBERED)))), (True, MOST_REMEMBERED))


def test_letters(facts: Facts) -> None:
    """Letters of ink in a terminal."""
    facts("nor what shows nothing", printable("a\u3164b\u2800c\ufe0f"), "a?b?c?")
    facts("what moves the cursor is not shown", printable("a\x9b1m\u202eb\u00a0\u6f22"), "a?1m?b?\u6f22")
    facts("letters of two cells, and of none", [fitting("\u6f22\u6f22a", 3), fitting("\u6f22\u6f22a", 4), fitting("e\u0301fg", 2)], ["\u6f22", "\u6f22\u6f22", "e\u0301f"])
    line = "draw %d 7/1 %d %d text 0 4000 \"%s\""
    inks = [Drawop(line % each) for each in ((7, 1, 10, "~t%0!!!!(!low"), (8, 1, 20, "~k%0!!!!!!https://a/b"), (8, 2, 30, "~s$1!hV#HJ"), (7, 2, 40, "~t%a!!!!!! more~P!,end"))]
    facts("letters from the top on", letter_rows(inks), ["2 with letters, 1 without", "member 8, link: https://a/b", "member 7, letters: low more", "    end"])
    facts("no ink", letter_rows([]), ["0 with letters, 0 without"])


def test_unseen(facts: Facts) -> None:
    """What shows nothing makes no name at a broker, by the table that the page has too."""
    table = (TOP / "live/ui/unseen.js").read_text().partition("UNSEEN = [")[2].partition("];")[0]
    facts("one table", tuple((int(first, 16), int(last, 16)) for first, last in re.findall(r"\[(\w+), (\w+)\]", table)), UNSEEN)
    names = ["anna", "\u00c4nna b", "\u6f22\u200b", "an\u3164na", "\u2800", "anna\ufe0f", "a\u200dn", "", " ", "a" * 128, "a" * 129]
    facts("names", [is_name(name) for name in names], [True, True, False, False, False, False, False, False, True, True, False])


def test_reported(facts: Facts) -> None:
    """What reports tell of is missing until it comes."""
    reported, drawn = Reported(), Drawn()
    for line in ("draw 7 7/1 1 10 line 0 1 4 1 *", "draw 7 7/1 4 10 line 0 1 4 1 *"):
        drawn.add(Drawop(line))
    for name in ((7, PAGE, 3), (7, PAGE, 9), (8, PAGE, 2), (8, (7, 2), 2)):
        reported.tell(name)
    facts("a number of a gap counts once", reported.missing(PAGE, drawn), 4)
    reported.come((7, PAGE, 9))
    facts("what came is missing no more", (reported.missing(PAGE, drawn), reported.missing((7, 2), drawn)), (3, 1))
    facts("pages of which nothing is held are told", (7, 2) in reported.pages(), True)
    for number in range(5000):
        reported.tell((1, (9, number), 5))
    facts("what is told is bounded", len(reported.names), MOST_REPORTED)


def test_alarms(facts: Facts) -> None:
    alarms = Alarms()
    for number in range(50):
        alarms.warn("warning %d" % number)
    facts("of fifty warnings a few are told", 0 < len(alarms.told()) <= 8, True)
    alarms.given = {text: at - 61 for text, at in alarms.given.items()}
    facts("and after a minute none", alarms.told(), [])


def test_waiting(facts: Facts) -> None:
    """A start tells how far it is if it takes long, and a short one tells nothing."""
    out = io.StringIO()
    waiting = Waiting("takes it in", out)
    waiting.next_at += 3_600
    waiting.tell(1, 4)
    waiting.end()
    facts("before that it tells nothing", (out.getvalue(), waiting.has_told), ("", False))
    waiting.next_at = 0
    waiting.tell(1, 4)
    facts("then how much is done", out.getvalue(), "wb-live: takes it in: 25 percent\n")
    waiting.tell(2, 4)
    waiting.end()
    facts("and not again at once", out.getvalue().count("\n"), 1)


def test_record(facts: Facts) -> None:
    with tempfile.TemporaryDirectory() as folder:
        path = os.path.join(folder, "a.wb")
        record = Record(path)
        for line in ("board 1 16 1 42", "# a note", "view 1 1", "tick 5"):
            record.add(line)
        facts("what changes a host", list(record.acts()), ["board 1 16 1 42", "tick 5"])
        facts("a record in use", fault_of(lambda: Record(path)), "%s is in use by another member" % path)
        record.close()
        with open(path, "ab") as file:
            file.write(b"tick 9")
        again = Record(path)
        facts("a torn line is taken off", (list(again.acts()), again.size, os.path.getsize(path)), (["board 1 16 1 42", "tick 5"], 41, 41))
        again.add("tick 7")
        facts("and the next stands for itself", list(again.acts())[-1], "tick 7")
        again.close()


def fault_of(act: Callable[[], Any]) -> str:
    """What a record is refused for."""
    try:
        act()
    except (RecordFault, NoRoom) as fault:
        return str(fault)
    return "none"


def test_refused_records(facts: Facts) -> None:
    """A file that a later version wrote stays as it is, and no board goes on whose moments are used up."""
    with tempfile.TemporaryDirectory() as folder:
        path = os.path.join(folder, "a.wb")
        for head, wanted in (("# wb record 2\n", "it stays as it is"), ("# wb record 1\n", "none"), ("", "none"), ("one line\n", "it stays as it is")):
            text = head + "board 1 16 1 42\ntick 5\n"
            with open(path, "w") as file:
                file.write(text)
            told = fault_of(lambda: Record(path).close())
            with open(path) as file:
                facts("a file that begins with %r" % head, (told if told == "none" else told.lower()[-17:], file.read()), (wanted, text))
    # a day is left of the moments of a host
    last = 2**48 - 86_400 * 10**6
    for moment, is_refused in ((last - 1, False), (last, True)):
        record = Record(None)
        record.add("board 1 16 1 42", "tick %d" % moment)
        facts("the moment %d is none of a board that goes on" % moment, "no moment" in fault_of(partial(list, record.acts())), is_refused)
        record.close()


def test_shown_record(facts: Facts, tmp_path: Path) -> None:
    """A record that is shown stays as it is, and a last line that a crash cut off is none."""
    path, text = tmp_path / "a.wb", "board 1 16 1 42\ntick 5\ntick 9"
    path.write_text(text)
    facts("its whole lines", list(read_played(str(path))), ["board 1 16 1 42", "tick 5"])
    facts("the file is as it was", path.read_text(), text)


def test_used_last(facts: Facts, tmp_path: Path, monkeypatch: pytest.MonkeyPatch) -> None:
    """A start takes the record of its session that was used last and that nobody has; a folder that others could read is closed."""
    monkeypatch.setenv("XDG_STATE_HOME", str(tmp_path))
    options = read_options([])
    folder = folder_of(options)
    for number, used in ((7, 1_000), (8, 3_000), (9, 2_000)):
        path = folder / ("%d.wb" % number)
        path.write_text("board %d 16 1 42\n" % number)
        os.utime(path, (used, used))
    taken = [open_record(options) for _ in range(4)]
    facts("one after another", [number for _, number in taken[:3]], [8, 9, 7])
    facts("and then a new one", taken[3][1] in (7, 8, 9), False)
    for record, _ in taken:
        record.close()
    for mode in (0o750, 0o705, 0o700):
        folder.chmod(mode)
        facts("a folder that stood at %o" % mode, folder_of(options).stat().st_mode & 0o777, 0o700)


def test_no_room(facts: Facts, monkeypatch: pytest.MonkeyPatch) -> None:
    """A line that has no room leaves nothing."""
    record = Record(None)
    record.add("board 1 16 1 42", "tick 7")
    write = os.pwrite
    with monkeypatch.context() as patch:
        patch.setattr(os, "pwrite", lambda file, text, at: write(file, text[:3], at))
        facts("a line of which three letters have room", fault_of(lambda: record.add("tick 8")), "no room")
    facts("it leaves nothing", (record.text(), os.fstat(record.file).st_size), (b"board 1 16 1 42\ntick 7\n", 23))
    record.add("tick 9")
    facts("and the next stands in its place", list(record.acts()), ["board 1 16 1 42", "tick 7", "tick 9"])
    record.close()


def test_long_record(facts: Facts) -> None:
    """What is added stands at the end, though only the first line was read before."""
    record = Record(None)
    lines = ["board 1 16 1 42"] + ["tick %d" % moment for moment in range(5000)]
    for line in lines:
        record.add(line)
    facts("the first line", next(record.acts()), lines[0])
    record.add("tick 5000")
    facts("is followed by all others", list(record.acts()) == lines + ["tick 5000"], True)
    record.close()


def test_ends(facts: Facts) -> None:
    """A record says whether its member ended as it should."""
    record = Record(None)
    record.add("board 1 16 1 42", "# ended at 2026-01-01 10:00:00")
    facts("it did", record.is_ended(), True)
    record.add("tick 5")
    facts("it did not", record.is_ended(), False)
    record.close()


def test_inbox(facts: Facts) -> None:
    inbox = Inbox()
    for number in range(MOST_WAITING + 10):
        inbox.arrive(framed(4, b"%d" % number), HOME)
    first = inbox.take(1)[1][0]
    facts("the oldest are dropped first", (inbox.dropped, first.data[8:]), (10, b"10"))
    for trouble in ("", "gone", "gone", "", ""):
        inbox.tell(trouble)
    facts("a network that is back is told once", inbox.take(0)[0], [inbox.back])


def test_pace(facts: Facts, monkeypatch: pytest.MonkeyPatch) -> None:
    """By a clock of the test: after a pause no more is taken in at once than in a twentieth of a second, and long datagrams cost more."""
    clock = SimpleNamespace(at=100.0)
    monkeypatch.setattr(inboxes, "time", SimpleNamespace(monotonic=lambda: clock.at))
    inbox = Inbox()
    for _ in range(500):
        inbox.arrive(framed(2, b""), HOME)
    taken = []
    for pause in (1_000.0, 0.01, 0.0):
        clock.at += pause
        taken.append(len(inbox.take(0)[1]))
    facts("after a long pause, after a hundredth of a second, and at once", [abs(found - wanted) <= 1 for found, wanted in zip(taken, (PACE // 20, PACE // 100, 0))], [True] * 3)
    inbox = Inbox()
    for _ in range(50):
        inbox.arrive(framed(2, b"x" * (PACE_BYTES // 100)), HOME)
    clock.at += 1
    facts("long ones by their bytes", len(inbox.take(0)[1]) in (5, 6), True)


def test_pace_of_strangers(facts: Facts, monkeypatch: pytest.MonkeyPatch) -> None:
    """Beside a flood from where no member speaks, what members send comes at once."""
    clock = SimpleNamespace(at=100.0)
    monkeypatch.setattr(inboxes, "time", SimpleNamespace(monotonic=lambda: clock.at))
    inbox, strange = Inbox(), Origin("127.0.0.1:9")
    inbox.knows = lambda origin: origin == HOME
    late, taken = 0, 0
    for tick in range(1_000):
        clock.at += 0.001
        for _ in range(5):
            inbox.arrive(framed(4, b"none"), strange)
        inbox.arrive(framed(4, b"%d" % tick), HOME)
        came = [arrival for arrival in inbox.take(0)[1]]
        late += framed(4, b"%d" % tick) not in [arrival.data for arrival in came if arrival.origin == HOME]
        taken += sum(arrival.origin == strange for arrival in came)
    facts("nothing of a member is late", late, 0)
    facts.holds("a stranger has half of the pace", PACE // 2 - 50 <= taken <= PACE // 2 + 80, taken)


def test_garbage(facts: Facts, monkeypatch: pytest.MonkeyPatch) -> None:
    """Bytes that are not a datagram take nothing of the pace, so a newcomer's datagrams come at once beside them."""
    clock = SimpleNamespace(at=100.0)
    monkeypatch.setattr(inboxes, "time", SimpleNamespace(monotonic=lambda: clock.at))
    inbox, good, newcomer = Inbox(), framed(4, b"good"), Origin("127.0.0.1:9")
    inbox.knows = lambda origin: False
    bad = [b"", b"WB", b"garbage!", good[:-1], good + b"x", b"XB" + good[2:], *(good[:at] + bytes([value]) + good[at + 1:] for at in (2, 3) for value in (0, 6))]
    late = 0
    for tick in range(1_000):
        clock.at += 0.001
        for data in bad:
            inbox.arrive(data, newcomer)
        inbox.arrive(good, newcomer)
        late += [arrival.data for arrival in inbox.take(0)[1]] != [good]
    facts("what is no datagram delays none, and is counted", (late, inbox.dropped, inbox.bad), (0, 0, 1_000 * len(bad)))


def test_gone(facts: Facts) -> None:
    """That somebody is gone costs a host a line if he was heard before, and once until that is done."""
    left: List[Origin] = []
    judging = SimpleNamespace(leave=left.append, heard=SimpleNamespace(knows=lambda origin: origin == HOME))
    member: Any = SimpleNamespace(inbox=Inbox(), leaving=set(), judging=judging)
    member.leave = partial(Member.leave, member)
    for origin in (HOME, Origin("127.0.0.1:9")):
        for _ in range(100):
            Member.hear_aside(member, GONE + origin.text.encode(), origin)
    calls = member.inbox.take(0)[0]
    facts("of each one waits", len(calls), 2)
    for call in calls:
        call()
    facts("who was not heard is nobody", (left, member.leaving), ([HOME], set()))
    Member.hear_aside(member, GONE + b"another", HOME)
    facts("nobody says it of another", len(member.inbox.take(0)[0]), 0)


def test_connections(facts: Facts, monkeypatch: pytest.MonkeyPatch) -> None:
    """If there is no room, the oldest that has not asked yet goes; if all have, the oldest of an address that has most; a stream stays."""
    monkeypatch.setattr(connections, "MOST_CONNECTIONS", 2)
    all_, pairs = connections.Connections(), [socket.socketpair() for _ in range(4)]
    one, two, three, four = (pair[0] for pair in pairs)
    pairs[0][1].settimeout(PATIENCE)
    facts("two have room, and for a third the first goes", ([all_.admit(each) for each in (one, two, three)], all_.count(), list(all_.idle)), ([True] * 3, 2, [two, three]))
    facts("its connection is at its end", pairs[0][1].recv(1), b"")
    facts("the first can't ask any more, and the others can", [all_.asked(each) for each in (one, two, three)], [False, True, True])
    for each in (two, three):
        all_.stream(each)
    facts("beside two streams there is no room", (all_.admit(four), all_.count()), (False, 2))
    all_.end(two)
    facts("and then there is", (all_.admit(four), all_.count()), (True, 2))
    for each in (end for pair in pairs for end in pair):
        each.close()


def test_unread(facts: Facts, monkeypatch: pytest.MonkeyPatch) -> None:
    """Who asks again and again, and reads nothing, holds nobody up."""
    monkeypatch.setattr(connections, "MOST_CONNECTIONS", 12)
    all_, pairs = connections.Connections(), [socket.socketpair() for _ in range(24)]
    here = iter([pair[0] for pair in pairs])

    def ask(address: str, cookie: str) -> socket.socket:
        made = next(here)
        facts("there is room", (all_.admit(made), all_.asked(made, address, cookie)), (True, True))
        return made

    honest = ask("b", "b")
    greedy = [ask("a", "a") for _ in range(10)]
    facts("of one browser eight are answered", list(all_.answered), [honest, *greedy[2:]])
    more = [ask("a", "") for _ in range(6)]
    facts("beside others those of the address that has most go, the oldest first", list(all_.answered), [honest, *greedy[5:], *more])
    all_.rest(greedy[0])
    facts("who was dropped does not come back", (all_.asked(greedy[0]), all_.count()), (False, 12))
    for each in (end for pair in pairs for end in pair):
        each.close()


def test_starts(facts: Facts, monkeypatch: pytest.MonkeyPatch) -> None:
    """By a clock of the test: a host that ends four times within a minute is not started again."""
    clock = SimpleNamespace(at=100.0)
    monkeypatch.setattr(boards, "time", SimpleNamespace(monotonic=lambda: clock.at))
    board, started = boards.Board("", read_options([]), Record(None), None, lambda drawop: None), []  # type: ignore[arg-type]
    board.host = SimpleNamespace(end=lambda: None)  # type: ignore[assignment]
    board.start = lambda listening: started.append(clock.at)  # type: ignore
    for pause in (0, 20, 40, 19, 1):
        clock.at += pause
        board.start_again()
    facts("four times, of which one is a minute ago", len(started), 5)
    try:
        board.start_again()
        facts("four times within a minute", len(started), "a fault")
    except boards.BoardFault:
        facts("four times within a minute", len(started), 5)
    board.record.close()


def test_clock(facts: Facts, monkeypatch: pytest.MonkeyPatch) -> None:
    """Moments count in microseconds from the start; a clock of a test goes faster."""
    passed = [5_000]
    monkeypatch.setattr("live.clock.time", SimpleNamespace(monotonic_ns=lambda: passed[0]))
    clock, fast = Clock(100), Clock(100, 10.0)
    passed[0] += 3_000_000_000
    facts("after three seconds", (clock.now(), fast.now()), (3_000_100, 30_000_100))
    facts("until a moment of a second later", (clock.seconds_until(4_000_100), fast.seconds_until(40_000_100)), (1.0, 1.0))
    facts("none is before now", clock.seconds_until(100), 0)


def test_options(facts: Facts) -> None:
    def status(words: List[str]) -> int:
        with contextlib.redirect_stderr(io.StringIO()), contextlib.redirect_stdout(io.StringIO()):
            try:
                read_options(words)
                return -1
            except SystemExit as end:
                return int(end.code or 0)

    facts("no words", read_options([]).web, ("127.0.0.1", -1, False))
    facts("help", status(["--help"]), 0)
    for words in ("--lose 2", "--me x", "--web a:b", "--listen 127.0.0.1:1", "--peer 127.0.0.1:1", "--lan 1", "--lan 239.1.2.3:44\u00b3", "--lan 239.1.2.3:" + 5_000 * "9", "--ports 0", "--rate 0", "draw", "--replay a --record b", "--replay a --forget", "--origin example.org", "--origin https://a/b"):
        facts("words that are wrong: " + words, status(words.split()), 2)
    networks = ("", "--listen 127.0.0.1:1 --peer 127.0.0.1:2", "--lan", "--web 127.0.0.1:0", "--broker mqtts://a/b", "--broker mqtts://a/b --web 127.0.0.1:0")
    constants = [read_options(words.split()).many() for words in networks]
    facts("many members at a broker have constants of their own", constants, 4 * ["2,8,1,6"] + 2 * ["3,16,1,11"])
    spreads = [[reach / int(constant) for constant in each.split(",")[1::2]] for each, reach in ((constants[2], 5 / 10), (constants[4], 1))]
    few = [all(1 + (50 - 1) * share <= 6 for share in shares) for shares in spreads]
    facts("of fifty at most six ask or repair in a round, where 5 ms count as 10 too", few, [True, True])
    joined = ("--web 127.0.0.1:0", "", "--web 80", "--web a:0 --ports 25000", "--web a:0 --lan", "--web a:0 --listen 127.0.0.1:1 --peer 127.0.0.1:2", "--web a:0 --broker mqtts://a/b", "--web a:0 wb:#ports=25000")
    facts("a class is of its own unless a network is named", [read_options(words.split()).is_alone for words in joined], [True] + 7 * [False])
    facts("no page, so the terminal", (read_options(["--no-web"]).web, read_options(["--no-web"]).terminal), (None, True))


# what a promise of docs/SECURITY.md is called in its tables, by the head of its column
PROMISES = {"your drawings are secret": "secret", "you can draw": "you can draw", "drawings arrive": "drawings arrive", "the board has room": "room",
            "nobody draws as you": "nobody draws as you|names", "the last lies on top": "the last lies on top|order", "your machine is safe": "your machine"}


def test_promises(facts: Facts) -> None:
    """Each answer of the first table of docs/SECURITY.md has a row in the table of that section, which names a test; where it is *no*, the row says so."""
    glance, *sections = re.split(r"^## ", (TOP / "docs" / "SECURITY.md").read_text(), flags=re.MULTILINE)[1:]
    head, _, *rows = [[cell.strip() for cell in line.strip("|").split("|")] for line in glance.split("\n") if line.startswith("|")]
    named = {re.sub(r"[^a-z]+", "-", section.split("\n")[0].lower()): section for section in sections}
    wanted, lacking = 0, []
    for against, *cells in rows:
        lines = [line for line in named[re.findall(r"\(#([a-z-]+)\)", against)[0]].split("\n") if line.startswith("| ") and "`" in line or " the table" in line]
        promises = [line.split("|")[1].strip() for line in lines]
        told = list(zip([next((each for each in reversed(promises[:at + 1]) if each), "") for at in range(len(lines))], lines))
        for column, cell in zip(head[1:], cells):
            its = [line for promise, line in told if re.search(PROMISES[column], promise) or promise == "all others"]
            wanted += cell != "-"
            lacking += [(against, column)] * (cell != "-" and not any("| no: " in line for line in its) if cell == "no" else cell != "-" and not its)
    facts("each answer is seen by a test", (lacking, wanted), ([], 40))


def test_security(facts: Facts) -> None:
    """Each test that docs/SECURITY.md names exists."""
    named = sorted(set(re.findall(r"`([a-z_]+)\.((?:test|check)\w+)`", (TOP / "docs" / "SECURITY.md").read_text())))
    files = [*(TOP / "tests").glob("**/*.py"), *(TOP / "tests").glob("*/*.mjs")]
    texts = {part: [file.read_text() for file in files if file.name.split(".")[0] == part] for part, _ in named}
    facts.holds("tests are named", len(named) > 60, named)
    facts("no test is named that is not there", [name for name in named if not any(re.search(r"(def|function) %s\(" % name[1], text) for text in texts[name[0]])], [])
