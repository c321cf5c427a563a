"""Each number of the judgement, at its two sides."""

from __future__ import annotations

from typing import Any, Dict, List

from . import reference
from .steps import S, WALL, ask, came, case, delete, line, loop, met, report, sent

# the numbers by their names, as the table has them
NUMBERS = {name: value for name, value in vars(reference).items() if name.isupper()}

FRESH, SILENCE, PATIENCE = reference.FRESH, reference.SILENCE, reference.PATIENCE
DAY, MINUTE = reference.DAY, reference.MINUTE


def cases() -> List[Dict[str, Any]]:
    return [*answers(), *known(), *numbers(), *rooms(), *marks(), *streams(), *drawops(), *repairs(), *firm(), *cells(), *adding()]


def answers() -> List[Dict[str, Any]]:
    return [
        case("an answer makes an origin known",
             sent(S), came(2 * S, "b", report(2), "in"), ask(2 * S, False, known="b"),
             came(2 * S, "b", report(2, "1@%d+5" % S), "in"), ask(2 * S, True, known="b"), ask(2 * S, False, known="c")),
        case("an echo of another answers nothing", sent(S), came(2 * S, "b", report(2, "3@%d+5" % S), "in"), ask(2 * S, False, known="b")),
        case("a moment at which we said nothing answers nothing",
             sent(S), came(2 * S, "b", report(2, "1@%d+5" % (S + 1)), "in"), ask(2 * S, False, known="b")),
        case("an echo of 256 s ago answers", sent(S), came(S + FRESH, "b", report(2, "1@%d+5" % S), "in"), ask(S + FRESH, True, known="b")),
        case("an older echo does not", sent(S), came(S + FRESH + 1, "b", report(2, "1@%d+5" % S), "in"), ask(S + FRESH + 1, False, known="b")),
        case("an echo was held no longer than it is ago, and one part in 4,096 of that",
             sent(S), came(2 * S, "b", report(2, "1@%d+%d" % (S, S + 245)), "in"), ask(2 * S, False, known="b"),
             came(2 * S, "b", report(2, "1@%d+%d" % (S, S + 244)), "in"), ask(2 * S, True, known="b")),
        case("who holds an echo for 96 s by a clock that gains 20 ms meanwhile answers, a millisecond away",
             sent(S), came(97 * S + 2_000, "b", report(2, "1@%d+%d" % (S, 96 * S + 20_000)), "in"), ask(97 * S + 2_000, True, known="b")),
        case("256 reports of ours are remembered",
             loop(1, 257, 1, sent(1)), came(300, "b", report(2, "1@1+0"), "in"), ask(300, False, known="b"),
             came(300, "c", report(3, "1@2+0"), "in"), ask(300, True, known="c")),
    ]


def known() -> List[Dict[str, Any]]:
    return [
        case("an origin is known for 600 s", met(), ask(SILENCE, True, known="b"), ask(SILENCE + 1, False, known="b"),
             came(SILENCE + 1, "b", line(2), "in"), ask(SILENCE + 1, False, known="b"), ask(SILENCE + 1, 1, strange=True)),
        case("what comes from it renews it", met(), came(SILENCE, "b", report(2), "in"), ask(2 * SILENCE, True, known="b")),
        case("what is dropped renews it too", met(), came(SILENCE, "b", line(2, 1, WALL + 9 * DAY), "dropped ahead"), ask(2 * SILENCE, True, known="b")),
        case("of 1,025 origins the one that was silent for longest is forgotten",
             sent(0), loop(1, 1024, 1, came(1, "o{}", report(2, "1@0+0"), "in")), ask(2000, True, known="o1"), came(2000, "o1", line(9), "in"),
             came(2001, "o1025", report(2, "1@0+0"), "in"), ask(2001, True, known="o1"), ask(2001, False, known="o2"),
             ask(2001, True, known="o3"), ask(2001, True, known="o1025")),
        case("who is gone is not known", met(), {"now": S, "gone": "b"}, ask(S, False, known="b"), ask(S, False, heard=2)),
        case("who is gone elsewhere changes nothing", met(), {"now": S, "gone": "c"}, ask(S, True, known="b"), ask(S, True, heard=2)),
    ]


def numbers() -> List[Dict[str, Any]]:
    return [
        case("a number stays where it answered for 192 s",
             met(), came(PATIENCE, "x", report(2), "dropped speaks"), came(PATIENCE, "x", "page-state 2 1/1 2=1", "dropped speaks"),
             came(PATIENCE, "x", line(2), "dropped speaks"), came(PATIENCE + 1, "x", line(2), "in"), came(PATIENCE + 1, "x", report(2), "in"),
             came(PATIENCE + 1, "b", report(2), "in")),
        case("what it says there renews it", met(), came(PATIENCE, "b", report(2), "in"), came(2 * PATIENCE, "x", report(2), "dropped speaks")),
        case("a number that has not answered stays nowhere", came(0, "b", report(2), "in"), came(1, "x", report(2), "in"), came(2, "b", line(2), "in")),
        case("a repair of another member's drawop is taken", met(2, "b"), met(3, "c"), came(S, "b", line(3), "in"), came(S, "c", line(2), "in")),
        case("under our own number nothing is handed in",
             met(), came(S, "b", "page-state 1 1/1 1=5", "dropped own"), came(S, "b", "request 1 2 1/1 1", "dropped own"), came(S, "x", "ask-pages 1", "dropped own")),
        case("of 1,025 numbers one that has not answered is forgotten",
             met(), loop(1001, 1255, 0, came(0, "x{}", report("{}"), "in")), loop(1256, 2023, S, came(S, "x{}", report("{}"), "in")),
             ask(768 * S, True, heard=1001), came(769 * S, "x2024", report(2024), "in"), ask(769 * S, False, heard=1001),
             ask(769 * S, True, heard=2), ask(769 * S, True, heard=1002), ask(769 * S, True, heard=2024),
             came(769 * S, "x1002", report(1002), "in"), came(770 * S, "x2025", report(2025), "in"), ask(770 * S, True, heard=1002),
             ask(770 * S, False, heard=1003)),
    ]


def rooms() -> List[Dict[str, Any]]:
    return [
        case("256 new numbers at once, and then one a second",
             loop(1, 256, 0, came(9_000 * S, "x{}", report("77{}"), "in")), came(9_000 * S, "y", report(5000), "dropped crowd"),
             came(9_001 * S - 1, "y", report(5000), "dropped crowd"), came(9_001 * S, "y", report(5000), "in"), came(9_001 * S, "z", report(5001), "dropped crowd"),
             came(9_001 * S, "z", "page-state 5001 1/1 5001=1", "dropped crowd")),
        case("256 new numbers that answer, beside them",
             sent(9_000 * S), loop(1, 256, 0, came(9_000 * S, "x{}", report("77{}"), "in")),
             loop(1, 256, 0, came(9_000 * S, "y{}", report("88{}", "1@%d+0" % (9_000 * S)), "in")),
             came(9_000 * S, "z", report(5000, "1@%d+0" % (9_000 * S)), "dropped crowd"), came(9_001 * S, "z", report(5000, "1@%d+0" % (9_000 * S)), "in")),
        case("128 new numbers of one origin at once, and then one a second",
             loop(1, 128, 0, came(9_000 * S, "x", report("77{}"), "in")), came(9_000 * S, "x", report(5000), "dropped crowd"),
             came(9_000 * S, "y", report(5000), "in"), came(9_001 * S, "x", report(5001), "dropped crowd"), came(9_002 * S, "x", report(5001), "in"),
             came(9_002 * S, "x", report(5002), "dropped crowd"), came(9_002 * S, "y", report(5001), "dropped crowd")),
        case("a number that comes from elsewhere is as a new one",
             loop(1, 256, 0, came(9_000 * S, "x{}", report(7), "in")), came(9_000 * S, "y", report(7), "dropped crowd"), came(9_000 * S, "x256", report(7), "in")),
        case("64 questions of strangers at once, and then sixteen a second",
             loop(1, 64, 0, came(9_000 * S, "x{}", "ask-pages 9{}", "in")), came(9_000 * S, "y", "ask-pages 9", "dropped flood"),
             came(9_000 * S + S // 16 - 1, "y", "ask-pages 9", "dropped flood"), came(9_000 * S + S // 16, "y", "ask-pages 9", "in")),
    ]


def marks() -> List[Dict[str, Any]]:
    return [
        case("a mark of ours while we listen",
             came(0, "x", report(2, "1=65546"), "in", listens=True, top=10), came(0, "x", report(2, "1=65547"), "dropped mark, warn mark", listens=True, top=10),
             came(0, "x", "page-state 2 1/1 1=65547", "dropped mark, warn mark", listens=True, top=10)),
        case("a mark of ours later",
             came(0, "x", report(2, "1=10"), "in", top=10), came(0, "x", report(2, "1=11"), "in, warn mark", top=10),
             came(0, "x", report(2, "1=4294967295"), "in, warn mark", top=10)),
        case("a report that is dropped for its mark is not heard", sent(0), came(0, "x", report(2, "1=70000", "1@0+0"), "dropped mark, warn mark", listens=True),
             ask(0, False, heard=2), ask(0, False, known="x")),
    ]


def streams() -> List[Dict[str, Any]]:
    return [
        case("who lacks 500 takes a stream",
             met(), came(S, "b", report(2, "2=499"), "in", lacking=499), came(S, "b", report(2, "2=500"), "in, fetch b 500", lacking=500)),
        case("a page state brings a stream too", met(), came(S, "b", "page-state 2 1/1 2=900", "in, fetch b 900", lacking=900)),
        case("who has not answered gives none", sent(0), came(S, "b", report(2, "2=900"), "in", lacking=900)),
        case("an answer is enough", sent(0), came(S, "b", report(2, "2=900", "1@0+0"), "in, fetch b 900", lacking=900)),
        case("one stream in 10 s, and one of a member in 60 s",
             met(2, "b"), met(3, "c"), came(20 * S, "b", report(2, "2=900"), "in, fetch b 900", lacking=900),
             came(30 * S - 1, "c", report(3, "2=900"), "in", lacking=900), came(30 * S, "c", report(3, "2=900"), "in, fetch c 900", lacking=900),
             came(80 * S - 1, "b", report(2, "2=900"), "in", lacking=900), came(80 * S, "b", report(2, "2=900"), "in, fetch b 900", lacking=900)),
    ]


def drawops() -> List[Dict[str, Any]]:
    return [
        case("what is held", met(2, "b"), met(3, "c"), came(S, "b", line(2), "in", holds=True), came(S, "x", line(2), "dropped again", holds=True)),
        case("a member's drawop is a day ahead at most",
             met(), came(S, "b", line(2, 1, WALL + S + DAY), "in"), came(S, "b", line(2, 2, WALL + S + DAY + 1), "dropped ahead")),
        case("a stranger's drawop is a minute ahead at most",
             came(S, "x", line(2, 1, WALL + S + MINUTE), "in"), came(S, "x", line(2, 2, WALL + S + MINUTE + 1), "dropped ahead")),
        case("the time of day goes on, and can be set",
             ask(5 * S, WALL + 5 * S, time=True), {"now": 6 * S, "wall": WALL - DAY}, ask(8 * S, WALL - DAY + 2 * S, time=True),
             came(8 * S, "x", line(2), "dropped ahead")),
        case("a drawop of ours that only we draw", met(), came(S, "b", line(1, 1), "in"), came(S, "b", line(1, 2), "dropped own", above=True),
             came(S, "b", line(1, 2**31 - 1), "in"), came(S, "b", line(1, 2**31), "dropped own")),
    ]


def repairs() -> List[Dict[str, Any]]:
    at, last = 9_000 * S, 2_000
    one, other = "request 2 1 1/1 {}", "request 3 1 1/1 {}"
    taken = [came(at, origin, words.format(number), "in", holds=True) for number in range(1, 129) for origin, words in (("b", one), ("c", other))]
    return [
        case("256 requests of one member for what is held at once, and then one in two milliseconds",
             met(now=at), loop(1, 256, 0, came(at, "b", one, "in", holds=True)), came(at, "b", "request 2 1 1/1 9", "dropped flood", holds=True),
             came(at + last - 1, "b", "request 2 1 1/1 9", "dropped flood", holds=True), loop(1, 50, last, came(at + last, "b", one, "in", holds=True)),
             came(at + 51 * last - 1, "b", "request 2 1 1/1 9", "dropped flood", holds=True)),
        case("512 of two, each half",
             met(2, "b", at), met(3, "c", at), taken, taken, came(at, "b", "request 2 1 1/1 9", "dropped flood", holds=True),
             came(at, "c", "request 3 1 1/1 9", "dropped flood", holds=True), came(at + last, "c", "request 3 1 1/1 9", "dropped flood", holds=True),
             came(at + last, "b", "request 2 1 1/1 9", "in", holds=True), came(at + 2 * last, "b", "request 2 1 1/1 9", "dropped flood", holds=True),
             came(at + 2 * last, "c", "request 3 1 1/1 9", "in", holds=True), came(at + 258 * last, "c", "request 3 1 1/1 9", "dropped flood", holds=True),
             came(at + 259 * last, "c", "request 3 1 1/1 9", "in", holds=True)),
        case("of one after another while half of them is left, as often as it likes",
             met(2, "b", at), met(3, "c", at), loop(1, 256, 0, came(at, "b", one, "in", holds=True)), came(at, "c", "request 3 1 1/1 1", "in", holds=True),
             came(at, "c", "request 3 1 1/1 1", "dropped flood", holds=True), came(at, "b", "request 2 1 1/1 1", "in", holds=True),
             came(at, "b", "request 2 1 1/1 1", "dropped flood", holds=True)),
        case("what is dropped pays for nothing",
             met(now=at), loop(1, 256, 0, came(at, "b", one, "in", holds=True)), loop(1, 1000, 0, came(at, "b", one, "dropped flood", holds=True)),
             came(at + last, "b", "request 2 1 1/1 9", "in", holds=True)),
        case("strangers take nothing of it, and questions of members neither",
             met(now=at), loop(1, 64, 0, came(at, "x", "request 9 1 1/1 1", "in", holds=True)), came(at, "x", "request 9 1 1/1 1", "dropped flood", holds=True),
             loop(1, 600, 0, came(at, "b", "ask-pages 2", "in")), loop(1, 256, 0, came(at, "b", one, "in", holds=True)),
             came(at, "b", "request 2 1 1/1 9", "dropped flood", holds=True), came(at, "b", "ask-pages 2", "in")),
    ]


def firm() -> List[Dict[str, Any]]:
    """The name 2 1/1 2 at a member of number 1 is firm when its turn is 0 of those that there are then."""
    copy, miss = line(2, 2), "request 3 2 1/1 2"
    members = [sent(0), loop(2, 32, 0, came(0, "o{}", report("{}", "1@0+0"), "in"))]
    return [
        case("beside two others a name is firm for 2 s in each 10 s",
             met(2, "b"), met(3, "c"), came(0, "b", copy, "dropped again", holds=True), came(2 * S - 1, "c", copy, "dropped again", holds=True),
             came(2 * S, "c", copy, "in", holds=True), came(10 * S - 1, "b", copy, "in", holds=True), came(10 * S, "b", copy, "dropped again", holds=True),
             came(12 * S - 1, "b", copy, "dropped again", holds=True), came(12 * S, "b", copy, "in", holds=True)),
        case("and so are requests for it, while it is not held",
             met(2, "b"), met(3, "c"), came(0, "c", miss, "dropped again"), came(2 * S - 1, "b", miss, "dropped again"), came(2 * S, "b", miss, "in"),
             came(10 * S - 1, "c", miss, "in"), came(10 * S, "c", miss, "dropped again"), came(12 * S, "c", miss, "in")),
        case("a request for what is held is none that is hushed", met(2, "b"), met(3, "c"), came(0, "c", miss, "in", holds=True)),
        case("a drawop that is not held is taken, firm or not", met(2, "b"), met(3, "c"), came(0, "b", copy, "in")),
        case("each name has turns of its own",
             met(2, "b"), met(3, "c"), came(0, "b", line(2, 3), "in", holds=True), came(8 * S, "b", line(2, 3), "dropped again", holds=True),
             came(9 * S, "b", line(3, 2), "dropped again", holds=True), came(9 * S, "b", line(3, 3), "in", holds=True),
             came(9 * S, "b", line(2, 3, WALL, "7/9"), "dropped again", holds=True)),
        case("beside one other every name is always firm",
             met(), loop(1, 30, S, came(S, "b", line(2, "{}"), "dropped again", holds=True)), loop(1, 30, S, came(40 * S, "b", "request 2 9 1/1 {}", "dropped again"))),
        case("who has not answered makes no turn",
             met(), loop(1001, 1100, 0, came(0, "x{}", report("{}"), "in")), loop(1, 20, S, came(S, "b", copy, "dropped again", holds=True))),
        case("who was silent for 192 s makes none either",
             met(2, "b"), met(3, "c"), came(S, "b", report(2), "in"), came(PATIENCE, "b", copy, "in", holds=True),
             came(PATIENCE + 1, "b", copy, "dropped again", holds=True)),
        case("beside 31 others there are 121 turns",
             members, came(0, "o2", line(2, 118), "dropped again", holds=True), came(0, "o2", line(2, 122), "in", holds=True)),
        case("beside 32 and more there are 125",
             members, came(0, "o33", report(33, "1@0+0"), "in"), came(0, "o2", line(2, 122), "dropped again", holds=True),
             came(0, "o2", line(2, 118), "in", holds=True), loop(34, 99, 0, came(0, "o{}", report("{}", "1@0+0"), "in")),
             came(0, "o2", line(2, 122), "dropped again", holds=True), came(2 * S, "o2", line(2, 122), "in", holds=True)),
    ]


def cells() -> List[Dict[str, Any]]:
    return [
        case("one cell in 32 is kept for deletes and restores",
             met(), came(S, "b", line(2), "in", held=3967), came(S, "b", line(2), "dropped full, warn full", held=3968),
             came(S, "b", "draw 2 1/1 2 %d frame 0 0 4 0 *" % WALL, "dropped full, warn full", held=3968),
             came(S, "b", 'draw 2 1/1 2 %d text 0 0 "delete"' % WALL, "dropped full, warn full", held=3968), came(S, "b", delete(2), "in", held=4095),
             came(S, "b", "draw 2 1/1 2 %d restore 7 77" % WALL, "in", held=4095), came(S, "x", delete(9), "dropped full, warn full", held=3968),
             came(S, "x", line(9), "in", held=3967)),
        case("small boards keep less", met(), came(S, "b", line(2), "in", held=61), came(S, "b", line(2), "dropped full, warn full", held=62), cells=64),
        case("boards of less than 32 cells keep none", met(), came(S, "b", line(2), "in", held=30), came(S, "b", line(2), "dropped full, warn full", held=31), cells=31),
        case("of small boards one stranger may have 16 cells",
             loop(1, 16, 0, came(0, "x", line(9, "{}"), "in", top=4096)), came(0, "x", line(9, 17), "dropped share, warn share"),
             came(0, "y", line(9, 17), "dropped share, warn share"), ask(0, 16, strange=True), cells=64),
        case("of great boards one stranger may have one cell in 128",
             loop(1, 511, 0, came(0, "x", line(9, "{}"), "in", top=4096)), came(0, "x", line(9, 512), "dropped share, warn share"),
             came(0, "y", line(9, 512), "in", top=4096), cells=65_535),
        case("and all of them one in 16",
             loop(1, 511, 0, came(0, "a", line(9, "{}"), "in", top=4096)), loop(512, 1022, 0, came(0, "b", line(9, "{}"), "in", top=4096)),
             loop(1023, 1533, 0, came(0, "c", line(9, "{}"), "in", top=4096)), loop(1534, 2044, 0, came(0, "d", line(9, "{}"), "in", top=4096)),
             loop(2045, 2555, 0, came(0, "e", line(9, "{}"), "in", top=4096)), loop(2556, 3066, 0, came(0, "f", line(9, "{}"), "in", top=4096)),
             loop(3067, 3577, 0, came(0, "g", line(9, "{}"), "in", top=4096)), loop(3578, 4088, 0, came(0, "h", line(9, "{}"), "in", top=4096)),
             loop(4089, 4095, 0, came(0, "i", line(9, "{}"), "in", top=4096)), came(0, "i", line(9, 4096), "dropped share, warn share"),
             ask(0, 4095, strange=True), cells=65_535),
        case("a share that was told", loop(1, 5, 0, came(0, "x", line(9, "{}"), "in", top=4096)), came(0, "x", line(9, 6), "dropped share, warn share"), strangers=5),
        case("an answer gives the share back",
             loop(1, 16, 0, came(0, "x", line(9, "{}"), "in", top=4096)), met(9, "x"), ask(0, 0, strange=True), loop(1, 16, 0, came(0, "y", line(8, "{}"), "in", top=4096)),
             came(0, "z", line(7), "dropped share, warn share"), cells=64),
        case("who was a member begins with nothing of its share used",
             loop(1, 16, 0, came(0, "x", line(9, "{}"), "in", top=4096)), met(9, "x"), {"now": S, "gone": "x"},
             loop(1, 16, 0, came(S, "x", line(8, "{}"), "in", top=4096)), came(S, "x", line(8, 17), "dropped share, warn share"), cells=64),
        case("what the record has of strangers counts",
             loop(1, 16, 0, {"now": 0, "record": "9 1/1 {}"}), came(0, "x", line(9, 17), "dropped share, warn share"), cells=64),
        case("what strangers drew is on 16 pages at most",
             loop(1, 16, 0, came(0, "x{}", line(9, 1, WALL, "5/{}"), "in")), came(0, "y", line(9, 1, WALL, "5/17"), "dropped pages"),
             came(0, "y", line(9, 2, WALL, "5/16"), "in", top=1), met(), came(S, "b", line(9, 1, WALL, "5/17"), "in"), came(S, "y", line(9, 2, WALL, "5/17"), "dropped pages"),
             met(7, "x3", S), came(S, "y", line(9, 2, WALL, "5/17"), "in", top=1), came(S, "y", line(9, 2, WALL, "5/18"), "dropped pages")),
        case("and of 256 sources, summed over the pages",
             loop(1, 255, 0, came(0, "x{}", line("{}7"), "in")), came(0, "y", line(17, 1, WALL, "5/2"), "in"), came(0, "y", line(5000), "dropped pages"),
             came(0, "y", line(27, 1, WALL, "5/2"), "dropped pages"), came(0, "y", line(27, 2), "in", top=1), came(0, "y", delete(5000), "dropped pages"),
             met(2, "x5"), came(S, "y", line(5000), "in"), came(S, "y", line(5001), "dropped pages"), cells=65_535),
        case("a stranger's drawop is the next of its source at most",
             came(0, "x", line(9), "in"), came(0, "x", line(8, 2), "dropped holes"), came(0, "x", line(8, 2**32 - 1), "dropped holes"),
             came(0, "x", line(9, 2), "in", top=1), came(0, "x", delete(9, 4), "dropped holes", top=2), came(0, "x", line(9, 3), "in", top=128),
             met(), came(S, "b", line(9, 2**32 - 1), "in"), came(S, "b", line(8, 1000, WALL, "5/1"), "in")),
        case("or up to a mark that a member told",
             met(), came(S, "x", line(9, 700), "dropped holes"), came(S, "x", report(9, "9=700"), "in"), came(S, "x", line(9, 700), "dropped holes"),
             came(S, "b", report(2, "9=700"), "in"), came(S, "x", line(9, 700), "in"), came(S, "x", line(9, 650), "in"), came(S, "x", line(9, 701), "dropped holes"),
             came(S, "x", line(9, 700, WALL, "1/2"), "dropped holes"), came(S, "x", line(8, 700), "dropped holes"),
             came(S, "b", "page-state 2 1/2 9=800", "in"), came(S, "x", line(9, 800, WALL, "1/2"), "in"),
             came(S, "b", report(2, "9=300"), "in"), came(S, "x", line(9, 699), "in")),
        case("also of the report by which it becomes a member",
             sent(0), came(0, "b", report(2, "9=700", "1@0+0"), "in"), came(0, "x", line(9, 700), "in"), came(0, "x", line(9, 701), "dropped holes")),
        case("1,024 such marks are remembered, without those below others",
             met(), came(S, "b", report(2, "9=700"), "in"), loop(1, 1_023, 0, came(S, "b", report(2, "77{}=500"), "in")), came(S, "b", report(2, "9=699"), "in"),
             came(S, "x", line(9, 700), "in"), came(S, "b", report(2, "9=701"), "in"), came(S, "x", line(771, 500), "in"),
             came(S, "b", report(2, "9=702"), "in"), came(S, "x", line(771, 501), "dropped holes"), came(S, "x", line(771, 499), "dropped holes"),
             came(S, "x", line(772, 500), "in"), came(S, "x", line(9, 702), "in")),
        case("a drawop over the share is told as that", loop(1, 16, 0, came(0, "x", line(9, 1, WALL, "5/{}"), "in")),
             came(0, "x", line(9, 1, WALL, "5/17"), "dropped share, warn share"), cells=64),
        case("pages that the record has of strangers count",
             loop(1, 17, 0, {"now": 0, "record": "9 5/{} 1"}), came(0, "x", line(9, 2, WALL, "5/17"), "in", top=1), came(0, "x", line(9, 1, WALL, "5/18"), "dropped pages")),
        case("deletes of strangers count", loop(1, 16, 0, came(0, "x", delete(9, "{}"), "in", top=4096)), came(0, "x", delete(9, 17), "dropped share, warn share"), cells=64),
    ]


def adding() -> List[Dict[str, Any]]:
    return [
        case("what we draw", ask(0, "ok", add="drawing", held=3967), ask(0, "full", add="drawing", held=3968), ask(0, "ok", add="delete", held=4095)),
        case("the own echo lasts for 256 s",
             ask(0, "none", echo=True), came(S, "x", "session-message 1 77 1/1", "dropped own"), ask(S + FRESH, "1@77+%d" % FRESH, echo=True),
             ask(S + FRESH + 1, "none", echo=True), came(S + FRESH + 1, "x", "session-message 1 18446744073709551615 1/1", "dropped own"),
             ask(S + FRESH + 1, "1@18446744073709551615+0", echo=True)),
    ]
