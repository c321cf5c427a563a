"""What was tried against members, and mishaps: what the judgement answers to each."""

from __future__ import annotations

from typing import Any, Dict, List

from .steps import S, WALL, ask, came, case, delete, line, loop, met, report, sent

STORM = 10_000 * S  # a moment long after the others


def cases() -> List[Dict[str, Any]]:
    return [*times(), *strangers(), *twins(), *names(), *floods(), *pages()]


def times() -> List[Dict[str, Any]]:
    hour = 3_600 * S
    return [
        case("time is moved by nobody",
             met(2, "b"), met(3, "c"),
             came(S, "x", line(2, 9, WALL + 86_000 * S), "dropped speaks"),
             came(S, "c", line(2, 9, WALL + 86_000 * S), "in"),
             came(S, "c", line(3, 9, WALL + 86_000 * S), "in"),
             ask(S, WALL + S, time=True),
             came(2 * S, "x", line(9, 1, WALL + 86_000 * S), "dropped ahead"),
             ask(2 * S, WALL + 2 * S, time=True)),
        case("a late clock sees what members draw",
             {"now": 0, "wall": WALL - 23 * hour}, met(),
             came(S, "b", line(2, 1, WALL), "in"),
             {"now": 2 * S, "wall": WALL - 30 * hour},
             came(2 * S, "b", line(2, 2, WALL), "dropped ahead"),
             {"now": 3 * S, "wall": WALL},
             came(3 * S, "b", line(2, 2, WALL), "in")),
    ]


def strangers() -> List[Dict[str, Any]]:
    return [
        case("a stream is taken of members alone",
             came(0, "x", report(9, "9=4096"), "in", lacking=4096),
             met(),
             came(S, "x", report(2, "2=4096"), "dropped speaks", lacking=4096),
             came(S, "b", report(2, "2=4096"), "in, fetch b 4096", lacking=4096)),
        case("a stranger is not vouched for",
             met(),
             came(S, "x", line(900, 1), "in"),
             came(S, "b", report(2, "900=1"), "in"),
             came(S, "b", "page-state 2 1/1 900=1", "in"),
             loop(2, 32, 1, came(2 * S, "x", line(900, "{}"), "in", top=4096)),
             loop(33, 40, 1, came(3 * S, "x", line(900, "{}"), "dropped share, warn share"))),
        case("a stranger's great number has nobody ask for those below",
             met(), came(S, "x", line(900, 2**32 - 1), "dropped holes"), came(S, "x", report(900, "900=4294967295"), "in"), came(S, "x", line(900, 2**32 - 1), "dropped holes"),
             came(S, "x", line(900, 2), "dropped holes"), came(S, "x", line(900), "in"), came(S, "x", line(900, 3), "dropped holes", top=1), came(S, "b", line(900, 1000), "in", top=1)),
        case("strangers together have their share",
             met(), loop(1, 256, 1, came(S, "x{}", line("{}77"), "in")),
             came(2 * S, "y", line(900), "dropped share, warn share"),
             came(2 * S, "b", line(2), "in")),
        case("two members alone",
             loop(1, 32, 1, came(0, "b", line(2, "{}"), "in", top=4096)),
             loop(33, 40, 1, came(S, "b", line(2, "{}"), "dropped share, warn share")),
             met(now=2 * S), ask(2 * S, 0, strange=True),
             loop(33, 3000, 1, came(3 * S, "b", line(2, "{}"), "in", top=4096))),
        case("who has left is no stranger",
             met(), loop(101, 1000, 1, came(S, "b", line("{}"), "in")), ask(2 * S, 0, strange=True)),
        case("a replay fills no board of a key",
             met(), came(S, "x", line(44), "dropped share"), came(S, "b", line(2), "in"), strangers=0),
        case("a replayed answer brings nothing where the origin is a tag",
             met(2, "tag2"), came(S, "tag2", report(2, "1@0+0"), "in"), came(S, "tag9", line(44), "dropped share"), strangers=0),
    ]


def twins() -> List[Dict[str, Any]]:
    return [
        case("a replay is no twin",
             sent(S), sent(2 * S), met(now=3 * S),
             came(4 * S, "x", "session-message 1 %d 1/1" % S, "dropped own"),
             came(4 * S, "b", "session-message 1 %d 1/1" % S, "dropped own"), ask(4 * S, "none", echo=True),
             came(5 * S, "x", "session-message 1 77 1/1 2@5+1", "dropped own"),
             came(5 * S, "x", "session-message 1 77 1/1 1@55+1", "dropped own"),
             ask(5 * S, "1@77+0", echo=True), ask(6 * S, "1@77+%d" % S, echo=True),
             came(6 * S, "x", "session-message 1 %d 1/1 1@77+1" % (3 * S), "dropped own"),
             ask(6 * S, "ok", add="drawing")),
        case("twins see each other",
             came(S, "x", "session-message 1 77 1/1", "dropped own"), sent(2 * S), ask(2 * S, "1@77+%d" % S, echo=True),
             came(3 * S, "x", "session-message 1 78 1/1 1@%d+500" % (2 * S), "dropped own, warn twin"),
             ask(3 * S, "twin", add="drawing"), ask(3 * S, "twin", add="delete"),
             came(4 * S, "x", "session-message 1 79 1/1 1@%d+500" % (2 * S), "dropped own"),
             ask(2_000 * S, "twin", add="drawing")),
        case("twins see each other beside noise",
             came(S, "x", "session-message 1 77 1/1", "dropped own"), loop(1, 50, 1, came(S, "n", "session-message 1 9{} 1/1", "dropped own")),
             sent(2 * S), ask(2 * S, "1@77+%d" % S, echo=True), ask(2 * S + 1, "1@950+%d" % (S - 48), echo=True),
             came(3 * S, "x", "session-message 1 78 1/1 1@%d+500" % (2 * S), "dropped own, warn twin")),
        case("a ninth origin under our number pushes out no other",
             loop(1, 8, 0, came(S, "x{}", "session-message 1 7{} 1/1", "dropped own")), came(S, "y", "session-message 1 99 1/1", "dropped own"),
             [ask(2 * S + turn, "1@7%d+%d" % (turn + 1, S + turn), echo=True) for turn in range(8)],
             came(257 * S + 1, "y", "session-message 1 99 1/1", "dropped own"), ask(257 * S + 1, "1@99+0", echo=True)),
        case("an old echo shows no twin",
             sent(S), came(257 * S + 1, "x", "session-message 1 78 1/1 1@%d+0" % S, "dropped own"), ask(257 * S + 1, "ok", add="drawing"),
             came(257 * S + 1, "x", "session-message 1 78 1/1 1@%d+%d" % (S, 256 * S + 2), "dropped own")),
        case("a liar stops nobody by drawops",
             met(66, "eve"),
             came(S, "eve", line(1, 2), "dropped own", above=True), came(S, "x", line(1, 12), "dropped own", above=True),
             came(S, "eve", line(1, 2**31), "dropped own"), came(S, "eve", line(1, 2**32 - 1), "dropped own", above=True), ask(S, "ok", add="drawing")),
        case("what a crash lost of ours comes back of a member, once we listen no more",
             came(S, "x", report(2, "1=65538"), "in", listens=True, top=2), met(now=S), came(S, "b", line(1, 3), "dropped own", listens=True),
             came(9 * S, "x", line(1, 3), "dropped own"), came(9 * S, "b", line(1, 3), "in"), came(9 * S, "b", line(1, 65_539), "dropped own", above=True)),
    ]


def names() -> List[Dict[str, Any]]:
    return [
        case("names at a broker",
             sent(0), came(0, "kept/bob", report(2, "1@0+0"), "in"),
             came(S, "kept/mallory", report(1, "1=9"), "dropped speaks, warn speaks 1"),
             came(S, "kept/mallory", report(2), "dropped speaks, warn speaks 2"),
             came(S, "kept/mallory", "page-state 2 1/1 1=1", "dropped speaks, warn speaks 2"),
             came(S, "kept/mallory", "request 2 1 1/1 1", "dropped speaks, warn speaks 2", holds=True),
             came(S, "kept/mallory", "ask-pages 2", "dropped speaks, warn speaks 2"),
             came(S, "kept/mallory", report(2, "1@0+0"), "dropped speaks, warn speaks 2"),
             came(S, "kept/mallory", report(3, "1@0+0"), "in"),
             came(S, "kept/bob", report(2), "in"), came(S, "kept/mallory", line(2), "in"),
             came(S, "kept/anna", "session-message 1 77 1/1 1@0+0", "dropped own, warn twin"), here="anna"),
        case("whoever claims a number at a broker keeps it from nobody",
             loop(1, 5, S, came(0, "kept/mallory", report(2), "in")), came(5 * S, "kept/bob", report(2), "in"), sent(5 * S),
             came(6 * S, "kept/mallory", report(2), "in"), came(7 * S, "kept/bob", report(2, "1@%d+0" % (5 * S)), "in"),
             came(8 * S, "kept/mallory", report(2), "dropped speaks, warn speaks 2"),
             came(8 * S, "kept/mallory", report(2, "1@%d+0" % (5 * S)), "dropped speaks, warn speaks 2"), came(9 * S, "kept/bob", line(2), "in"), here="anna"),
        case("an owner that the record names is not forgotten over a start",
             {"now": 0, "owner": 2, "from": "kept/bob"}, sent(0),
             came(S, "kept/mallory", report(2, "1@0+0"), "dropped speaks, warn speaks 2"), came(S, "kept/mallory", report(2), "dropped speaks, warn speaks 2"),
             came(2 * S, "kept/bob/t2", report(2, "1@0+0"), "in"), came(3 * S, "kept/mallory", report(2, "1@0+0"), "dropped speaks, warn speaks 2"), here="anna"),
        case("an owner that was silent keeps its number, also while it claims that from elsewhere",
             sent(0), came(0, "kept/bob", report(2, "1@0+0"), "in"), came(300 * S, "kept/bob/t2", report(2), "dropped speaks"), sent(300 * S),
             came(301 * S, "kept/mallory", report(2, "1@%d+0" % (300 * S)), "dropped speaks, warn speaks 2"),
             came(302 * S, "kept/bob/t2", report(2, "1@%d+0" % (300 * S)), "in"), came(303 * S, "kept/bob", report(2), "dropped speaks"), here="anna"),
        case("whoever answers keeps a number against what the record says later, and who only claims it does not",
             sent(0), came(0, "kept/bob", report(2, "1@0+0"), "in"), came(0, "kept/mallory", report(3), "in"),
             {"now": S, "owner": 2, "from": "kept/mallory"}, {"now": S, "owner": 3, "from": "kept/bob"}, {"now": S, "owner": 3, "from": "kept/mallory"},
             came(2 * S, "kept/mallory", report(2), "dropped speaks, warn speaks 2"), came(2 * S, "kept/mallory", report(3), "dropped speaks, warn speaks 3"),
             came(2 * S, "kept/bob", report(2), "in"), came(2 * S, "kept/bob", report(3, "1@0+0"), "in"), here="anna"),
        case("a record gives nobody our number, and of too many owners the first goes",
             {"now": 0, "owner": 1, "from": "kept/mallory"}, ask(0, False, heard=1), loop(10, 1_034, 0, {"now": 0, "owner": "{}", "from": "kept/n{}"}),
             ask(0, False, heard=10), ask(0, True, heard=11), ask(0, True, heard=1_034), sent(0),
             came(S, "kept/mallory", report(11, "1@0+0"), "dropped speaks, warn speaks 11"), here="anna"),
        case("no drawing is dropped at a broker since another owner answered under its number",
             sent(0), came(S, "kept/mallory", report(2, "1@0+0"), "in"), came(S, "kept/bob", report(2, "1@0+0"), "dropped speaks, warn speaks 2"),
             came(S, "kept/bob", line(2), "in"), met(3, "kept/carol", S), came(2 * S, "kept/carol", line(2, 2), "in"),
             met(4, "x", 2 * S), came(2 * S, "y", line(4), "dropped speaks"), here="anna"),
        case("a name that has gone leaves its numbers",
             sent(0), came(0, "kept/bob", report(2, "1@0+0"), "in"), {"now": S, "gone": "kept/bob"}, ask(S, False, known="kept/bob"),
             ask(S, False, heard=2), came(S, "kept/mallory", report(2), "in"), here="anna"),
        case("names and tags: another start of one name",
             sent(0), came(0, "kept/bob/t1", report(2, "1@0+0"), "in"), came(S, "kept/bob/t2", report(2), "dropped speaks"),
             came(S, "kept/bob/t2", report(2, "1@0+0"), "in"), came(S, "kept/eve/t3", report(2, "1@0+0"), "dropped speaks, warn speaks 2"),
             came(S, "kept/bob/t2", report(2), "in"), here="anna"),
        case("a network without names lets an answer take a number",
             met(), came(S, "x", report(2), "dropped speaks"), came(S, "x", report(2, "1@0+0"), "in"),
             came(2 * S, "b", report(2), "dropped speaks"), came(2 * S, "b", report(2, "1@0+1"), "in")),
        case("a number that was first heard of no owner's is an owner's once that answers",
             came(0, "x", report(2), "in"), sent(0), came(S, "kept/bob", report(2, "1@0+0"), "in"), came(S, "x", report(2), "dropped speaks"),
             here="anna"),
    ]


def floods() -> List[Dict[str, Any]]:
    return [
        case("a request storm",
             loop(1, 64, 0, came(STORM, "x", "request 9{} 1 1/1 1", "in", holds=True)),
             came(STORM, "x", "request 9 1 1/1 1", "dropped flood", holds=True), came(STORM, "y", "ask-pages 9", "dropped flood"),
             loop(1, 16, S // 16, came(STORM + S // 16, "x", "request 9{} 1 1/1 1", "in", holds=True)),
             came(STORM + S, "x", "request 9 1 1/1 1", "dropped flood", holds=True),
             met(now=STORM + S), loop(1, 200, 0, came(STORM + S, "b", "request 2 1 1/1 1", "in", holds=True)),
             came(STORM + S, "b", "ask-pages 2", "in")),
        case("requests of one member that floods leave half to others",
             met(2, "b", STORM), met(3, "c", STORM), loop(1, 256, 0, came(STORM, "b", "request 2 1 1/1 1", "in", holds=True)),
             loop(1, 100, 0, came(STORM, "b", "request 2 1 1/1 1", "dropped flood", holds=True)),
             came(STORM, "c", "request 3 1 1/1 1", "in", holds=True), came(STORM, "c", "request 3 1 1/1 1", "dropped flood", holds=True)),
        case("requests are not put off",
             met(), came(S, "x", "request 900 1 1/1 2", "dropped stranger"), loop(1, 50, 4_000, came(S, "b", "request 2 1 1/1 2", "dropped again"))),
        case("repairs are not hushed",
             met(), loop(1, 50, 4_000, came(S, "x", line(1), "dropped again", holds=True, top=1)),
             loop(1, 50, 4_000, came(2 * S, "b", line(1), "dropped again", holds=True, top=1))),
        case("three members hush a name but in its turns",
             met(2, "b"), met(3, "c"), loop(1, 400, 20_000, came(2 * S, "b", line(2, 2), "in", holds=True)), loop(1, 100, 20_000, came(10 * S, "b", line(2, 2), "dropped again", holds=True)),
             loop(1, 400, 20_000, came(12 * S, "c", "request 3 2 1/1 2", "in")), loop(1, 100, 20_000, came(20 * S, "c", "request 3 2 1/1 2", "dropped again"))),
        case("crowds",
             met(), loop(1001, 1256, 0, came(S, "x{}", report("{}"), "in")),
             came(S, "y", report(5000), "dropped crowd"), came(S, "b", report(2), "in")),
        case("a newcomer comes in beside one that names ever more numbers",
             loop(1001, 1128, 0, came(0, "x", report("{}"), "in")), loop(1129, 1300, 0, came(0, "x", report("{}"), "dropped crowd")),
             loop(1, 450, S, came(S, "x", report("9{}"), "in")),
             came(451 * S, "c", report(3), "in"), came(451 * S, "d", report(4), "in")),
        case("and beside a member that answers under ever more",
             sent(0), loop(1001, 1128, 0, came(0, "x", report("{}", "1@0+0"), "in")), loop(1129, 1300, 0, came(0, "x", report("{}", "1@0+0"), "dropped crowd")),
             came(0, "c", report(3, "1@0+0"), "in"), ask(0, True, known="c")),
        case("who answers finds room",
             loop(1001, 1256, 0, came(0, "x{}", report("{}"), "in")),
             came(0, "c", report(3), "dropped crowd"), sent(0), came(S // 2, "c", report(3), "dropped crowd"),
             came(S // 2, "c", report(3, "1@0+0"), "in"), came(S // 2, "b", report(1001, "1@0+0"), "in"), came(S // 2, "c", report(3), "in")),
    ]


def pages() -> List[Dict[str, Any]]:
    strange = [came(0, "x", "draw 900 0/%d 1 %d line 0 0 4 0 *" % (number, WALL), "in") for number in (1, 2, 3)]
    held = ["1 5/1 1", "2 6/1 1", "900 0/1 1", "900 0/2 1", "900 0/3 1"]
    return [
        case("pages are not pushed out",
             strange, ask(0, ["5/1", "6/1", "0/3", "0/2", "0/1"], pages=held),
             ask(0, ["0/2", "5/1", "7/1", "6/1", "0/3", "0/1"], pages=[*held, "2 7/1 1", "1 0/2 1", "900 7/1 2"])),
        case("pages of who becomes a member",
             strange, met(900, "x"), ask(0, ["5/1", "0/3", "0/2", "0/1", "6/1"], pages=held)),
        case("pages of a record",
             {"now": 0, "record": "900 0/1 1"}, ask(0, ["5/1", "0/3", "0/2", "6/1", "0/1"], pages=held)),
        case("strangers open few pages",
             met(), loop(1, 16, 1, came(S, "x{}", line(900, 1, WALL, "0/{}"), "in")), loop(17, 200, 1, came(S, "x{}", line(900, 1, WALL, "0/{}"), "dropped pages")),
             loop(1, 200, 1, came(2 * S, "b", line(2, 1, WALL, "2/{}"), "in")), ask(2 * S, 16, strange=True)),
        case("deletes of strangers", strange, came(0, "x", delete(900, 2), "in", top=1), ask(0, 4, strange=True)),
    ]
