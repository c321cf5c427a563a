"""Ink by two readers, that of live/ and that of the page: the vectors, and texts and boards at random, on which both have to agree.
`WB_INKS=1000000 pytest tests/live/test_ink.py` has them read so many texts."""
from __future__ import annotations

import json
import os
import random
import shutil
import subprocess
from typing import Any, Dict, List

import pytest

from live import ink
from live.views import Drawop
from ..facts import Facts
from .hosts import AtHost
from .members import TOP

NODE = shutil.which("node")
VECTORS = TOP / "docs" / "vectors" / "ink.json"
PAGE = TOP / "tests" / "ui" / "ink.mjs"

# texts and boards at random in a run of the tests, and texts that one program of node is given
TEXTS, BOARDS, AT_ONCE = 6_000, 300, 50_000

LONGEST = 600

ALL = "".join(map(chr, range(32, 127)))


def told(found: Any) -> Any:
    """An ink as the vectors tell it."""
    if found is None:
        return None
    return {"kind": found.kind, "colour": found.colour, "width": found.width, "flag": found.flag, "goesOn": found.goes_on,
            "points": told_points(found.points), "letters": found.letters}


def told_points(points: Any) -> List[Dict[str, Any]]:
    return [{"x": point.x, "y": point.y, **({"lift": True} if point.is_lifted else {}), **({} if point.pressure is None else {"pressure": point.pressure})}
            for point in points]


def told_items(drawops: List[Dict[str, Any]]) -> List[Dict[str, Any]]:
    """The items of drawops, which come in any order."""
    shown = [Drawop('draw %d 7/1 %d %d text 0 %d "%s"' % (
        each["source"], each["number"], each["time"], each["row"], each["text"].replace("\\", "\\\\").replace('"', '\\"'))) for each in drawops]
    return [{"source": item.key[1], "number": item.key[2], "inks": item.many, "points": told_points(item.points), "letters": item.letters}
            for item in ink.items_of(shown)]


# ---- what is at random


def mutated(chance: random.Random, text: str) -> str:
    """A text with some signs others, more, fewer or elsewhere."""
    signs = list(text)
    for _ in range(chance.randrange(1, 4)):
        at = chance.randrange(len(signs) + 1)
        what = chance.randrange(5)
        if what == 0:
            signs.insert(at, chance.choice(ALL))
        elif what == 1:
            del signs[at:at + chance.randrange(1, 4)]
        elif what == 2:
            signs[at:at + 1] = chance.choice(ALL)
        elif what == 3:
            signs[at:at] = chance.sample(signs, min(len(signs), chance.randrange(6)))
        else:
            signs += chance.choices(ALL, k=chance.randrange(60))
    return "".join(signs)[:64]


def any_text(chance: random.Random) -> str:
    """Signs alone, of 1 to 64, of which many begin as ink does."""
    signs = chance.choices(ink.SIGNS if chance.randrange(4) else ALL, k=chance.randrange(1, 65))
    if chance.randrange(8):
        signs[:4] = "~" + chance.choice("shvlrodntkx") + chance.choice(ink.SIGNS) + chance.choice("01234567abcdefghi")
        signs[4:5] = signs[7:8] = "!"
    return "".join(signs)[:64]


def texts_at_random(chance: random.Random, known: List[str], many: int) -> List[str]:
    lengths = [chance.choice(ALL) * length for length in range(1, 65)] + ["~" * length for length in range(1, 65)]
    return lengths + [mutated(chance, chance.choice(known)) if chance.randrange(2) else any_text(chance) for _ in range(many)]


def board_at_random(chance: random.Random, known: List[str]) -> List[Dict[str, Any]]:
    """What three sources drew, with gaps, in any order of coming. Most go on in some way."""
    base = chance.sample(known, 3)
    drawops = []
    for source in (7, 8, 9):
        for number in range(1, chance.randrange(2, 30)):
            if chance.randrange(6):
                text = chance.choice(base)
                going = text[:3] + "abcdefgh"["01234567abcdefgh".index(text[3]) % 8] + text[4:]
                drawops.append({"source": source, "number": number, "time": chance.randrange(1, 50), "row": chance.choice((3999, 4000, 4000, 4000, 4095)),
                                "text": going if chance.randrange(3) else text})
    chance.shuffle(drawops)
    return drawops


# ---- the tests


def check_vectors(facts: Facts, vectors: Dict[str, Any]) -> None:
    for each in vectors["reads"]:
        facts("ink: " + each["what"], told(ink.read(each["text"])), each["ink"])
    for each in vectors["plain"]:
        facts("no ink: " + each["what"], ink.read(each["text"]), None)
    for each in vectors["items"]:
        facts("items: " + each["what"], told_items(each["drawops"]), each["items"])
    facts("no text of the board", [ink.read(text) for text in ("", "~", "~s$1!hV#H\u00e4", "~s$1!hV#HJ\n", "~t$1!hV#HJ" + "a" * 55)], [None] * 5)


def test_orders(facts: Facts) -> None:
    """A stroke of three texts of which the middle one is deleted and restored, a note that another member goes on from in vain, and a gap:
    what a page shows makes the same items in any order of coming."""
    draw = "draw %d 7/1 %d %d text 0 4000 \"%s\""
    stroke = ("~sH1!,s!XBYYYE", "~sHb!->!XBYYYE", "~sHb!-f!XBYYYE")
    lines = [draw % (7, number, 10 * number, text) for number, text in enumerate(stroke, 1)]
    lines += [draw % (8, 1, 15, "~n?1!({!/&!6s!5Vone "), draw % (9, 2, 16, "~t?a!({!/&two"), draw % (8, 3, 40, "~t?a!({!/&three"), draw % (8, 4, 41, "~t?a!({!/& four")]
    hidden = [*lines, "draw 9 7/1 3 50 delete 7 2"]
    chance = random.Random(4)
    facts("an item has at most 255 inks, and ends at a number", [item["inks"] for item in told_items(long_board(600))], [255, 128, 128, 89])
    facts("which numbers begin one", [[item["inks"] for item in told_items(long_board(last)[first:])] for first, last in ((127, 257), (127, 256), (128, 384))], [[128, 2], [128, 1], [255, 1]])
    for held, wanted in ((lines, [(7, 1, 3, ""), (8, 1, 1, "one "), (9, 2, 1, "two"), (8, 3, 2, "three four")]),
                         (hidden, [(7, 1, 1, ""), (8, 1, 1, "one "), (9, 2, 1, "two"), (7, 3, 1, ""), (8, 3, 2, "three four")]),
                         ([*hidden, "draw 9 7/1 4 51 restore 7 2"], [(7, 1, 3, ""), (8, 1, 1, "one "), (9, 2, 1, "two"), (8, 3, 2, "three four")])):
        for _ in range(20):
            at = AtHost(*chance.sample(held, len(held)))
            at.end()
            facts("items in any order of coming", [(item.key[1], item.key[2], item.many, item.letters) for item in ink.items_of(at.showing.shown)], wanted)


def long_board(many: int) -> List[Dict[str, Any]]:
    """A stroke of several texts."""
    return [{"source": 7, "number": number, "time": number, "row": 4000, "text": "~sHb!->!XBYYYE"} for number in range(1, many + 1)]


def page_reads(node: str, texts: List[str], boards: List[List[Dict[str, Any]]]) -> Dict[str, Any]:
    given = json.dumps({"texts": texts, "boards": boards})
    done = subprocess.run([node, str(PAGE), str(VECTORS), "read"], input=given, capture_output=True, text=True, timeout=LONGEST, check=True)
    read: Dict[str, Any] = json.loads(done.stdout)
    return read


def check_agreement(facts: Facts, node: str, known: List[str], many: int) -> None:
    """Both readers on the same texts, and on the same boards."""
    chance = random.Random(71)
    texts = texts_at_random(chance, known, many)
    boards = [long_board(600), *(board_at_random(chance, known) for _ in range(BOARDS))]
    different, reads = [], 0
    for at in range(0, len(texts), AT_ONCE):
        some = texts[at:at + AT_ONCE]
        for text, page in zip(some, page_reads(node, some, [])["texts"]):
            here = told(ink.read(text))
            reads += here is not None
            if here != page:
                different.append((text, here, page))
    facts("both readers agree on %d texts" % len(texts), different[:5], [])
    facts.holds("of which many are ink", reads > len(texts) // 10, reads)
    found = [told_items(board) for board in boards]
    facts("both make the same items", [pair for pair in zip(found, page_reads(node, [], boards)["boards"]) if pair[0] != pair[1]][:2], [])
    several = sum(item["inks"] > 1 for items in found for item in items)
    facts.holds("of which many have several inks", several > BOARDS, several)


def check_page(facts: Facts, node: str) -> None:
    """What the page alone does: writing, fitting, moving, items as they change."""
    done = subprocess.run([node, str(PAGE), str(VECTORS)], capture_output=True, text=True, timeout=LONGEST, check=False)
    facts("the page's ink: its tests end", (done.returncode, done.stderr), (0, ""))
    if done.returncode == 0:
        found = json.loads(done.stdout)
        facts("the page's ink: %d facts" % found["checked"], found["wrong"], [])


def test_texts_of_the_vectors(facts: Facts) -> None:
    check_vectors(facts, json.loads(VECTORS.read_text()))


@pytest.mark.skipif(not NODE, reason="there is no node (apt-get install nodejs)")
def test_page(facts: Facts) -> None:
    check_page(facts, str(NODE))


@pytest.mark.skipif(not NODE, reason="there is no node (apt-get install nodejs)")
def test_agreement(facts: Facts) -> None:
    known = [each["text"] for each in json.loads(VECTORS.read_text())["reads"]]
    check_agreement(facts, str(NODE), known, int(os.environ.get("WB_INKS", TEXTS)))
