"""Small runs of each shape, with counts that were worked out by hand.

All links have the same delay, which is the unit here. With the constants 2,2,1,1 a member at distance d that notices a loss asks
after 2d to 4d, and a holder at distance e from the asker repairs e to 2e after it heard the request.
"""

from __future__ import annotations

import json
import subprocess
import tempfile
import xml.etree.ElementTree as xml
from dataclasses import replace
from pathlib import Path

from laboratory.program import program
from laboratory.runs import Settings, run
from .checking import fault_of, is_within, must_be, one_loss

HERE = Path(__file__).resolve().parents[2] / "lab"


# A chain of four loses on its first link. The member behind it asks by 4, and is heard at distance 2 by 5. That one noticed at 1, and
# waits 4 at least; the last noticed at 2, and waits 6. So there is one request, and the source alone can repair: 1 or 2 after it
# heard, so at 4 to 7, and 3 later the last member has it, 5 to 8 after it noticed, a distance of 3.
def test_a_chain_asks_and_repairs_once() -> None:
    for seed in range(1, 5):
        row, result = one_loss(Settings(shape="chain", members=4, loss="link:0-1", seed=seed))
        must_be(row, 3, 1, 1)
        assert is_within(row.first_request, 1, 2) and is_within(row.last_repair, 5 / 6, 4 / 3), row
        assert result.totals["datagrams"] == {"drawop": 3, "request": 1}


# On its last link: the neighbour hears the request first, repairs by 3, and is heard by the member before it by 4, which waits until
# 4 at least, and by the source by 5, which waits until 6 at least.
def test_the_end_of_a_chain_is_repaired_by_its_neighbour() -> None:
    for seed in range(1, 5):
        row, _ = one_loss(Settings(shape="chain", members=4, loss="link:2-3", seed=seed))
        must_be(row, 1, 1, 1)
        assert is_within(row.first_request, 1, 2), row


# With the constants 16,1,16,1 the lead of the nearest is longer than what chance adds: a member at d asks by 17d and is heard by
# 17d + 1, and the next one waits until 1 + 16(d + 1). Likewise the nearest holder repairs by 1 + 17, and the next waits until 2 + 32.
def test_each_link_of_a_chain_takes_one_request_and_one_repair() -> None:
    for link in range(5):
        row, _ = one_loss(Settings(shape="chain", members=6, loss=f"link:{link}-{link + 1}", tuning="16,1,16,1"))
        must_be(row, 5 - link, 1, 1)


# A star of three, whose source's link loses: members 2 and 3 are 20,000 microseconds from everyone, notice at the same moment, and wait
# 40,000 and then their first random word by 40,001. The words of these boards, drawn from the generator by hand, give these waits;
# the later member hears the other in time where they are over 20,000 apart. The source repairs once: it is quiet when it hears the second.
def test_a_star_of_three_with_known_words() -> None:
    for seed, second, third, requests in ((1, 49_156, 41_600, 2), (4, 40_915, 63_617, 1), (8, 76_553, 47_336, 1), (12, 57_035, 50_235, 2)):
        row, _ = one_loss(Settings(shape="star", members=3, loss="link:0-1", seed=seed))
        must_be(row, 2, requests, 1)
        assert row.first_request == round(min(second, third) / 40_000, 6)


# A star of five loses on the link to member 5 alone. All others hold the drawop, hear the request at once, and wait 2 to 4; what one of
# them repairs takes 2 to the others, so it stops none.
def test_a_star_repairs_by_each_equidistant_holder() -> None:
    for seed in range(1, 4):
        row, _ = one_loss(Settings(shape="star", members=5, loss="link:0-5", seed=seed))
        must_be(row, 1, 1, 4)


# A tree of degree 3: node 0 above 1, 2 and 3, and two below each of these. The link 0-1 loses, so nodes 1, 4 and 5 lack it. Node 1 asks by 4
# and is heard below it by 5, where 1 + 4 is the least wait. The root repairs by 3, is heard at nodes 2 and 3 by 4, which wait until 4, and
# below them by 5, where the wait is until 6.
def test_a_tree_asks_and_repairs_once() -> None:
    for seed in range(1, 4):
        row, _ = one_loss(Settings(shape="tree", members=10, degree=3, loss="link:0-1", seed=seed))
        must_be(row, 3, 1, 1)


# Every tree of three nodes is a chain, with its source at an end or in the middle: whichever link loses, there is one request, and
# one repair by the holder that is nearest.
def test_a_random_tree_of_three_asks_and_repairs_once() -> None:
    for seed in range(1, 9):
        row, _ = one_loss(Settings(shape="random", members=3, loss="each", seed=seed))
        assert (row.requests, row.repairs) == (1, 1)


HARD = Settings(shape="random", members=6, nodes=20, draws=8, drawers=2, loss="share-all:0.1", session=5, late=1, leaving=1,
                distances="told", delay=(0.005, 0.03))


def test_the_same_seed_gives_the_same_output() -> None:
    texts = [json.dumps(run(replace(HARD, seed=seed), program()).as_json(), sort_keys=True) for seed in (3, 3, 4)]
    assert texts[0] == texts[1], "two runs of one seed differ"
    assert texts[0] != texts[2], "two seeds give the same run"


def test_who_comes_late_gets_all() -> None:
    """More than the 64 drawops that one look asks for; whoever is late lacks the first half."""
    result = run(Settings(members=3, draws=140, every=0.05, late=1, loss="none", session=2), program())
    assert {row.lost for row in result.rows} == {1} and len(result.rows) == 70, len(result.rows)
    assert all(row.requests >= 1 and row.repairs >= 1 for row in result.rows), "a drawop came without a request"


def test_a_burst_is_made_good() -> None:
    result = run(Settings(members=4, draws=12, every=0.5, loss="burst:2-4:0.7", session=1), program())
    assert len(result.rows) > 0 and result.totals["datagrams"]["session"] > 0, result.totals


def test_session_messages_alone_tell_of_a_last_drawop() -> None:
    """One drawop is lost, and nothing comes after it: without session messages nobody would know."""
    settings = Settings(shape="chain", members=3, draws=1, loss="link:0-1")
    result = run(replace(settings, session=2), program())
    assert len(result.rows) == 1 and result.rows[0].lost == 2, result.rows
    with tempfile.TemporaryDirectory() as place:
        assert "still lack" in fault_of(settings, Path(place)), "a loss that nobody noticed is no fault"


def test_a_member_who_gets_nothing_ends_the_run_with_its_record() -> None:
    """The record of each member is what its host was given: a host that is given it again answers to the end."""
    with tempfile.TemporaryDirectory() as place:
        words = ["--shape", "star", "--members", "3", "--draws", "4", "--deaf", "3", "--session", "2", "--until", "20", "--record", place]
        ended = subprocess.run([HERE / "wb-lab", *words], capture_output=True, text=True)
        assert ended.returncode == 1 and place in ended.stderr and not ended.stdout, ended
        files = sorted(Path(place).iterdir())
        assert [file.name for file in files] == [f"member-{n}.txt" for n in (1, 2, 3)]
        for file, heard in zip(files, (True, True, False)):
            given = subprocess.run([program(), "host"], input=file.read_bytes(), capture_output=True)
            assert given.returncode == 0 and b"refused" not in given.stdout, given.stdout[-200:]
            assert (b"datagram" in file.read_bytes()) == heard


def test_the_program_writes_its_files() -> None:
    with tempfile.TemporaryDirectory() as place:
        csv, data, svg = (Path(place) / name for name in ("losses.csv", "run.json", "plot.svg"))
        words = ["--shape", "chain", "--members", "3", "--draws", "4", "--csv", str(csv), "--json", str(data), "--svg", str(svg)]
        ended = subprocess.run([HERE / "wb-lab", *words], capture_output=True, text=True)
        assert ended.returncode == 0 and "2 losses" in ended.stdout, ended
        assert csv.read_text().splitlines()[0] == "source,number,lost,requests,repairs,first_request,last_repair,seconds"
        assert len(csv.read_text().splitlines()) == 3 and json.loads(data.read_text())["summary"]["losses"] == 2, "two losses"
        assert xml.parse(svg).getroot().tag.endswith("svg"), "no SVG"
