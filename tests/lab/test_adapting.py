"""Tests of constants that follow the session: the rules of each policy, and the lines with which a driver gives them to its host."""

from __future__ import annotations


import subprocess
import tempfile
from collections.abc import Sequence
from dataclasses import replace
from pathlib import Path
from unittest.mock import patch

from laboratory.adapting import FEW, HIGH, LOW, SLOW, Adapting, Adjusted, Policy, by_members
from laboratory.driving import Tuner
from laboratory.hosts import HostMember
from laboratory.level import AT_SOURCE, run_level
from laboratory.program import program
from laboratory.reading import Datagram, Name
from laboratory.runs import Settings, run
from .checking import sends_of

HERE = Path(__file__).resolve().parents[2] / "lab"


def test_constants_adapt_by_what_was_seen() -> None:
    """Nine requests in each round, the first after a round trip: the duplicates are 8, a quarter of each new one is taken in, so 2 and then
    3.5. Each round adds a tenth to the lead, which is at its greatest, and a half to the spread."""
    asking = Adjusted(40, 40)
    for number in range(1, 4):
        asking.begins((1, number), 1_000 * number, 100)
        for place in range(9):
            assert asking.round
            asking.round.sees(1_000 * number + 200 + place)
    assert (asking.duplicates / 1024, asking.wait / 1024, asking.lead, asking.spread) == (3.5, 0.4375, 40, 60)
    assert asking.whole() == (2, 3)


def test_constants_shrink_where_few_ask_late() -> None:
    """One request in each round, three round trips after the timer was set. The averages are 0 duplicates and 0.75, then 1.3125 trips: the
    lead loses a twentieth twice, and the spread a tenth from the second on."""
    asking = Adjusted(40, 40)
    for number in range(1, 4):
        asking.begins((1, number), 1_000 * number, 100)
        assert asking.round
        asking.round.sees(1_000 * number + 600)
    assert (asking.duplicates, asking.wait / 1024, asking.lead, asking.spread) == (0, 1.3125, 38, 38)


def test_who_asks_comes_to_ask_sooner() -> None:
    """Each request of its own takes a twentieth off the lead, down to 1; constants are whole, the nearest to what is kept."""
    policy = Adapting()
    for _ in range(9):
        policy.sees_request((1, 1), 0, True)
    assert policy.now(0) == (2, 2, 1, 1)
    for _ in range(30):
        policy.sees_request((1, 1), 0, True)
    assert policy.now(0) == (1, 2, 1, 1) and policy.asking.lead == 20, policy.asking
    assert [by_members(members) for members in (1, 10, 50, 500)] == [(2, 2, 1, 1), (2, 3, 1, 2), (2, 8, 1, 7), (2, 16, 1, 16)], "by members"


def test_bounds_of_the_adjustment() -> None:
    """Of twentieths: a duplicate in the mean lengthens both, nine tenths the lead; below a quarter the lead shrinks, and the spread if the wait is over a trip."""
    changes = {}
    for duplicates, wait in ((HIGH, 0), (HIGH - 1, 0), (LOW, 0), (LOW - 1, 0), (FEW, 0), (FEW - 1, 0), (FEW, SLOW), (FEW, SLOW + 1), (0, SLOW + 1)):
        asking = Adjusted(30, 60, duplicates, wait)
        asking.adjust()
        changes[duplicates, wait] = asking.lead - 30, asking.spread - 60
    assert changes == {(HIGH, 0): (2, 10), (HIGH - 1, 0): (1, 0), (LOW, 0): (1, 0), (LOW - 1, 0): (0, 0), (FEW, 0): (0, 0), (FEW - 1, 0): (-1, 0),
                       (FEW, SLOW): (0, 0), (FEW, SLOW + 1): (0, -2), (0, SLOW + 1): (-1, -2)}


def test_who_answers_comes_to_answer_sooner() -> None:
    """Each repair of its own takes a twentieth off the lead of answers, and nothing off that of requests."""
    policy = Adapting((2, 2, 2, 2))
    for is_own in (True, False, True):
        policy.sees_repair((1, 1), 0, is_own)
    assert (policy.answering.lead, policy.asking.lead) == (38, 40)


def test_what_adapts_at_one_distance_keeps_its_constants() -> None:
    """Of twelve members all but the source lack each drawop. Adapting ones ask less for the last twenty of sixty losses than for the first."""
    settings = Settings(members=12, delay=(0.02, 0.02), loss=AT_SOURCE, who="timers", adapt="published", draws=60)
    rows = [run_level(replace(settings, seed=seed), "").rows for seed in range(1, 5)]
    first, last = (sum(row.requests for each in rows for row in each[part]) for part in (slice(20), slice(40, None)))
    assert last < 0.8 * first


def test_timers_send_what_hosts_send() -> None:
    """The same seeds, with hosts and with timers that are reckoned here: each datagram the same, at the same microsecond."""
    for settings in (
        Settings(members=12, draws=8, loss="link:0-1,0-12", tuning="2,4,1,3"),
        Settings(shape="random", members=15, draws=12, delay=(0.005, 0.05), seed=3, tuning="1,2,3,4"),
        Settings(shape="domains", members=15, draws=12, delay=(0.005, 0.05), seed=5, tuning="2,2,1,1"),
        Settings(shape="tree", members=10, nodes=60, draws=12, loss="share:0.05", seed=7, tuning="2,16,1,16"),
        Settings(members=6, draws=24, every=0.5, loss="burst:1-8:0.4"),  # requests and repairs are lost, and said again
    ):
        hosts, timers = (sends_of(replace(settings, who=who)) for who in ("hosts", "timers"))
        assert hosts == timers and len(hosts) > settings.draws, next((pair for pair in zip(hosts, timers) if pair[0] != pair[1]), len(hosts))


def test_timers_that_adapt_send_what_hosts_send() -> None:
    """The same, with a `tuning` line for each change of the policy's constants: by the number of members, of whom some leave, and as
    published, also where requests and repairs are lost and said again."""
    for settings in (
        Settings(members=16, leaving=8, draws=40, loss="same"),
        Settings(members=12, draws=40, loss="link:0-1,0-12", tuning="2,4,1,3"),
        Settings(shape="random", members=17, draws=30, delay=(0.005, 0.05), seed=3, tuning="1,2,3,4", leaving=2),
        Settings(shape="tree", members=10, nodes=60, draws=30, loss="share:0.05", seed=7, tuning="2,16,1,16"),
        Settings(members=9, draws=48, every=0.5, loss="burst:1-20:0.4", leaving=2),
    ):
        fixed = sends_of(replace(settings, who="timers"))
        for adapt in ("members", "published"):
            hosts, timers = (sends_of(replace(settings, who=who, adapt=adapt)) for who in ("hosts", "timers"))
            assert hosts == timers
            assert hosts != fixed, "the constants changed nothing"


def lines_of(settings: Settings) -> list[list[str]]:
    """The record of each member of a run."""
    with tempfile.TemporaryDirectory() as place:
        run(settings, program(), Path(place))
        return [(Path(place) / f"member-{number}.txt").read_text().splitlines() for number in range(1, settings.members + 1)]


def verbs(lines: Sequence[str]) -> str:
    return " ".join(line.split()[0] for line in lines)


def test_a_tuning_line_is_given_where_the_group_changes() -> None:
    """Eight members, so 2,3,1,2, of whom the last goes at 3 s, so 2,2,1,1 from there on. The first draws at 1, 2, 3 and 4 s. The line stands
    before the first one of the time for which it is."""
    records = lines_of(Settings(members=8, leaving=1, draws=4, loss="none", adapt="members"))
    assert verbs(records[0]) == "board tuning tick say tick say tuning tick say tick say"
    assert verbs(records[1]) == "board tuning tick distance datagram tick datagram tuning tick datagram tick datagram"
    assert verbs(records[7]) == "board tuning tick distance datagram tick datagram"
    assert records[0][1::5] == ["tuning 2 3 1 2", "tuning 2 2 1 1"] and records[0][7] == "tick 3000000", records[0]


# Two members, and every other drawop is lost. The second asks for each. Its lead is 40 twentieths: a request takes one of them, and each
# round but the first another, since there are no duplicates. So the sixth request leaves 29, and the lead is 1 from there on. Its wait is at most
# 2 round trips, of whose average a quarter is new: over 1 from the third round on, so that the spread has 34 at least, which is 2. The
# first repairs with the least constants there are.
def test_a_tuning_line_is_given_behind_the_sixth_request() -> None:
    for seed in range(1, 4):
        source, other = lines_of(Settings(shape="chain", members=2, draws=12, loss="link:0-1", adapt="published", seed=seed))
        assert "tuning" not in verbs(source)
        assert verbs(other[-6:]) == "datagram look tick tuning tick datagram" and other[-3] == "tuning 1 2 1 1", other[-6:]
        assert verbs(other).count("tuning") == 1 and verbs(other).count("look") == 6, other


class Noting(Policy):
    """Notes what it sees."""

    def __init__(self) -> None:
        super().__init__((2, 2, 1, 1))
        self.notes: list[tuple[object, ...]] = []

    def begins_to_ask(self, name: Name, moment: int, delay: int) -> None:
        self.notes.append(("ask", name[1], moment, delay))

    def begins_to_answer(self, name: Name, moment: int, delay: int) -> None:
        self.notes.append(("answer", name[1], moment, delay))

    def sees_request(self, name: Name, moment: int, is_own: bool) -> None:
        self.notes.append(("request", name[1], moment, is_own))


def test_a_driver_knows_when_its_host_begins_to_ask_and_to_answer() -> None:
    """Member I is 100 times I away. Member 3 asks for a name that is held, so a repair is to go; member 2 is heard meanwhile. It goes at 40, and
    the name is quiet for three times 300. The next one comes from elsewhere at 950, and it is quiet for three times 100, the delay to
    its source. A name that is lacked is asked for once, and a request for it is seen."""
    policy = Noting()
    tuner = Tuner(policy, policy.constants, lambda other: 100 * other, lambda digits: [Datagram("drawop", 1, (1, 1)) for _ in digits])

    def request(moment: int, asker: int, number: int = 1) -> None:
        tuner.comes(moment, Datagram("request", asker, (1, number)))

    tuner.comes(10, Datagram("drawop", 1, (1, 1), ((1, 1),)))
    for moment, asker in ((20, 3), (30, 2)):
        request(moment, asker)
    tuner.goes([(40, "")])
    for moment in (939, 940):
        request(moment, 2)
    tuner.comes(950, Datagram("drawop", 1, (1, 1), ((1, 1),)))
    for moment in (1_249, 1_250):
        request(moment, 4)
    assert policy.notes == [("answer", 1, 20, 300), ("answer", 1, 940, 200), ("answer", 1, 1_250, 400)]
    policy.notes.clear()
    tuner.misses(1_300, ((1, 2), (1, 1)))
    tuner.misses(1_310, ((1, 2),))
    request(1_320, 2, 2)
    assert policy.notes == [("ask", 2, 1_300, 100), ("request", 2, 1_320, False)]
    assert tuner.lines(1_400) == [], "its constants are those of the host"


def test_kept_members_take_other_constants_behind_keep() -> None:
    """Nine members of whom one comes late and one leaves. A self-managing host gets no other line than `tuning`, and that after `keep`."""
    settings = Settings(judge="keep", members=9, start=12, draws=12, drawers=2, late=1, leaving=1, loss="share-all:0.1")
    for adapt in ("members", "published"):
        found = [verbs(lines).split() for lines in lines_of(replace(settings, adapt=adapt))]
        assert all({*given} <= {"board", "keep", "came", "tick", "add", "tuning"} for given in found), found
        assert all("tuning" not in given[:given.index("keep")] for given in found) and any("tuning" in given for given in found), found
    given = [verbs(lines).split() for lines in lines_of(replace(settings, adapt="members", loss="none"))]
    assert [lines.count("tuning") for lines in given[:7]] == 7 * [1]  # eight are there, then eight again: one leaves as the other comes


def test_a_record_with_other_constants_is_answered_again() -> None:
    """What hosts printed in a run, and what they print where they are given its record: the same blocks."""
    settings = Settings(members=9, draws=24, loss="link:0-1,0-9", leaving=2)
    for given in (settings, replace(settings, judge="keep", start=12, loss="share-all:0.1")):
        for adapt in ("members", "published"):
            printed: dict[int, list[bytes]] = {}
            read = HostMember.printed

            def note(member: HostMember, line: bytes) -> list[bytes]:
                block = read(member, line)
                if line.split()[0] not in (b"show", b"report", b"digest", b"gaps"):  # what is asked at the end is in no record
                    printed.setdefault(member.number, []).extend(block)
                return block

            with patch.object(HostMember, "printed", note):
                records = lines_of(replace(given, adapt=adapt))
            assert any("tuning" in verbs(lines) for lines in records), "no line for other constants"
            for number, lines in enumerate(records, 1):
                again = subprocess.run([program(), "host"], input="\n".join([*lines, ""]).encode(), capture_output=True, check=True)
                assert again.stdout.splitlines() == printed[number]


def test_the_program_takes_a_word_for_it() -> None:
    with tempfile.TemporaryDirectory() as place:
        words = ["--members", "9", "--draws", "4", "--adapt", "members", "--record", place]
        ended = subprocess.run([HERE / "wb-lab", *words], capture_output=True, text=True)
        assert ended.returncode == 0 and "tuning 2 3 1 2\n" in (Path(place) / "member-9.txt").read_text(), ended
