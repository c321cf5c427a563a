"""Timers that are reckoned without hosts."""

from __future__ import annotations

from dataclasses import replace

from laboratory.adapting import Policy
from laboratory.level import AT_MEMBERS, AT_SOURCE, IN_TURN, lacking, run_level
from laboratory.program import program
from laboratory.runs import Settings, run
from laboratory.timers import Ask, TimerMember, Words


def test_words_are_those_of_the_generator() -> None:
    """The first words of two seeds, worked out from the generator's published definition by hand; those of the star above are from them."""
    for seed, second, third in ((1, 49_156, 41_600), (4, 40_915, 63_617), (8, 76_553, 47_336), (12, 57_035, 50_235)):
        found = [40_000 + Words(seed * 100_003 + member).word() % 40_001 for member in (2, 3)]
        assert found == [second, third]


def test_a_loss_at_one_distance_is_as_with_hosts() -> None:
    """The first losses of the same seeds, on the source's link and then on a member's, with hosts in a session and a loss at a time: the
    same rows. In the session every other drawop is lost."""
    for seed, tuning in ((1, "2,2,1,1"), (2, "3,16,1,11"), (3, "1,4,2,3")):
        settings = Settings(members=9, delay=(0.02, 0.02), tuning=tuning, seed=seed, draws=4, every=4)
        rows = run(replace(settings, loss="link:0-1,0-9"), program()).rows
        reckoned = run_level(replace(settings, loss=IN_TURN, who="timers"), "").rows
        assert reckoned[:2] == [replace(row, number=(row.number + 1) // 2) for row in rows]


def test_a_delay_below_ten_milliseconds_counts_as_ten() -> None:
    """Two members 1 ms apart: the second asks after 20 to 40 ms, its request takes 1, the first repairs after 10 to 20, and that takes 1. The
    words of the two are those of their seeds. Each keeps its words: the second loss goes by the next ones."""
    words = {member: Words(100_003 + member) for member in (1, 2)}
    rows = run_level(Settings(members=2, delay=(0.0005, 0.0005), loss=IN_TURN, who="timers", draws=2), "").rows
    for row in rows:
        asked = 20_000 + words[2].word() % 20_001
        words[2].word()  # the timer is set anew behind the request
        whole = asked + 1_000 + 10_000 + words[1].word() % 10_001 + 1_000
        assert (row.lost, row.requests, row.repairs, row.first_request, row.seconds) == (1, 1, 1, asked / 2_000, whole / 1_000_000)


def test_losses_at_one_distance_fall_where_they_are_told() -> None:
    """Of four members the first draws. In turn all others lack a drawop, and the last; at members another one each time."""
    found = [[list(lacking(loss, number, 4)) for number in range(1, 5)] for loss in (IN_TURN, AT_SOURCE, AT_MEMBERS)]
    assert found == [[[2, 3, 4], [4], [2, 3, 4], [4]], 4 * [[2, 3, 4]], [[3], [4], [2], [3]]]
    rows = run_level(Settings(members=4, loss=AT_MEMBERS, who="timers", draws=5), "").rows
    assert [row.lost for row in rows] == 5 * [1]


def timer_member() -> TimerMember:
    """One that is 10 from all others."""
    return TimerMember(1, Words(7), Policy((2, 2, 1, 1)), lambda one, other: 10)


def test_a_name_is_quiet_until_its_moment() -> None:
    """A request is answered from the moment on at which the quiet ends, and not before."""
    for moment, is_answered in ((99, False), (100, True)):
        member = timer_member()
        member.held.add((2, 1))
        member.quiet[2, 1] = 100
        member.hear(moment, 3, (2, 1))
        assert ((2, 1) in member.answers) == is_answered, moment


def test_a_request_is_heard_from_its_moment_on() -> None:
    """Half of a back-off long others' requests back it off no further."""
    for moment, level in ((99, 1), (100, 2)):
        member = timer_member()
        member.asks[2, 1] = Ask(1, 200, 100, 10)
        member.hear(moment, 3, (2, 1))
        assert member.asks[2, 1].level == level, moment
