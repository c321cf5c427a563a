"""What is measured of a run, and how sure it is."""

from __future__ import annotations

import math

from laboratory.intervals import bound, difference, estimate, quantile, quartiles, within
from laboratory.measures import Book, Loss, Row, row_of
from laboratory.program import program
from laboratory.reading import Datagram, Reader
from laboratory.theory import exact_senders, published_first_request, published_requests


def test_a_loss_becomes_a_row() -> None:
    """Members 2 and 3 are 10 and 20 from source 1. Member 3 notices at 100, asks at 140 and has it at 180: 40 and 80 of its round trip
    of 40. Member 2 notices at 90 and has it at 120, before."""
    loss = Loss((1, 5), 50, {2, 3}, {2: 90, 3: 100}, {2: 120, 3: 180}, [(140, 3), (150, 2)], 2)
    assert row_of(loss, {2: 10, 3: 20}) == Row(1, 5, 2, 2, 2, 1.0, 2.0, 0.00008)


def test_a_book_counts() -> None:
    """Drawop 1 of source 1 is lost to members 2 and 3. Member 2 learns of number 2 at 20 and asks at 30; it comes to both at 50 and 60."""
    book = Book()
    drawop, request = Datagram("drawop", 1, (1, 1), ((1, 1),), 42), Datagram("request", 2, (1, 1), (), 28)
    book.sends(drawop, 10, True, [2, 3])
    assert (book.outstanding, book.lacking[2], book.is_lacking(2, (1, 1))) == (2, 1, True)
    assert (book.learns(2, 1, 2, 20), book.learns(2, 1, 2, 21), book.learns(2, 1, 1, 22)) == ([(1, 1)], [], [])
    book.sends(request, 30, False, [])
    book.sends(drawop, 40, False, [])
    book.comes(2, (1, 1), 50)
    book.comes(3, (1, 1), 60)
    book.comes(3, (1, 1), 70)
    loss = book.losses[1, 1]
    assert (loss.noticed, loss.repaired, loss.requests, loss.repairs) == ({2: 20, 3: 60}, {2: 50, 3: 60}, [(30, 2)], 1)
    assert (book.outstanding, book.whole, book.sent, book.bytes_sent["drawop"]) == (0, {2: 50, 3: 60}, {"drawop": 2, "request": 1}, 84)
    book.sends(Datagram("session", 2, None, (), 100), 80, False, [])
    assert book.reports == {2: [(80, 100)]}


def test_a_member_notices_what_it_is_told_of() -> None:
    """Drawops 1 and 3 of source 1 are lost to member 2. It hears of number 1 at 20, and of 3 at 30; a fourth is lost after it has heard of that."""
    book = Book()
    for number in (1, 3):
        book.sends(Datagram("drawop", 1, (1, number), ((1, number),), 42), 10, True, [2])
    assert (book.learns(2, 1, 1, 20), book.learns(2, 1, 2, 25), book.learns(2, 1, 3, 30)) == ([(1, 1)], [], [(1, 3)])
    book.learns(2, 1, 4, 40)
    book.sends(Datagram("drawop", 1, (1, 4), ((1, 4),), 42), 50, True, [2])
    assert [book.losses[1, number].noticed for number in (1, 3, 4)] == [{2: 20}, {2: 30}, {2: 50}]


def test_who_comes_again_has_a_wait() -> None:
    """Member 2 comes at 5 and lacks a drawop that comes to it at 30; member 3 lacks nothing when it comes."""
    book = Book()
    book.sends(Datagram("drawop", 1, (1, 1), ((1, 1),), 42), 1, True, [2])
    book.joins(2, 5)
    book.joins(3, 6)
    book.comes(2, (1, 1), 30)
    assert (book.returns, book.back) == ([(3, 6, 0), (2, 5, 25)], {})


def test_intervals_are_those_of_the_books() -> None:
    """The bounds of Student's law as tables have them, and the interval of 1, 2, 3, 4: 2.5, 3.1824 times the root of 5/3 over 4."""
    for freedom, t in ((1, 12.7062), (2, 4.30265), (3, 3.18245), (10, 2.22814), (19, 2.09302), (39, 2.02269)):
        assert abs(bound(freedom) - t) < 0.0001 and abs(within(t, freedom) - 0.95) < 0.00001, (freedom, bound(freedom))
    found = estimate([1, 2, 3, 4])
    assert found is not None and found.mean == 2.5 and abs(found.half - 3.18245 * math.sqrt(5 / 12)) < 0.0001, found
    assert estimate([]) is None, "no draw"
    one = estimate([7])
    assert one is not None and one.half == math.inf, "one draw"


def test_differences_are_of_pairs() -> None:
    """Draws that go up and down together by 100 differ by 1 or 2 in each pair: 1.5, and half of it 3.18245 times the root of 1/3 over 4."""
    one, other = [101, 202, 101, 202], [100, 200, 100, 200]
    found = difference(one, other)
    assert found is not None and found.mean == 1.5 and abs(found.half - 3.18245 * math.sqrt(1 / 12)) < 0.0001, found


def test_quartiles_are_values() -> None:
    assert quartiles([4, 1, 3, 2]) == (1, 2, 3) and quartiles([5]) == (5, 5, 5) and quartiles([]) is None, quartiles([4, 1, 3, 2])
    assert [quantile(range(1, 101), share) for share in (0.07, 0.29, 0.57)] == [7, 29, 57], "as in decimals"
    assert [quantile([4, 1, 3, 2], share) for share in (0.5, 0.95)] == [2, 4] and quantile([], 0.5) is None, "quantiles"


def test_formulas_are_those_of_the_page() -> None:
    """For two timers over two distances: one fires, and the other too unless it is more than a distance later, of which the chance is an
    eighth each way: 1.75. For 100 members and C2 of 4 the published mean is 1 + 98/4."""
    assert exact_senders(2, 2) == 1.75 and exact_senders(99, 1) == 99 and published_requests(100, 4) == 25.5, exact_senders(2, 2)
    assert published_first_request(10, 2, 5) == 2.5, "2 + 5/10"
    assert exact_senders(2, 1, 0.5) == 1.75, "two timers over one distance, which counts as twice what it is: an eighth each way again"


def test_datagrams_are_read() -> None:
    reader = Reader(program())
    try:
        drawop, request, session, state, ask = reader.read([
            "57420101000000220000000700000007000000010000000a000000000000000a0100000001000400012a",
            "57420103000000140000000100000002000000010000000000000003",
            "57420102000000200000000100000000000000050000000100000000" + "0001" + "0000000200000009" + "0000",
            "574201050000001600000001000000070000000100010000000700000002", "574201040000000400000001",
        ])
        assert (drawop.kind, drawop.author, drawop.name, drawop.marks, drawop.size) == ("drawop", 7, (7, 10), ((7, 10),), 42)
        assert (request.kind, request.author, request.name, request.size) == ("request", 1, (2, 3), 28)
        assert (session.kind, session.author, session.marks, session.tells) == ("session", 1, ((2, 9),), frozenset({1, 2}))
        assert (state.kind, state.author, state.marks, ask.kind, ask.author) == ("page-state", 1, ((7, 2),), "ask-pages", 1)
        try:
            reader.read(["5742"])
            assert False, "bytes that are no datagram are read"
        except ValueError as fault:
            assert "datagram 1" in str(fault)
    finally:
        reader.end()


def test_who_comes_is_timed() -> None:
    """Member 2 comes at 100 and lacks two drawops, the second of which it has at 170; member 3 comes and lacks none."""
    book = Book()
    for number in (1, 2):
        book.sends(Datagram("drawop", 1, (1, number), ((1, number),), 42), 10 * number, True, [2])
    book.joins(2, 100)
    book.joins(3, 110)
    book.comes(2, (1, 2), 150)
    book.comes(2, (1, 1), 170)
    assert book.returns == [(3, 110, 0), (2, 100, 70)]
