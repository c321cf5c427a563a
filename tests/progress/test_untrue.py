"""What is not true of progress: sessions in which a careless promise would be broken. Each shows why a premise is asked for."""

from __future__ import annotations

from .hosts import MOST_DIGITS, PAGE, PLACE, Host, Judged, answers, lost_to_the_first, request


def test_untold_time() -> None:
    """Only `tick` moves the moment: a holder that gets no tick is quiet for ever."""
    _, _, holder, drawn = lost_to_the_first()
    holder.tick(1_000_000)
    answers(holder)
    for _ in range(20):
        holder.tell(request(1, 2))
    assert holder.due == "never", "a quiet holder sets no timer"
    holder.tick(holder.now + 300_000)
    holder.tell(request(1, 2))
    assert holder.tick(int(holder.due)) == [f"send {drawn[1]}"], "once it is told the time it answers"


def test_old_copies() -> None:
    """An old copy that comes in before each answer is due keeps the holder silent."""
    _, _, holder, drawn = lost_to_the_first()
    sent: list[str] = []
    for round_ in range(1, 11):
        sent += holder.tick(round_ * 1_000_000)
        holder.tell(request(1, 2))
        assert holder.due != "never", f"an answer is due, {round_}"
        holder.tell(f"datagram {drawn[1]}")
        assert holder.due == "never", f"the copy ends it, {round_}"
    assert sent + holder.tick(20_000_000) == [], "nothing is sent"


def test_no_delay() -> None:
    """With a delay of 0 a request timer is due again when it fires: who ticks while something is due comes to no end."""
    first, _, _, _ = lost_to_the_first()
    first.tick(1_000)
    first.tell("distance 7 0")
    assert first.tell(f"look {PLACE}") == ["look 1"], "look"
    for tick in range(30):
        assert first.due == "1000", f"due at once, {tick}"
        assert len(first.tick(1_000)) == 1, f"it asks, {tick}"


def test_many_timers() -> None:
    """A look sets timers up to 64 that stand. 64 names that nobody holds keep all others of the page from it."""
    first = Host(1)
    for source, number in ((5, 65), (9, 2)):
        first.tell(f"draw {source} {PAGE} {number} 1 line 0 0 1 0 *")
    assert first.tell(f"look {PLACE}") == ["look 64"], "look"
    for step in range(1, 6):
        first.tick(step * 10_000_000)
        assert first.tell(f"look {PLACE}") == ["look 0"], f"no other name is asked for, {step}"
    assert first.tell(f"ask {PLACE} 9 1") == ["ask 1"], "ask has no such limit"
    assert first.tell(f"stop {PLACE} 9 1") + first.tell(f"stop {PLACE} 5 1") == ["stop 1", "stop 1"], "stop makes room"
    assert first.tell(f"look {PLACE}") == ["look 1"], "for the first in order"


def test_full_board() -> None:
    """A full board asks for ever, and takes nothing."""
    _, _, _, drawn = lost_to_the_first()
    full = Host(1, cells=1)
    full.tell(f"datagram {drawn[2]}")
    full.tell(f"ask {PLACE} 7 2")
    for step in range(1, 6):
        asked = full.tick(int(full.due))
        assert len(asked) == 1, f"it asks, {step}"
        assert full.tell(f"datagram {drawn[1]}") == ["batch 0 0 0 1"], f"it takes nothing, {step}"
        assert full.due != "never", f"its timer stands, {step}"


def test_long_messages() -> None:
    """A session message of many marks is longer than a line may be; a drawop and a request are not."""
    many = Host(1, cells=5_000)
    for source in range(10, 10 + 4_200):
        many.tell(f"draw {source} {PAGE} 1 1 line 0 0 1 0 *")
    message = many.sends(f"session {PLACE}")[0]
    assert len(message) // 2 == 32 + 8 * 4_200, "its bytes"
    assert len(message) > MOST_DIGITS, "no line carries it"
    assert Host(2).tell(f"datagram {message}") == ["refused endless"], "it is refused"


def test_last_moment() -> None:
    """Moments end at 2^48: a timer may be due later than the last moment that a line can have."""
    first, _, _, _ = lost_to_the_first()
    first.tell("distance 7 16777215")
    first.tick(2**48 - 1)
    assert first.tell(f"look {PLACE}") == ["look 1"], "look"
    assert int(first.due) >= 2**48, "it is due behind it"
    assert first.tell(f"tick {first.due}") == ["refused number"], "which cannot be told"


def test_held_by_nobody() -> None:
    """A name that nobody holds keeps gaps from 0, though all show the same."""
    hosts = [Host(1), Host(2)]
    for host in hosts:
        host.tell(f"draw 5 {PAGE} 2 1 line 0 0 1 0 *")
    shown = [host.shows() for host in hosts]
    assert shown[0] == shown[1], "they show the same"
    assert shown[0][1] == ["gaps 1", "5 1 1"], "and have a gap"


def test_on_its_way() -> None:
    """If a drawing comes to one host after its session message, the next one reports it."""
    first, other, source = Host(1), Host(2), Host(7)
    drawn = source.draw(1)
    early = first.sends(f"session {PLACE}")[0]
    first.tell(f"datagram {drawn}")
    other.tell(f"datagram {early}")
    assert other.tell(f"look {PLACE}") == ["look 0"], "the message before tells nothing of it"
    late = first.sends(f"session {PLACE}")[0]
    other.tell(f"datagram {late}")
    assert other.tell(f"look {PLACE}") == ["look 1"], "the message behind it does"


def test_many_requests() -> None:
    """Two members 2 ms apart ask for more than 255 names within 1.024 s, and the judge drops some of the requests. The names come all the same."""
    holder, asker = hosts = Judged(1), Judged(2)
    on_its_way: list[tuple[int, Judged, str]] = []
    requests: list[int] = []
    floods, drawn, now = 0, False, 0
    while now < 40_000_000:
        now = min([int(host.due) for host in hosts] + [at for at, _, _ in on_its_way[:1]])
        if now >= 20_000_000 and not drawn:
            drawn = True
            for _ in range(600):
                holder.tell(f"add {now} {PAGE} line 0 0 4 0 *")
        if on_its_way and on_its_way[0][0] <= now:
            _, to, datagram = on_its_way.pop(0)
            other = asker if to is holder else holder
            told = to.tell(f"came {now} {other.member} {datagram}")
            if to is holder and datagram.startswith("57420103"):
                requests.append(now)
                floods += told.count("dropped flood")
        else:
            to, other = sorted(hosts, key=lambda host: int(host.due))
            told = to.tell(f"tick {now}")
        on_its_way += [(now + 2_000, other, line.removeprefix("send ")) for line in told if line.startswith("send ")]
    assert max(sum(at <= later < at + 1_024_000 for later in requests) for at in requests) > 255, "more than 255 in 1.024 s"
    assert floods > 0, "some are dropped"
    assert asker.tell(f"report {PLACE}") == holder.tell(f"report {PLACE}") == ["report 1", "1 600"], "all 600 have come"
