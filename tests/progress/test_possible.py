"""Lines bring what is lost: to hosts that their drivers drive, and, as is proved (`AskedCanCome`), to self-managing hosts, of which one has a
request timer and the other heard of nothing yet."""

from __future__ import annotations

from .hosts import ANSWERING_WAIT, ASKING_WAIT, PLACE, QUIET_WAIT, Host, Kept, answers, lost_to_the_first, request


def test_repair() -> None:
    first, source, holder, drawn = lost_to_the_first()
    first.tick(1_000_000)
    holder.tick(1_000_000)
    assert holder.tell(f"datagram {drawn[1]}") == ["batch 0 1 0 0"], "a copy that comes twice"
    answers(holder)
    holder.tell(request(1, 2))
    assert holder.due == "never", "what was answered is held down"
    asked, held = first.now, holder.now
    assert first.tell(f"ask {PLACE} 7 2") == ["ask 1"], "ask"
    requests = [told.removeprefix("send ") for told in first.tick(asked + ASKING_WAIT)]
    assert len(requests) == 1, "the tick asks"
    assert holder.tick(held + ANSWERING_WAIT) == [], "the first tick"
    assert holder.tick(held + ANSWERING_WAIT + QUIET_WAIT) == [], "the second tick"
    assert holder.tell(f"datagram {requests[0]}") == [], "the request"
    repairs = holder.tick(held + ANSWERING_WAIT + QUIET_WAIT + ANSWERING_WAIT)
    assert repairs == [f"send {drawn[1]}"], "the holder answers"
    assert first.tell(f"datagram {drawn[1]}") == ["batch 1 0 0 0"], "it is taken"
    assert first.shows() == source.shows(), "both print alike"


def test_agreement() -> None:
    """Three places of which each lacks something: a name is given up, asked for anew, answered, and given to all that lack it."""
    hosts = {member: Host(member) for member in (1, 7, 8)}
    drawn = [hosts[7].draw(number) for number in (1, 2, 3)]
    for member, number in ((1, 0), (1, 2), (8, 1)):
        hosts[member].tell(f"datagram {drawn[number]}")
    for number in (1, 2, 3):
        lacking = [host for host in hosts.values() if host.tell(f"ask {PLACE} 7 {number}") == ["ask 1"]]
        holder = next(host for host in hosts.values() if host not in lacking)
        asker = lacking[0]
        assert asker.tell(f"stop {PLACE} 7 {number}") == ["stop 1"], f"{number} is given up"
        assert asker.tell(f"ask {PLACE} 7 {number}") == ["ask 1"], f"{number} is asked for anew"
        asked = [told.removeprefix("send ") for told in asker.tick(asker.now + ANSWERING_WAIT)]
        assert len(asked) >= 1, f"one request for {number} is soon"
        holder.tick(holder.now + ANSWERING_WAIT)
        holder.tick(holder.now + QUIET_WAIT)
        for datagram in asked:
            holder.tell(f"datagram {datagram}")
        assert f"send {drawn[number - 1]}" in holder.tick(holder.now + ANSWERING_WAIT), f"{number} is sent"
        for host in lacking:
            assert host.tell(f"datagram {drawn[number - 1]}") == ["batch 1 0 0 0"], f"{host.member} takes {number}"
    shown = [host.shows() for host in hosts.values()]
    assert shown[0][1] == ["gaps 0"], "no gaps"
    assert shown[1:] == shown[:1] * 2, "all print alike"


def brings(lacking: Kept, holder: Kept, drawn: str) -> None:
    """The six lines that bring a drawing which is asked for."""
    asking, first = lacking.now + ASKING_WAIT, holder.now + ANSWERING_WAIT
    second = first + QUIET_WAIT
    requests = lacking.ticks(asking)
    holder.tick(first)
    holder.tick(second)
    for datagram in requests:
        holder.came(second, datagram)
    assert drawn in holder.ticks(second + ANSWERING_WAIT), "the holder answers"
    assert "batch 1 0 0 0" in lacking.came(asking, drawn), "it is taken"


def test_kept() -> None:
    lacking, holder = Kept(2), Kept(7)
    drawn = [holder.adds(number) for number in (1, 2, 3)]
    assert lacking.came(1_000, drawn[2]) == ["batch 1 0 0 0"], "the last of three comes"
    for number in (1, 2):
        brings(lacking, holder, drawn[number - 1])
    assert lacking.shows() == holder.shows(), "both print alike"


def test_kept_untold() -> None:
    lacking, holder = Kept(2), Kept(7)
    drawn = [holder.adds(number) for number in (1, 2, 3)]
    behind = lacking.now + ASKING_WAIT
    for _ in range(4):
        for datagram in holder.ticks(int(holder.due)):
            lacking.came(behind, datagram)
    for number in (3, 1, 2):
        brings(lacking, holder, drawn[number - 1])
    assert lacking.shows() == holder.shows(), "both print alike"
