"""Each line that a host takes: by the formulas of transcripts/{arrivals,timers,own}.md, and by what spellings and names do."""

from __future__ import annotations

from . import datagrams
from .datagrams import drawn, drawop, session
from .program import close, host
from .scripts import PAGES, Writer

PAGE = (7, 1)
UNKNOWN_DELAY = 100_000
words = datagrams.Words(42)
WORDS = [words.next() for _ in range(8)]
STARS = drawop(7, PAGE, 1, 10, datagrams.line(0, 1, 4, 1, "*"))
OURS = drawop(1, PAGE, 1, 11, datagrams.text(0, 0, "hi"))


def asked_at(now: int, word: int, delay: int = UNKNOWN_DELAY, level: int = 0) -> int:
    """When a request timer is due that is set, or backed off to a level, with a random word of the board's seed."""
    return drawn(now, delay, WORDS[word], 2, 2, level)


def answered_at(now: int, word: int, delay: int = UNKNOWN_DELAY) -> int:
    """When an answer timer is due."""
    return drawn(now, delay, WORDS[word], 1, 1)


def test_spellings() -> None:
    """A datagram may come as digits, in words, or as a script hands it in."""
    for name, digits, told in [
        ("a drawop", STARS, "draw 7 7/1 1 10 line 0 1 4 1 *"),
        ("a session message", session(9, 50, PAGE, [(7, 9)], [(1, 0, 0)]), "session-message 9 50 7/1 7=9 1@0+0"),
        ("a request", datagrams.request(9, 7, PAGE, 1), "request 9 7 7/1 1"),
        ("a request for the page list", datagrams.ask_pages(9), "ask-pages 9"),
        ("a page state", datagrams.page_state(9, PAGE, [(7, 9)]), "page-state 9 7/1 7=9"),
    ]:
        before = f"board 1 16 1 42\narrive {drawop(7, (6, 6), 1, 1, datagrams.line(0, 0, 1, 1, 'x'))}\n"
        after = "known\nsession 7 1\nlook 7 1\nview 7 1\n"
        word = "arrive" if name == "a drawop" else "hear"
        forms = {host(f"{before}{form}\n{after}") for form in [f"datagram {digits}", told, f"{word} {digits}"]}
        assert len(forms) == 1, f"{name} in three spellings"


def test_asked_names() -> None:
    """A look lets 64 timers stand, `ask` sets more, and `stop` makes room for another look."""
    asked = "".join(f"ask 7 1 9 {number}\n" for number in range(1, 4))
    stopped = asked.replace("ask", "stop")
    given = f"board 1 16 1 42\npage-state 9 7/1 7=70\nlook 7 1\nlook 7 1\n{asked}stop 7 1 7 64\nlook 7 1\n{stopped}look 7 1\n"
    lines = [line for line in host(given).splitlines() if not line.startswith("ok ")]
    want = ["look 64", "look 0", "ask 1", "ask 1", "ask 1", "stop 1", "look 0", "stop 1", "stop 1", "stop 1", "look 1"]
    assert lines == want, "the names that a look asks for"


def test_closings() -> None:
    """As many lines look as if they closed a block as there are blocks, whatever is asked but `show`, and whatever texts say."""
    said = [f'say draw 1 7/1 {seq} 5 text 0 {seq} "{text}"' for seq, text in enumerate(["ok never", "ok 5", "refused unknown"], 901)]
    views = [f"{word} {creator} {number}" for creator, number in PAGES for word in ("view", "next", "gaps", "report", "digest", "session", "look")]
    for seed in range(1, 9):
        lines = [line for line in Writer(seed).script(120) if not line.startswith("show ")]
        lines += [*said, *views, "known", "pages", "fly", "show 7 1", "ask 7 1 8 3", "stop 7 1 8 3", "tick 900000000"]
        closing = sum(close(line.encode()) for line in host("".join(f"{line}\n" for line in lines)).splitlines())
        assert closing == len(lines), f"the lines that close a block, of conversation {seed}"
    shown = host('board 1 16 1 42\nsay draw 1 7/1 1 5 text 0 0 "ok never"\nshow 7 1 8 1\n').splitlines()
    assert shown[-2:] == ["ok never", "ok never"], "a row of a canvas may look so"
