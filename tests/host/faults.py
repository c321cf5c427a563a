"""Each line that a host refuses, with its fault."""

from __future__ import annotations

from . import datagrams
from .datagrams import drawop, page_state, session

PAGE = (7, 1)
LONGEST = 65_536
STARS = drawop(7, PAGE, 1, 10, datagrams.line(0, 1, 4, 1, "*"))

# A host with drawops, marks, delays, timers of both kinds and a moment
BEFORE = f"""board 1 16 1 42
distance 7 5000
tick 1000
arrive {STARS}
say draw 1 7/1 3 11 text 0 0 "hi"
session-message 9 50 7/1 7=4 8=2 1@0+100
page-state 9 4/4 5=5
request 9 7 7/1 1
look 7 1
"""
# what is asked after a line: what the host holds, has heard, will send and draws at random
AFTER = """show 7 1 5 2
view 7 1
gaps 7 1
gaps 4 4
report 7 1
pages
known
version
next 7 1
session 7 1
ask 4 4 5 5
stop 4 4 5 5
stop 7 1 7 2
look 4 4
tick 1000
tick 3000
tick 900000
request 9 7 7/1 1
"""


# Lines and their faults, in the order of the checks in docs/SCRIPTS.md: words, numbers, digits
MISTYPED = {
    "boards 1 16 1 42": "unknown",
    "Show 7 1 5 5": "unknown",
    "versions": "unknown",
    "ok never": "unknown",
    "send 574201040000000400000008": "unknown",
    "draws 7 7/1 1 10 line 0 1 4 1 *": "unknown",
    "\ttick 5": "unknown",
    "\x00": "unknown",
    "say": "words",
    "datagram": "words",
    "datagram 57 42": "words",
    "pages 7": "words",
    "known 7 1": "words",
    "version 1": "words",
    "tick": "words",
    "tick 5 5": "words",
    "distance 7": "words",
    "tuning 2 2 1": "words",
    "tuning 2 2 1 1 1": "words",
    "tuning 2,2,1,1": "words",
    "arrive": "words",
    "hear": "words",
    "board 1 16 1": "words",
    "show 7 1 5": "words",
    "ask 7 1 7": "words",
    "ask 7 1 7 1 1": "words",
    "stop 7 1 7": "words",
    "tick 281474976710656": "number",
    "tick -1": "number",
    "tick 1e3": "number",
    "distance 7 16777216": "number",
    "tuning 0 2 1 1": "number",
    "tuning 2 17 1 1": "number",
    "tuning 2 2 x 1": "number",
    "tuning 2 2 1 17": "number",
    "distance 4294967296 5": "number",
    "board 1 0 1 42": "number",
    "board 1 65536 1 42": "number",
    "board 1 16 0 42": "number",
    "board 1 16 9 42": "number",
    "board 1 16 1 18446744073709551616": "number",
    "show 7 1 0 5": "number",
    "show 7 1 201 5": "number",
    "show 7 1 5 101": "number",
    "ask 7 1 7 0": "number",
    "ask 7 1 4294967296 1": "number",
    "stop 7 1 7 0": "number",
    "stop 7 1 7 4294967296": "number",
    "datagram 5": "hex",
    "datagram 5g": "hex",
    "arrive 574": "hex",
    "hear 0x57": "hex",
}


def mistyped() -> dict[str, str]:
    """The same, with the lines that have a page and nothing else."""
    table = dict(MISTYPED)
    for word in "look", "session", "gaps", "report", "digest", "next", "view":
        table[f"{word} 7"] = "words"
        table[f"{word} 7 1 1"] = "words"
        table[f"{word} 4294967296 1"] = "number"
        table[f"{word} 7 4294967296"] = "number"
        table[f"{word} 7 x"] = "number"
    return table


def no_datagrams() -> dict[str, str]:
    """Digits that spell no datagram, or one of another kind."""
    asked = datagrams.ask_pages(8)
    spoiled = {
        "": 1,
        "5742": 1,
        asked[:-2]: 1,
        "5743" + asked[4:]: 2,
        asked[:4] + "03" + asked[6:]: 3,
        asked[:6] + "06" + asked[8:]: 4,
        asked[:4] + "02" + asked[6:]: 4,
        asked + "00": 5,
        datagrams.datagram(datagrams.ASK_PAGES, bytes(5)): 6,
        drawop(7, PAGE, 1, 10, b"\x06" + bytes(8)): 7,
        drawop(7, PAGE, 0, 10, datagrams.delete(7, 1)): 8,
        drawop(7, PAGE, 1, 10, datagrams.line(0, 0, 4096, 0, "*")): 8,
        datagrams.request(8, 7, PAGE, 0): 8,
        page_state(8, PAGE, [(7, 1), (7, 2)]): 9,
        session(8, 0, PAGE, [], [(9, 0, 0), (8, 0, 0)]): 9,
    }
    table = {f"datagram {digits}": f"datagram {fault}" for digits, fault in spoiled.items() if digits}
    table |= {f"hear {digits}": f"datagram {fault}" for digits, fault in spoiled.items() if digits}
    table[f"arrive {STARS[:-2]}"] = "datagram 1"
    table[f"arrive {asked}"] = "kind"
    table[f"hear {STARS}"] = "kind"
    return table


def wrong_words() -> dict[str, str]:
    """Datagrams in words of which a word is wrong, with the place of the first such word, as docs/SCRIPTS.md has them."""
    table = {
        "draw ": "word 2: number",
        "draw  7 7/1 1 10 line 0 1 4 1 *": "word 2: number",
        "draw 07 7/1 1 10 line 0 1 4 1 *": "word 2: number",
        "draw 7 7-1 1 10 line 0 1 4 1 *": "word 3: page",
        "draw 7 7/1 1 10 circle 0 1 4 1 *": "word 6: operation",
        "draw 7 7/1 1 10 line 0 1 4096 1 *": "word 9: number",
        "draw 7 7/1 1 10 line 0 1 4 1 **": "word 11: glyph",
        "draw 7 7/1 1 10 line 0 1 4 1 * *": "word 12: one too many",
        "draw 7 7/1 1 10 text 0 1 hi": "word 9: text",
        "draw 7 7/1 0 10 line 0 1 4 1 *": "word 4: sequence number 0",
        "draw 7 7/1 1 10 delete 7 1": "word 8: target is the drawop itself",
        "draw 7 7/1 1 10 delete 7 0": "word 8: target sequence number 0",
        'draw 7 7/1 1 10 text 0 1 ""': "word 9: text of 0 or over 64 bytes",
        "session-message 9 5 7/1 7:1": "word 5: mark",
        "session-message 9 5 7/1 7=1 8@0": "word 6: echo",
        "page-state 9 7/1 7=1 7=2": "word 5: order",
        "request 9 7 7/1 0": "word 5: sequence number 0",
        "request 9": "word 3: missing",
    }
    said = {f"say {line}": fault for line, fault in table.items()} | {f"say {kind}": "word 2: missing" for kind in ("draw", "ask-pages")}
    others = ["say hello", "say  ask-pages 1", "say say ask-pages 1", "say tick 5", "say board 1 16 1 42", "say "]
    # each kind has more words
    alone = dict.fromkeys(["draw", "session-message", "request", "ask-pages", "page-state"], "unknown")
    return table | alone | said | dict.fromkeys(others, "word 1: unknown")
