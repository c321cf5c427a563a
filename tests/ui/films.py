"""What others point at, before they let go; and a record as a film."""
from __future__ import annotations

import json
import time
from pathlib import Path

from ..live.browser import Browser

from .sheets import BY_CELLS, Member, Sheet, Tally
from .tools import USUAL, WINDOWS, has, on_a_new_page

# drawings of the page that a film shows, one of them ink, and seconds before each
DRAWN, PAUSE = 12, 0.2
INK = 'text 64 4000 "~v%0!({!/&!dOOdO}"'

# a jump plays the record from its beginning, which may take this many seconds on a busy machine
JUMPS = 300.0

# what lies over the middle of what a film is moved by
OVER = """['film-stop', 'film-speed', 'film-at'].flatMap((name) => {
    const { left, top, width, height } = document.getElementById(name).getBoundingClientRect();
    const over = document.elementFromPoint(left + width / 2, top + height / 2);
    return over?.id === name ? [] : `${over?.id || over?.className} over ${name}`;
})"""


def test_presence(tally: Tally, one: Sheet, other: Sheet) -> None:
    """By a finger in a wide window by night, and by mouse in a narrow one by day."""
    for width, height, scheme, hand in (WINDOWS[1], (*WINDOWS[2][:3], "mouse")):
        one.be(width, height, scheme, hand)
        one.page.value(f"wb.view.setSize({9 if width > 1000 else 6}); wb.view.home()")
        with tally.told(f"{width} points, {scheme}, {hand}"):
            check_presence(tally, one, other)
    one.be(*USUAL)
    one.keys("0")


def check_presence(tally: Tally, one: Sheet, other: Sheet) -> None:
    on_a_new_page(one, other)
    one.page.value("wb.hand.setGlyph('#'); wb.view.sheet.focus(); 0")
    number = one.page.value("wb.session.hello.me")
    refused = other.page.value("Number(/([0-9]+) refused/.exec(document.getElementById('counts').textContent)?.[1] ?? 0)")
    one.keys("f")
    if one.hand == "finger":
        one.page.touch("touchStart", one.point(10, 5))
        one.page.touch("touchMove", one.point(20, 9))
    else:
        one.page.press(*one.point(10, 5))
        one.page.mouse("mouseMoved", *one.point(20, 9))
    seen = f"wb.others.heard.some(({{ pointed, beside }}) => pointed.member === {number} && pointed.cell[0] === 20 && JSON.stringify(beside.shapes) === JSON.stringify([{{ op: 'frame', x0: 10, y0: 5, x1: 20, y1: 9, glyph: '#' }}]))"
    tally.check("others see what is begun", other.page.wait(seen), str(other.page.value("JSON.stringify(wb.others.heard)")))
    tally.check("it is painted", other.is_inked(15, 5))
    tally.check("it is nobody's drawing", not other.page.value("wb.session.board.drawops.length"))
    one.page.key("Escape")
    if one.hand == "finger":
        one.page.touch("touchEnd")
    else:
        one.page.mouse("mouseReleased", *one.point(20, 9))
    tally.check("what is dropped is seen no more", other.page.wait("wb.others.heard.every(({ beside }) => !beside.shapes.length)"))
    one.page.value("document.getElementById('pointing').click()")
    tally.check("who does not want to is not seen", other.page.wait("!wb.others.heard.length"))
    one.page.value("document.getElementById('pointing').click()")
    told = "Number(/([0-9]+) refused/.exec(document.getElementById('counts').textContent)?.[1] ?? 0)"
    tally.check("no host hears of it", other.page.value(told) == refused)


def test_film(tally: Tally, browser: Browser, room: Path, one: Sheet) -> None:
    """The record of a member, shown in a window of its own."""
    one.page.value("wb.session.send('text 2 2 \"before\"').then(({ ok }) => ok)")
    on_a_new_page(one, one)
    # a film lasts as long as it took to draw
    for row in range(DRAWN):
        time.sleep(PAUSE)
        one.page.value(f"wb.session.send({json.dumps(INK if row == 0 else f'line 2 {row} 9 {row} #')}).then(({{ ok }}) => ok)")
    has(one, DRAWN)
    drawn = one.page.value("JSON.stringify(wb.session.board.drawops)")
    page = one.page.value("wb.session.board.page")
    path = room / "film.record"
    path.write_text(one.page.value("wb.session.member.record()"))
    member = Member(room, 0, words=["--replay", str(path)])
    try:
        film = Sheet(browser.open(member.address, first=BY_CELLS))
        tally.check("a film has scenes", film.page.wait(f"wb.film?.scenes.length >= {DRAWN} && wb.film.film"))
        film.press("#film-stop")
        tally.check("it stops", film.page.wait("wb.film.film.stopped"))
        film.page.value(f"wb.session.goToPage({json.dumps(page)}); 0")
        film.page.until(f"wb.session.board.page === {json.dumps(page)}")
        for width, height, scheme, hand in ((*WINDOWS[0][:3], "keys"), WINDOWS[1], WINDOWS[3]):
            film.be(width, height, scheme, hand)
            tally.check(f"nothing lies over the film ({width} points)", not film.page.value(OVER), str(film.page.value(OVER)))
            film.slide("#film-at", True)
            is_whole = film.page.wait(f"wb.session.board.page === {json.dumps(page)} && wb.session.board.drawops.length === {DRAWN}", JUMPS)
            tally.check(f"a jump to the end shows the page as it was ({width} points, {hand})", is_whole, f"{film.page.value('wb.session.board.drawops.length')} of {DRAWN}")
            tally.check("each drawing, and ink, as it was", film.page.value("JSON.stringify(wb.session.board.drawops)") == drawn)
            film.slide("#film-at", False)
            tally.check(f"a jump to the beginning shows nothing ({width} points, {hand})", film.page.wait("wb.session.board.drawops.length === 0", JUMPS), film.text_of("film-told"))
        film.page.value("document.getElementById('film-speed').value = '20'; document.getElementById('film-speed').dispatchEvent(new Event('change'))")
        film.press("#film-stop")
        tally.check("it goes on, faster", film.page.wait("!wb.film.film.stopped && wb.film.film.speed === 20 && wb.film.film.at > 1000"))
        tally.check("who drew what is told", film.page.wait("/: (line|frame|text|delete|restore)/.test(document.getElementById('film-told').textContent)"), film.text_of("film-told"))
        tally.check("nothing is drawn in a film", film.page.value("wb.session.send('line 0 0 1 1 *').then(({ ok }) => ok)") is False)
    finally:
        member.end()
