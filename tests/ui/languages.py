"""The page in German and in Arabic, in two browsers of one board: all that people see is in their language, the page is mirrored for Arabic and the sheet
is not."""
from __future__ import annotations

import json
from pathlib import Path

from ..live.browser import Browser
from .classroom import stroke
from .inks import PICTURE, at
from .layouts import FACE, FAULTS, NAMELESS, TARGET
from .people import introduce
from .sheets import BY_CELLS, COVERED, Member, Sheet, Tally

# windows by width, height and hand
SIZES = ((1280, 720, "mouse"), (1024, 700, "mouse"), (810, 1080, "finger"), (390, 844, "finger"), (844, 390, "finger"), (320, 640, "finger"))

# what a pupil asks: too long for one drawop
QUESTION = "أين يذهب السكر في الليل؟"

# names, an option, and what stands on keys
LATIN = ("web", "PNG", "SVG", "HTML", "PDF", "Ctrl", "Shift", "Enter", "Escape", "Delete", "Home", "host", "live", "PROGRAM", "English", "Deutsch", "Anna")

# words in Latin letters of all that people see or hear in a window, but for datagrams
SEEN = """[...document.querySelectorAll('body *')].filter((each) => !each.closest('#wire, #text, script, canvas, dt'))
    .flatMap((each) => [each.title, each.getAttribute('aria-label'), each.placeholder, ...[...each.childNodes].filter(({ nodeType }) => nodeType === 3).map(({ data }) => data)])
    .flatMap((text) => String(text ?? '').match(/[A-Za-z]{3,}/g) ?? [])"""

# shows that drawings wait, in the longest words of each language
AWAY = "((text) => { const state = document.getElementById('state'); state.className = 'island lost'; state.querySelector('span').textContent = text; })"
WAITING = {"German": "Offline: was du zeichnest, wartet hier", "Arabic": "\u063a\u064a\u0631 \u0645\u062a\u0635\u0644: \u0645\u0627 \u062a\u0631\u0633\u0645\u0647 \u064a\u0646\u062a\u0638\u0631 \u0647\u0646\u0627"}

MIDDLE = "((chosen) => { const { left, right } = document.querySelector(chosen).getBoundingClientRect(); return (left + right) / 2; })"


def window(browser: Browser, member: Member, language: str, name: str, colour: str) -> Sheet:
    sheet = Sheet(browser.open(f"{member.address}?lang={language}", first=BY_CELLS, is_apart=True))
    sheet.page.until("typeof wb !== 'undefined' && wb.session.hello.ready && wb.session.board.page")
    sheet.look("ink")
    introduce(sheet, name, colour)
    sheet.fold()
    return sheet


def test_words(tally: Tally, anna: Sheet, salma: Sheet) -> None:
    """What is seen in Arabic is Arabic, also of what others do, and what is said has the direction of its letters."""
    stroke(salma, (300, 300), (420, 380))
    anna.page.until("wb.ink.items.length === 1")
    anna.keys("e")
    anna.page.click(*anna.page.value("(() => { const [x, y] = wb.view.corner(), { points: [{ x: px, y: py }] } = wb.ink.items[0], scale = wb.view.wide / 64; return [px * scale - x, py * scale - y]; })()"))
    salma.page.until("wb.ink.items.length === 0 && wb.session.board.hidden.length === 1")
    anna.page.value("wb.notes.say('Wann ist die Prüfung?'); 0")
    for panel in ("people", "chat", "net"):
        salma.page.value(f"wb.side.show('{panel}'); 0")
        anna.page.value(f"wb.side.show('{panel}'); 0")
    salma.page.until("document.querySelectorAll('#log li').length === 1 && document.querySelectorAll('#members li').length > 1")
    salma.page.value("wb.overview.show().then(() => 0)")
    latin = sorted(set(salma.page.value(f"(wb.notes.told.said.length = 0, document.querySelector('#log').replaceChildren(), {SEEN})")) - set(LATIN))
    tally.check("nothing of it is English", not latin, str(latin))
    salma.page.value("document.getElementById('overview').close(); wb.side.show('people'); 0")
    tally.check("who erased is told", salma.page.wait("/محاه/.test(document.querySelector('#hidden li')?.textContent)"), salma.text_of("hidden"))
    anna.page.value("wb.side.show('people'); 0")
    tally.check("and in German", anna.page.wait("/^Du hast Handschrift gelöscht /.test(document.querySelector('#hidden li')?.textContent)"), anna.text_of("hidden"))
    for sheet in (anna, salma):
        nameless = sheet.page.value(NAMELESS)
        tally.check("all has a name", not nameless, str(nameless))
    salma.press("#hidden button")
    tally.check("it comes back", salma.page.wait("wb.ink.items.length === 1") and anna.page.wait("wb.ink.items.length === 1"))


def test_mirror(tally: Tally, anna: Sheet, salma: Sheet) -> None:
    for name, sheet, is_mirrored in (("German", anna, False), ("Arabic", salma, True)):
        sheet.page.value("wb.side.show('people'); 0")
        pages, faces, side = (sheet.page.value(f"{MIDDLE}('{chosen}')") for chosen in (".pages", ".session", "#side"))
        tally.check(f"{name}: the pages stand where reading begins", (pages > faces) == is_mirrored, f"{pages}, {faces}")
        tally.check(f"{name}: the panel stands where it ends", (side < 640) == is_mirrored, str(side))
        sheet.fold()
    for sheet in (anna, salma):
        sheet.page.value("wb.view.fit(); wb.view.home(); 0")
    tally.check("both sheets show one picture", salma.page.wait("!wb.painter.isPlanned") and anna.page.wait("!wb.painter.isPlanned") and anna.page.value(PICTURE) == salma.page.value(PICTURE))


def test_writing(tally: Tally, anna: Sheet, salma: Sheet) -> None:
    """What is typed from the right begins where the hand was, and a long message is one."""
    salma.page.value("wb.view.sheet.focus(); 0")
    salma.keys("t")
    salma.page.click(*at(salma, (600, 420))[0])
    salma.page.until("document.activeElement === wb.typing.box")
    salma.page.call("Input.insertText", text=QUESTION)
    begun, right = salma.page.value("(({ left, right }) => [left, right])(wb.typing.box.getBoundingClientRect())")
    tally.check("the box grows to the left", abs(right - 600) < 2 and begun < 500, f"{begun} to {right}")
    salma.page.key("Enter")
    found = f"wb.ink.items.find(({{ letters }}) => letters === {json.dumps(QUESTION)})"
    left = "(({ points: [{ x }] }) => x * wb.view.wide / 64 - wb.view.corner()[0])"
    # the box has room for about one letter more
    tally.check("so do the letters, in both windows", anna.page.wait(found) and salma.page.wait(found) and 0 < salma.page.value(f"{left}({found})") - begun < 40,
                str(salma.page.value(f"{left}({found})")))
    salma.page.value(f"wb.notes.say({json.dumps(QUESTION + ' ' + QUESTION)}); 0")
    anna.page.value("wb.side.show('chat'); 0")
    tally.check("what is said in several drawops is one message", anna.page.wait(
        f"document.querySelector('#log li:last-child span').textContent === {json.dumps(QUESTION + ' ' + QUESTION)}"), anna.text_of("log"))
    anna.fold()


def test_sizes(tally: Tally, anna: Sheet, salma: Sheet) -> None:
    for name, sheet in (("German", anna), ("Arabic", salma)):
        for width, height, hand in SIZES:
            sheet.be(width, height, "light", hand)
            for tool in ("pen", "frame", "text"):
                sheet.page.value(f"wb.hand.choose({tool!r}); wb.state.full = 0.81; wb.state.showNext(); 0")
                faults = sheet.page.value(f"{FAULTS}([{TARGET}, {FACE}])")
                tally.check(f"{name}: the layout of {width} points with the {tool}", not faults, str(faults))
            faults = sheet.page.value(f"({AWAY}({json.dumps(WAITING[name])}), {FAULTS}([{TARGET}, {FACE}]))")
            tally.check(f"{name}: the layout of {width} points while drawings wait", not faults, str(faults))
            sheet.page.value("wb.state.full = 0; wb.state.showNext(); wb.state.show(); 0")
            for dialog in ("files", "keys", "welcome", "overview", "inviting"):
                sheet.page.value(f"document.getElementById('{dialog}').showModal(); 0")
                fits = sheet.page.value(f"((box) => box.scrollWidth <= box.clientWidth && box.getBoundingClientRect().left >= 0)(document.getElementById('{dialog}'))")
                tally.check(f"{name}: {dialog} at {width} points", fits)
                sheet.page.value(f"document.getElementById('{dialog}').close(); 0")
        sheet.be(1280, 800, "light", "mouse")


def test_choice(tally: Tally, anna: Sheet) -> None:
    """The menu turns to another language, and back to that of the browser."""
    is_there = "typeof wb !== 'undefined' && wb.session.hello.ready && wb.session.board.page && !location.search"
    anna.press("#file")
    for language, direction, wished in (("ar", "rtl", "ar"), ("en", "ltr", "en"), ("de", "ltr", "")):
        if not wished:
            anna.page.call("Emulation.setUserAgentOverride", userAgent=anna.page.value("navigator.userAgent"), acceptLanguage="de-DE,en")
        anna.page.value(f"(() => {{ const choice = document.getElementById('language'); choice.value = '{wished}'; setTimeout(() => choice.dispatchEvent(new Event('change'))); }})()")
        anna.page.until(f"document.documentElement.lang === '{language}' && {is_there}")
        tally.check(f"the page is in {language}", anna.page.value("[document.documentElement.dir, document.getElementById('language').value].join()") == f"{direction},{wished}")
        tally.check("with its name", anna.page.wait("wb.session.called.get(wb.session.hello.me) === 'Anna'"))


def test_languages(tally: Tally, browser: Browser, room: Path, ports: int) -> None:
    member = Member(room, ports, "127.0.0.1:0", ["--record", str(room / "a.record"), "--teach", "--lose", "0.33"])
    sheets: list[Sheet] = []
    try:
        sheets += [window(browser, member, *words) for words in (("de", "Anna", "blau"), ("ar", "سلمى", "أحمر"))]
        anna, salma = sheets
        for test in (test_words, test_mirror, test_writing, test_sizes):
            test(tally, anna, salma)
        test_choice(tally, anna)
        tally.check("nothing that is pressed is covered", not COVERED, json.dumps(COVERED))
    finally:
        for sheet in sheets:
            sheet.page.close()
        member.end()
