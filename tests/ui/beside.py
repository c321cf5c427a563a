"""What stands beside the sheet, the wishes of the system, and what the policy keeps out."""
from __future__ import annotations

import json
import time

from ..live.browser import PATIENCE

from .sheets import Sheet, Tally

# what stands on what, by the names of the page's colours; AA asks for a contrast of 4.5
PAIRS = [("ink", "paper"), ("ink", "panel"), ("ink", "soft"), ("quiet", "panel"), ("quiet", "paper"), ("accent", "paper"), ("accent", "soft"),
         ("on-accent", "accent"), ("good", "panel"), ("good", "paper"), ("good", "soft"), ("warn", "panel"), ("warn", "paper"), ("bad", "panel"), ("bad", "paper"),
         ("bad", "bad-soft"), ("warn", "warn-soft"), *((member, ground) for member in range(60) for ground in ("paper", "soft"))]

# looks whether it is night between all that the page does, until the test says to look no more
LOOKS = """(() => {
    const { port1, port2 } = new MessageChannel();
    port1.onmessage = () => { wb.painter.isNight(); if (window.looks) port2.postMessage(0); };
    port2.postMessage(0);
})()"""

CONTRAST = """(([front, ground]) => {
    const style = getComputedStyle(document.documentElement);
    const light = (name) => {
        const digits = (typeof name === 'number' ? wb.painter.tintOf(name) : style.getPropertyValue('--' + name).trim()).slice(1);
        const [r, g, b] = [0, 2, 4].map((i) => parseInt(digits.slice(i, i + 2), 16) / 255)
            .map((c) => c <= 0.04045 ? c / 12.92 : ((c + 0.055) / 1.055) ** 2.4);
        return 0.2126 * r + 0.7152 * g + 0.0722 * b;
    };
    const [low, high] = [light(front), light(ground)].sort((a, b) => a - b);
    return (high + 0.05) / (low + 0.05);
})"""


def test_meeting(tally: Tally, one: Sheet, other: Sheet) -> None:
    for sheet in (one, other):
        tally.check("two members are shown", sheet.page.wait("document.querySelectorAll('#members li').length === 2"), sheet.text_of("members"))
        tally.check("it may draw", sheet.page.wait("wb.session.hello.ready"))
    tally.check("the first line is told", "not proved" in one.text_of("notice"), one.text_of("notice"))


def test_side(tally: Tally, one: Sheet, other: Sheet) -> None:
    one.page.value("document.getElementById('pause').click()")
    seen = one.page.value("document.getElementById('wire').textContent")
    other.page.value("wb.session.send('text 60 3 \"while it is paused\"')")
    tally.check("the wire stands while it is paused", one.shows(60, 3, "while") and one.page.value("document.getElementById('wire').textContent") == seen)
    one.page.value("document.getElementById('pause').click()")
    tally.check("it goes on", one.page.wait("document.getElementById('wire').textContent.includes('paused')"))
    one.page.value("document.getElementById('filter').value = 'repairs'; document.getElementById('filter').dispatchEvent(new Event('change'))")
    tally.check("it is filtered", one.page.wait("!document.getElementById('wire').textContent.includes('session-message')"))
    one.page.value("""document.querySelector('#worsen input').value = 100; document.querySelector('#worsen input').dispatchEvent(new Event('change', { bubbles: true }))""")
    tally.check("a part is lost on purpose", one.page.wait("wb.session.hello.worsen.lose === 0.9"), str(one.page.value("JSON.stringify(wb.session.hello.worsen)")))
    one.page.value("""document.querySelector('#worsen input').value = 0; document.querySelector('#worsen input').dispatchEvent(new Event('change', { bubbles: true }))""")
    tally.check("nothing is lost on purpose any more", one.page.wait("wb.session.hello.worsen.lose === 0"))
    tally.check("the delay to the other is shown", one.page.wait("[...document.querySelectorAll('#members li')].some(({ title }) => / ms away/.test(title))"), one.text_of("members"))


def test_policy(tally: Tally, one: Sheet) -> None:
    """What would come in as a script is none."""
    one.page.value("""(() => {
        const script = document.createElement('script');
        script.textContent = 'window.ran = true';
        document.body.append(script, Object.assign(document.createElement('div'), { innerHTML: '<img src="data:," onerror="window.ran = true">' }));
    })()""")
    tally.check("no other script runs", not one.page.wait("window.ran", 0.3))
    tally.check("no text is run", one.page.value("(() => { try { return eval('1'); } catch (fault) { return fault.name; } })()") == "EvalError")
    tally.check("no other address is asked", one.page.value("fetch('http://127.0.0.1:1/').then(() => 'asked', () => 'not')") == "not")
    end = time.monotonic() + PATIENCE
    while len(one.page.browser.faults) < 3 and time.monotonic() < end:
        one.page.value("0")  # what the browser tells is read with each answer
    tally.check("the policy has told so", len(one.page.browser.faults) >= 3, str(one.page.browser.faults))


def test_night(tally: Tally, one: Sheet, other: Sheet) -> None:
    """A browser tells of no change that a script has read before it tells: so the page looks as often as it can meanwhile."""
    one.page.value(f"window.looks = true; {LOOKS}; 0")
    for scheme in ("dark", "light") * 3:
        tally.check(f"the page comes to be {scheme}, however often it looks", one.wish(scheme))
    one.page.value("window.looks = false; 0")


def test_wishes(tally: Tally, one: Sheet, other: Sheet) -> None:
    for scheme in ("light", "dark"):
        one.wish(scheme)
        low = [(pair, found) for pair in PAIRS if (found := one.page.value(f"{CONTRAST}({json.dumps(pair)})")) < 4.5]
        tally.check(f"the contrast of all colours, {scheme}", not low, str(low))
    one.page.prefer(reduced_motion="reduce")
    tally.check("no motion where none is asked for", bool(one.page.value("getComputedStyle(document.getElementById('undo')).transitionDuration === '0s'")))
    one.page.call("Emulation.setEmulatedMedia", media="print")
    one.page.value("dispatchEvent(new Event('beforeprint')); 0")
    tally.check("the page's characters are printed as text, and nothing else", bool(one.page.value(
        "document.querySelector('#paper text').getClientRects().length > 0 && [...document.querySelectorAll('.island, #sheet, #text')].every((each) => !each.getClientRects().length)")))
    one.page.value("dispatchEvent(new Event('afterprint')); 0")
    one.page.call("Emulation.setEmulatedMedia", media="")
