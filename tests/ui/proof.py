"""What the page says while its program is not proved yet, and once it is."""
from __future__ import annotations

from ..live.browser import Browser
from ..live.test_proofs import Checkout
from .sheets import Tally

LINE = "document.getElementById('proof')"


def test_proof(tally: Tally, browser: Browser, ports: int) -> None:
    place = Checkout()
    member = place.start("--ports", "%d" % ports)
    try:
        page = browser.open("http://127.0.0.1:%d/%s/" % (member.port, member.token))
        tally.check("the page says that its program is not proved yet", page.wait(f"!{LINE}.hidden && {LINE}.textContent.startsWith('NOT PROVED YET')"))
        place.say("stage", "5 13 12 wb_board 34 of 128")
        tally.check("with a bar", page.wait(f"{LINE}.querySelector('progress').value === 5 && {LINE}.querySelector('progress').max === 13"))
        tally.check("and with crates and minutes", page.wait(f"{LINE}.textContent.includes('5 of 13 crates proved, 12 min')"))
        tally.check("the sheet has room beside it", page.value("document.getElementById('sheet').getBoundingClientRect().height > 300"))
        place.say("ends-0")
        tally.check("when the proof is done it says so", page.wait(f"{LINE}.textContent.includes('has changed over to it')"))
        tally.check("in another colour, and without a bar", page.value(f"{LINE}.classList.contains('proved') && {LINE}.querySelector('progress').hidden"))
    finally:
        member.end()
