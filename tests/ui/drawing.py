"""What is drawn, by mouse and by keys, and what is deleted and restored."""
from __future__ import annotations

from ..live.browser import CONTROL, SHIFT

from .sheets import Sheet, Tally


def test_mouse(tally: Tally, one: Sheet, other: Sheet) -> None:
    one.keys("l")
    one.drag((4, 2), (13, 2))
    tally.check("a line drawn by mouse appears in the other window", other.shows(4, 2, "*" * 10))
    tally.check("it is painted", other.is_inked(8, 2) and not other.is_inked(8, 4, 0.0))
    tally.check("it is on one's own page", one.shows(4, 2, "*" * 10))
    one.page.press(*one.point(4, 6))
    one.page.mouse("mouseMoved", *one.point(13, 9))
    tally.check("a ghost is painted before it is let go", one.is_inked(7, 7))
    tally.check("a ghost is nobody's drawing", not one.shows(4, 6, "*", 0.3) and not other.shows(4, 6, "*", 0.1))
    one.page.key("Escape")
    one.page.mouse("mouseReleased", *one.point(13, 9))
    tally.check("Escape drops it", not other.shows(4, 6, "*", 0.5))
    one.keys("f", "g", "#")
    tally.check("a glyph is chosen", one.page.wait("wb.hand.glyph === '#'"))
    one.drag((20, 4), (30, 8))
    tally.check("a frame appears in the other window", other.shows(20, 4, "#" * 11) and other.shows(20, 6, "#         #"))
    other.page.mouse("mouseMoved", *other.point(25, 4), pressed=False)
    who = f"frame by Guest {str(one.page.value('wb.session.hello.me'))[-2:]}, number 2"
    tally.check("who drew the cell is told", other.page.wait(f"document.getElementById('under').textContent.includes('{who}')"), other.text_of("under"))


def test_text(tally: Tally, one: Sheet, other: Sheet) -> None:
    text = '<b>"bold"</b> \\ <script>alert(1)</script>'
    one.keys("t")
    one.click(4, 12)
    one.page.write(text)
    one.page.key("Enter")
    tally.check("a text is shown as it was typed", other.shows(4, 12, text), other.text_of("text"))
    tally.check("it is no HTML", not other.page.value("document.querySelectorAll('#text b, #wire b, #under b, body > b, script:not(:last-of-type)').length"))
    tally.check("the wire has its words", other.page.wait("document.getElementById('wire').textContent.includes('<b>')"))
    one.click(4, 14)
    one.page.call("Input.insertText", text="na\u00efve")
    tally.check("a letter that there is not is told at once", one.page.wait("document.getElementById('told').textContent.startsWith('\u00ef cannot')"))
    one.page.key("Enter")
    tally.check("what can be drawn is shown first", one.page.wait("wb.typing.box.value === 'naive'") and not other.shows(4, 14, "na", 0.3))
    one.page.key("Escape")
    tally.check("Escape drops a text", not other.shows(4, 14, "na", 0.5))


def test_delete(tally: Tally, one: Sheet, other: Sheet) -> None:
    other.keys("d")
    other.click(8, 2)
    tally.check("a delete hides it in the other window", one.shows(4, 2, " " * 10) and other.shows(4, 2, " " * 10))
    one.page.value("wb.side.show('people'); 0")
    tally.check("it stands in the list of what was erased", one.page.wait("document.querySelectorAll('#hidden li').length === 1"))
    one.page.value("wb.side.close(); 0")
    one.keys("r")
    one.click(8, 2)
    tally.check("a restore shows it again", other.shows(4, 2, "*" * 10))
    one.page.key("z", CONTROL)
    tally.check("undo takes back one's own last step", other.shows(4, 2, " " * 10) and one.shows(4, 2, " " * 10))
    one.page.key("z", CONTROL | SHIFT)
    tally.check("redo does it again", other.shows(4, 2, "*" * 10))


def test_keys(tally: Tally, one: Sheet, other: Sheet) -> None:
    """The other member has no mouse."""
    seen = set()
    for _ in range(60):
        other.keys("Tab")
        seen.add(other.page.value("document.activeElement.id || document.activeElement.dataset.tool"))
    wanted = {"select", "pen", "line", "arrow", "frame", "block", "text", "erase", "glyph", "undo", "redo", "pages", "new", "all", "fold", "file", "sheet", "fit", "state"}
    tally.check("Tab comes to everything", wanted <= seen, str(wanted - seen))
    other.page.value("wb.view.sheet.focus()")
    other.keys("l", "g", "+")
    other.page.value("Object.assign(wb.hand.cursor, { x: 40, y: 10, on: true })")
    other.keys("Enter")
    other.walk(5, 0)
    other.keys("Enter")
    tally.check("a line is drawn by keys", one.shows(40, 10, "++++++") and other.shows(40, 10, "++++++"), one.text_of("text"))
    other.keys("d", "Enter", "Enter")
    tally.check("it is deleted by keys", one.shows(40, 10, " " * 6) and other.shows(40, 10, " " * 6))
    other.keys("r", "Enter")
    tally.check("it is restored by keys", one.shows(40, 10, "++++++") and other.shows(40, 10, "++++++"))
    other.keys("t")
    other.walk(0, 2)
    other.keys("Enter")
    tally.check("a text is begun by keys", other.page.wait("document.activeElement === wb.typing.box"))
    other.page.write("typed")
    other.keys("Enter")
    tally.check("it is sent by Enter", one.shows(45, 12, "typed"))
