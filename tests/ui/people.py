"""Names, titles and the chat; what is saved and opened; all pages at a glance."""
from __future__ import annotations

import json
import tempfile

from ..live.browser import CONTROL

from .sheets import Sheet, Tally
from .tools import PASTE, USUAL, WINDOWS, has, on_a_new_page

# what a page would hand to the user, by its ending
CATCH = """(window.saved = {}, wb.files.save = (ending, kind, content) => {
    Promise.resolve(typeof content === 'string' ? content : content.arrayBuffer().then((bytes) => [...new Uint8Array(bytes)].slice(0, 8).join(' ')))
        .then((text) => { window.saved[ending] = text; });
}, 0)"""


def ask(sheet: Sheet, button: str, text: str) -> None:
    """Fills in the form that a button opens."""
    sheet.press(button)
    sheet.page.until("document.getElementById('asking').open && document.activeElement.id === 'asked'")
    sheet.page.call("Input.insertText", text=text)
    sheet.press("#asking [value=ok]")


def introduce(sheet: Sheet, name: str, colour: str) -> None:
    """Tells a name and a colour by the form that asks for them."""
    sheet.unfold("#my-name")
    sheet.press("#my-name")
    sheet.page.until("document.getElementById('welcome').open && document.activeElement.id === 'welcome-name'")
    sheet.page.value("document.getElementById('welcome-name').select()")
    sheet.page.call("Input.insertText", text=name)
    sheet.press(f"#welcome-colours [aria-label={colour}]")
    sheet.press("#welcome [value=ok]")


def test_names(tally: Tally, one: Sheet, other: Sheet, name: str) -> None:
    introduce(one, name, "violet")
    initials = "".join(word[0] for word in name.split())
    tally.check("a name is known to others", other.page.wait(f"document.getElementById('members').textContent.includes('{name}')"), other.text_of("members"))
    tally.check("with its initials", other.page.wait(f"[...document.querySelectorAll('#members i')].some((mark) => mark.textContent === '{initials}')"))
    tally.check("and the colour that was chosen", other.page.wait(f"wb.painter.tintOf({one.page.value('wb.session.hello.me')}) === wb.style.tintOf(7)"))
    tints = one.page.value("new Set([...document.querySelectorAll('#members i')].map((mark) => mark.style.getPropertyValue('--c'))).size")
    tally.check("no two members have one colour", tints == 2, str(tints))
    one.fold()
    on_a_new_page(one, other)
    one.page.value("wb.session.send('line 3 3 9 3 #').then(({ ok }) => ok)")
    said = f"/^{name} .*drew a line at 3, 3/.test(document.getElementById('said').textContent)"
    tally.check("who listens hears who drew what", other.page.wait(said), other.text_of("said"))
    one.press("#file")
    title = f"The roof of {name.split()[0]}"
    ask(one, "#entitle", title)
    tally.check("a title is known to others", other.page.wait(f"document.getElementById('pages').selectedOptions[0].textContent === '{title}'"),
                other.text_of("pages"))
    tally.check("the reserved page is no leaf", not other.page.value("wb.session.leaves().some(({ page }) => page === '0/0')"))


def test_chat(tally: Tally, one: Sheet, other: Sheet, name: str) -> None:
    one.unfold("#saying")
    one.press("#saying")
    one.page.call("Input.insertText", text=f'hello <b>all</b> "you" by {name}')
    one.press("#chat button")
    tally.check("what is said is heard", other.page.wait(f"document.getElementById('log').textContent.includes('hello <b>all</b> \"you\" by {name}')"), other.text_of("log"))
    tally.check("as text", not other.page.value("document.querySelectorAll('#log li b b').length"))
    lines = other.page.value("document.querySelectorAll('#log li').length")
    one.press("#saying")
    one.page.call("Input.insertText", text="word " * 40)
    one.page.key("Enter")
    long = f"document.querySelectorAll('#log li').length === {lines} + 1 && document.querySelector('#log li:last-child span').textContent === {json.dumps(('word ' * 40).strip())}"
    tally.check("a long one is one, though it goes in pieces", other.page.wait(long), other.text_of("log"))
    one.fold()


def test_opening(tally: Tally, one: Sheet, other: Sheet, name: str) -> None:
    """A text of a file is drawn, as one step. Cells have letters of ASCII alone."""
    name = name if name.isascii() else "somebody"
    on_a_new_page(one, other)
    one.page.value("wb.hand.pointer = null; Object.assign(wb.hand.cursor, { x: 2, y: 2, on: true }); 0")
    one.page.call("Page.setInterceptFileChooserDialog", enabled=True)
    one.press("#file")
    one.press("#open-text")
    with tempfile.NamedTemporaryFile("w", suffix=".txt") as file:
        file.write(f"roof\n  of {name}\n")
        file.flush()
        root = one.page.call("DOM.getDocument")["root"]["nodeId"]
        node = one.page.call("DOM.querySelector", nodeId=root, selector="#opened")["nodeId"]
        one.page.call("DOM.setFileInputFiles", files=[file.name], nodeId=node)
        tally.check("a text is opened as drawings", other.shows(2, 2, "roof") and other.shows(2, 3, f"  of {name}"), other.text_of("text"))
    one.page.call("Page.setInterceptFileChooserDialog", enabled=False)
    one.page.value("wb.view.sheet.focus(); 0")
    one.page.key("z", CONTROL)
    tally.check("which is one step", has(other, 0))


def test_files(tally: Tally, one: Sheet, other: Sheet, name: str) -> None:
    on_a_new_page(one, other)
    one.page.value("wb.hand.pointer = null; Object.assign(wb.hand.cursor, { x: 2, y: 1, on: true }); 0")
    one.page.value(f"{PASTE}({json.dumps('frame 2 1 8 3 #' + chr(10) + 'text 3 2 ' + chr(34) + 'a<b&c' + chr(34))})")
    tally.check("what was pasted is shown", one.shows(2, 1, "#######") and one.shows(3, 2, "a<b&c"))
    one.page.until("wb.session.leaves().some(({ page, drawn }) => page === wb.session.board.page && drawn === 2)")
    one.page.value(CATCH)
    for button in ("save-text", "save-svg", "save-png", "save-html", "save-record"):
        one.press("#file")
        one.page.until("document.getElementById('files').open")
        one.press(f"#{button}")
    tally.check("all are saved", one.page.wait("Object.keys(saved).length === 5"), str(one.page.value("Object.keys(saved).join()")))
    tally.check("a page as text", one.page.value("saved.txt") == "\n  #######\n  #a<b&c#\n  #######\n", repr(one.page.value("saved.txt")))
    tally.check("as SVG, with its letters", one.page.value(
        "(() => { const svg = new DOMParser().parseFromString(saved.svg, 'image/svg+xml'); "
        "return !svg.querySelector('parsererror') && [...svg.querySelectorAll('text')].some((text) => text.textContent.includes('a<b&c')); })()"))
    tally.check("as PNG", one.page.value("saved.png") == "137 80 78 71 13 10 26 10", str(one.page.value("saved.png")))
    tally.check("all pages as one HTML file that needs nothing", one.page.value(
        "(() => { const page = new DOMParser().parseFromString(saved.html.replace(/<style>.*?<.style>/, ''), 'text/html'); "
        "return page.querySelectorAll('section svg').length === wb.session.leaves().length && !page.querySelector('script, link, img, [src], [href]'); })()"))
    tally.check("the record", one.page.value("saved.record.startsWith('#') && saved.record.includes('say draw')"), str(one.page.value("saved.record"))[:200])


def test_glances(tally: Tally, one: Sheet, other: Sheet, name: str) -> None:
    before = one.page.value("wb.session.board.page")
    one.press("#all")
    tally.check("all pages are seen at a glance", one.page.wait("document.querySelectorAll('#glances .turn').length === wb.session.leaves().length"))
    inked = one.page.value("""[...document.querySelectorAll('#glances canvas')].filter((canvas) =>
        canvas.getContext('2d').getImageData(0, 0, canvas.width, canvas.height).data.some((part, i, all) => part !== all[i % 4])).length""")
    tally.check("with what they show", inked > 1, str(inked))
    one.press("#glances [aria-current=false]")
    tally.check("one of them is turned to", one.page.wait(f"wb.session.board.page !== {json.dumps(before)} && !document.getElementById('overview').open"))
    one.page.value(f"wb.session.goToPage({json.dumps(before)}); 0")
    one.page.until(f"wb.session.board.page === {json.dumps(before)}")


def test_people(tally: Tally, one: Sheet, other: Sheet) -> None:
    """All of it by mouse, by a finger and by keys, in windows of each kind."""
    names = iter(("Ada Lovelace", "Zo\u00eb M\u00fcller", "\u5c71\u7530 \u82b1\u5b50"))
    for width, height, scheme, hand in ((*WINDOWS[0][:3], "keys"), WINDOWS[2], WINDOWS[3]):
        one.be(width, height, scheme, hand)
        name = next(names)
        for test in (test_names, test_chat, test_opening, test_files, test_glances):
            with tally.told(f"{width} points, {scheme}, {hand}"):
                test(tally, one, other, name)
    one.be(*USUAL)
    one.page.value("wb.view.home(); wb.view.sheet.focus(); 0")
