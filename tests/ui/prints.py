"""The page on paper: upright or on its side as it is drawn, on white by day and by night, round, its letters as text."""
from __future__ import annotations

from ..live.browser import SHIFT
from .inks import at, clean, is_settled
from .papers import FORMATS, Paper, printed
from .sheets import Sheet, Tally

WHITE = (1.0, 1.0, 1.0)
LETTERS = "Gr\u00f6\u00dfe E = mc\u00b2"

# two circles, one beside and one below the other, by the middle and the half of their width
PAGES = {"wide": [(200, 330, 60), (620, 330, 60)], "tall": [(200, 230, 40), (200, 560, 40)]}


def draw_page(sheet: Sheet, circles: list[tuple[int, int, int]]) -> None:
    """Circles with letters between them, drawn by hand."""
    for x, y, half in circles:
        sheet.keys("o")
        way = at(sheet, (x - half, y - half), (x, y), (x + half, y + half))
        sheet.page.press(*way[0])
        for kind, (px, py) in (("mouseMoved", way[1]), ("mouseMoved", way[2]), ("mouseReleased", way[2])):
            sheet.page.call("Input.dispatchMouseEvent", type=kind, x=px, y=py, button="left", buttons=1, modifiers=SHIFT)
    sheet.keys("t")
    sheet.page.click(*at(sheet, (180, 430))[0])
    sheet.page.until("document.activeElement === wb.typing.box")
    sheet.page.call("Input.insertText", text=LETTERS)
    sheet.page.key("Enter")
    is_settled(sheet, 3)


def check_paper(tally: Tally, paper: Paper, shape: str) -> None:
    circles = [mark for mark in paper.marks if not mark.is_filled]
    tally.check("the paper lies as the page is drawn", (paper.wide > paper.high) == (shape == "wide"), f"{paper.wide} by {paper.high}")
    tally.check("circles are round within 2 per cent", len(circles) == 2 and all(abs(mark.wide / mark.high - 1) < 0.02 for mark in circles), str(circles))
    tally.check("they are no larger than the paper, and no stamps", all(paper.high > mark.high > paper.high / 40 for mark in circles), str(circles))
    tally.check("letters are text", LETTERS in paper.text, paper.text)
    tally.check("the ground is white", all(mark.colour == WHITE for mark in paper.marks if mark.is_filled and mark.wide > paper.wide / 3), str(paper.marks))
    tally.check("what is drawn is dark", all(max(mark.colour) < 0.5 for mark in circles), str(circles))
    tally.check("nothing is a picture of the screen", not paper.has_pictures)


def test_prints(tally: Tally, one: Sheet, other: Sheet) -> None:
    for shape, circles in PAGES.items():
        clean(one, other)
        one.page.value("wb.style.set({ colour: 0, width: 2, size: 3, font: 0 }); 0")
        draw_page(one, circles)
        for scheme in ("dark", "light"):
            one.wish(scheme)
            for name in FORMATS:
                with tally.told(f"{shape}, {scheme}, {name}"):
                    papers = printed(one, name)
                    tally.check("one page of the board on one sheet", len(papers) == 1, str(len(papers)))
                    check_paper(tally, papers[0], shape)
        tally.check("nothing of it stays on the screen", one.page.value("document.getElementById('paper').childElementCount") == 0)
    test_all(tally, one)
    test_saved(tally, one)


def test_all(tally: Tally, one: Sheet) -> None:
    """All pages of the board, each as it lies."""
    one.page.value("window.print = () => { window.isPrinted = true; }; 0")
    one.press("#file")
    one.press("#print-all")
    one.page.until("window.isPrinted")
    drawn = int(one.page.value("Promise.all(wb.session.leaves().map(({ page }) => wb.session.member.read(page))).then((boards) => boards.filter(({ drawops }) => drawops.length).length)"))
    papers = printed(one, "A4")
    tally.check("each page that is drawn on has a sheet", len(papers) == drawn > 1, f"{len(papers)} of {drawn}")
    tally.check("some upright, some on their side", {paper.wide > paper.high for paper in papers} == {True, False})


def test_saved(tally: Tally, one: Sheet) -> None:
    """What is saved by night is white too."""
    one.wish("dark")
    ground = one.page.value("""(() => {
        const canvas = document.createElement('canvas');
        wb.files.pngOfInk(canvas);
        return [...canvas.getContext('2d').getImageData(0, 0, 1, 1).data].join();
    })()""")
    tally.check("a PNG is white by night", ground == "255,255,255,255", str(ground))
    svg = str(one.page.value("wb.files.svg(wb.session.board)"))
    tally.check("so is an SVG, and what is drawn on it is dark", 'height="100%" fill="#ffffff"' in svg and 'stroke="#1d2433"' in svg, svg[:600])
    one.wish("light")
