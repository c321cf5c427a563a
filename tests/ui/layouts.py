"""How the page is laid out: nothing lies on anything else, nothing is cut off, and what is pressed is large enough."""
from __future__ import annotations

from .sheets import Sheet, Tally
from .tools import USUAL

# windows by width, height and hand
SIZES = ((1920, 1080, "mouse"), (1600, 1000, "mouse"), (1280, 720, "mouse"), (1024, 700, "mouse"), (820, 1180, "finger"), (600, 960, "finger"), (390, 844, "finger"),
         (844, 390, "finger"), (320, 640, "finger"))

# points of a side of what is pressed, but for faces
TARGET, FACE = 40, 36

# names of tools that have their own row of style
TOOLS = ("pen", "marker", "frame", "text", "note")

# what lies on what, what goes out of the window, what is smaller than it may be, and what has no name
FAULTS = """(([target, face]) => {
    const shown = (each) => each.getClientRects().length > 0;
    const name = (each) => each.id || each.dataset.tool || each.className;
    const islands = [...document.querySelectorAll('.island')].filter(shown), boxes = islands.map((each) => each.getBoundingClientRect()), faults = [];
    boxes.forEach((a, i) => {
        if (a.left < 0 || a.top < 0 || a.right > innerWidth + 0.5 || a.bottom > innerHeight + 0.5) faults.push(name(islands[i]) + ' is cut off');
        boxes.slice(0, i).forEach((b, k) => {
            if (a.left < b.right - 0.5 && b.left < a.right - 0.5 && a.top < b.bottom - 0.5 && b.top < a.bottom - 0.5) faults.push(name(islands[i]) + ' on ' + name(islands[k]));
        });
    });
    for (const button of [...document.querySelectorAll('.island button, .island select')].filter(shown)) {
        const { width, height } = button.getBoundingClientRect(), least = button.closest('#faces') ? face : target;
        if (Math.min(width, height) < least - 0.5) faults.push(name(button) + ' is ' + width + ' by ' + height);
        if (!(button.getAttribute('aria-label') || button.textContent.trim() || button.labels?.length)) faults.push(name(button) + ' has no name');
    }
    if (document.documentElement.scrollWidth > innerWidth) faults.push('wider than the window');
    return faults;
})"""


# what has no name for screen readers
NAMELESS = """[...document.querySelectorAll('button, select, textarea, input:not([hidden])')].filter((each) =>
    !(each.getAttribute('aria-label') || each.getAttribute('aria-labelledby') || each.textContent.trim() || each.labels?.length)).map(({ outerHTML }) => outerHTML)"""


def test_layouts(tally: Tally, one: Sheet, other: Sheet) -> None:
    """At nine sizes, by day and by night, in both looks and with each row of style."""
    nameless = one.page.value(NAMELESS)
    tally.check("what is pressed or filled in has a name, wherever it stands", not nameless, str(nameless))
    for width, height, hand in SIZES:
        for scheme in ("light", "dark"):
            one.be(width, height, scheme, hand)
            with tally.told(f"{width} points, {scheme}"):
                check_layout(tally, one)
    one.be(*USUAL)
    one.look("cells")
    one.page.value("wb.view.fit(); wb.view.home(); 0")


def check_layout(tally: Tally, one: Sheet) -> None:
    one.look("ink")
    for tool in TOOLS:
        one.page.value(f"wb.hand.choose({tool!r}); 0")
        faults = one.page.value(f"{FAULTS}([{TARGET}, {FACE}])")
        tally.check(f"the layout with the {tool}", not faults, str(faults))
        one.page.value("wb.style.open(true); 0")
        faults = one.page.value(f"{FAULTS}([{TARGET}, {FACE}])")
        tally.check(f"the layout with all that the {tool} draws with", not faults, str(faults))
        one.page.value("wb.style.open(false); 0")
    one.page.value("wb.hand.choose('pen'); wb.state.full = 0.81; wb.state.showNext(); document.getElementById('away').hidden = false; 0")
    faults = one.page.value(f"{FAULTS}([{TARGET}, {FACE}])")
    tally.check("the layout with what is told of a full board, and the way back", not faults, str(faults))
    one.page.value("wb.state.full = 0; wb.state.showNext(); wb.sight.showAway(); 0")
    one.look("cells")
    faults = one.page.value(f"{FAULTS}([{TARGET}, {FACE}])")
    tally.check("the layout of the characters", not faults, str(faults))
    one.press("#fold")
    tally.check("the panel is in the window", bool(one.page.value("""(() => {
        const { left, top, right, bottom } = document.getElementById('side').getBoundingClientRect();
        return left >= 0 && top >= 0 && right <= innerWidth + 0.5 && bottom <= innerHeight + 0.5 && document.getElementById('close-side').getClientRects().length > 0;
    })()""")))
    one.press("#close-side")
    one.page.value("wb.view.sheet.focus(); 0")
