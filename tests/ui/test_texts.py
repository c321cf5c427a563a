"""The table of texts: it has all that people see, in each language, and nothing else."""

from __future__ import annotations

import ast
import json
import re
from collections.abc import Iterator
from html.parser import HTMLParser
from pathlib import Path

from live.files import refusal
from live.judging import TWIN, WARNINGS, WHYS
from live.proving import ALONE, BESIDE, CHANGED, UNPROVED, Stage
from live.telling import NOTICE

from ..node import run_tests
from .sheets import TOP

HERE = Path(__file__).resolve().parent
PAGE, MEMBER = TOP / "live/ui", TOP / "web/member"
SCRIPT = (PAGE / "texts.js").read_text()
TEXTS: dict[str, list[object]] = json.loads(SCRIPT[SCRIPT.index("{\n"):SCRIPT.rindex("}") + 1])

# scripts whose texts people see where they stand; those of a worker tell texts in English, as a member behind HTTP does
SHOWING = [path for path in sorted(PAGE.glob("*.js")) if path.name != "texts.js"] + [MEMBER / "page.js", MEMBER / "panel.js"]

# the name that the window has until its scripts run, and what stands on keys
OWN = ("Whiteboard",)

# attributes that people see or hear, and those that name a text of the table
SEEN, NAMED = ("title", "aria-label", "placeholder", "alt"), ("data-text", "data-label", "data-tip", "data-title", "data-hint")

# two words beside each other, as no name, selector or path has them
WORDS = re.compile(r"[A-Za-z]{2,} [a-z]{2,}|[A-Z][a-z]+ [A-Za-z]{2,}")

# what is two words and no text of people: the words of operations and of SVG, names of fonts, and lists of selectors
OTHERS = re.compile(r"</?\w|^[#.@\[]|px |serif|monospace|input, textarea|^color-mix|island lost|^(text|line|frame|say|name|colour|next|place|gone|view) \$")

# in which members say what people come to see: by calls of these names
TELLING = ("warn", "Refused", "CannotFollow", "NoPlace")

# texts that a member tells otherwise, with values
TOLD = [*WHYS.values(), TWIN, *(text.format(origin="127.0.0.1:7", number=7) for text in WARNINGS.values()), NOTICE, NOTICE.replace("which is proved", "the program that WB_PROGRAM names"),
        UNPROVED + BESIDE, UNPROVED + ALONE, CHANGED, Stage("", False, fault="x").text(), Stage("", False, 5, 13, 12).progress(), Stage("", False, 5, 13, 12, "wb_board 34 of 128").progress(),
        "whole", "whole; nobody else is heard", "7 missing", "caught up 7 s ago", "busy", "this machine, port 1 of 1 to 32", "a class of its own", "the group 239.1.2.3:8000", "127.0.0.1:8000, with 3 peers", "the broker a.example, session monday, as anna",
        "the broker a.example, session monday, sealed by a key", "this machine, port 1 of 1 to 32, tagged by a key", "the broker a.example does not answer: x"]


class Index(HTMLParser):
    """The texts of an HTML file, what people see in its attributes, and the keys that it names."""

    def __init__(self) -> None:
        super().__init__()
        self.texts: list[str] = []
        self.keys: list[str] = []

    def handle_starttag(self, tag: str, attrs: list[tuple[str, str | None]]) -> None:
        self.texts += [value or "" for name, value in attrs if name in SEEN]
        self.keys += [value or "" for name, value in attrs if name in NAMED]

    def handle_data(self, data: str) -> None:
        self.texts.append(data.strip())


def index() -> Index:
    found = Index()
    found.feed((PAGE / "index.html").read_text())
    return found


def bare(path: Path) -> str:
    """A script without its comments."""
    text = re.sub(r"/\*.*?\*/", "", path.read_text(), flags=re.DOTALL)
    return re.sub(r"(^|\s)//.*", "", text)


def literals(script: str) -> Iterator[str]:
    """The texts of a script, with values as they are written."""
    for single, template in re.findall(r"'((?:[^'\\\n]|\\.)*)'|`((?:[^`\\]|\\.)*)`", script):
        yield single or template


def pattern(english: str) -> str:
    return "".join(".+" if part.startswith("{") else re.escape(part) for part in re.split(r"(\{\w+\})", english))


def is_told(text: str) -> bool:
    """Whether the table has what a member tells."""
    return any(key.startswith("told") and re.fullmatch(pattern(str(row[0])), text) for key, row in TEXTS.items())


def told_in_python(path: Path) -> Iterator[str]:
    for call in ast.walk(ast.parse(path.read_text())):
        name = getattr(call, "func", None)
        if not isinstance(call, ast.Call) or getattr(name, "id", getattr(name, "attr", "")) not in TELLING or not call.args:
            continue
        text = call.args[0].left if isinstance(call.args[0], ast.BinOp) else call.args[0]
        if isinstance(text, ast.Constant):
            yield re.sub("%[ds]", "7", str(text.value))


def told_in_scripts(path: Path) -> Iterator[str]:
    for _, text in re.findall(r"(?:\.warn\(|new (?:Refused|Error|BoardFault)\(|throw new \w+\()(['`])((?:(?!\1).)*)\1", bare(path)):
        yield re.sub(r"\$\{[^}]*\}", "7", text)


def test_units() -> None:
    run_tests(HERE / "texts.test.mjs")


def test_index() -> None:
    """No text stands in the HTML, and each key that it names is in the table."""
    found = index()
    assert [text for text in found.texts if re.search("[A-Za-z]{2}", text) and text not in OWN] == []
    assert [key for key in found.keys if key not in TEXTS] == []


def test_scripts() -> None:
    """No text stands in a script that shows it."""
    stray = [f"{path.name}: {text}" for path in SHOWING for text in literals(bare(path)) if WORDS.search(re.sub(r"\$\{[^}]*\}", "", text)) and not OTHERS.search(text)]
    assert [each for each in stray if not is_told(each.partition(": ")[2])] == []


def test_keys() -> None:
    """Each key is used."""
    scripts = "\n".join([*(bare(path) for path in SHOWING), (TOP / "live/files.py").read_text()])
    named = {*index().keys, *re.findall(r"'(\w+)'", scripts), *re.findall(r"\b(\w+): \(\) => toggle", scripts)}
    named |= {key for key in TEXTS if key.startswith(("told", "refused"))}
    # the tools, by the attribute that names them
    named |= set(re.findall(r'data-tool="(\w+)"', (PAGE / "index.html").read_text()))
    assert sorted(set(TEXTS) - named) == []
    assert sorted({key for key in re.findall(r"wording\('(\w+)'", scripts)} - set(TEXTS)) == []


def test_members() -> None:
    """What members tell people is in the table, but for what a host or a system says."""
    told = [*TOLD, *(text for path in sorted((TOP / "live").glob("*.py")) for text in told_in_python(path)),
            *(text for path in sorted(MEMBER.glob("*.js")) if path.name not in ("host.js", "datagram.js") for text in told_in_scripts(path))]
    assert len(told) > 50
    assert sorted({text for text in told if not is_told(text)}) == []


def test_refusals() -> None:
    """Whoever has a wrong address reads so in the language of the browser."""
    pages = [refusal(403, "host", accepted).decode() for accepted in ("", "fr,de-CH;q=0.8", "ar-EG, en")]
    assert [re.findall('lang="(.*?)" dir="(.*?)"', page) for page in pages] == [[("en", "ltr")], [("de", "ltr")], [("ar", "rtl")]]
    assert ["Ask whoever" in pages[0], "Frage, wer" in pages[1], "اسأل من" in pages[2]] == [True] * 3


