"""What drivers say to a host: each word is one of its lines, and each line is said.

Drivers are wb-live, the page, the laboratory and the packages. A line stands in the tables of HOST-LINES and in the crates that read it, a call by
bytes in include/wb.h. What is said to a judged host is a case of the sessions that laws speak of, or asks only.
"""

from __future__ import annotations

import re
from functools import cache

import pytest

from wb import library

from .said_in_python import EACH, NotUnderstood, Said, Teller, files_of
from .said_in_scripts import SaidInScripts
from .sources import CRATES, TOP

LINES = (TOP / "docs" / "HOST-LINES.md").read_text()
HEADER = (TOP / "include" / "wb.h").read_text()
HOST_OF_SCRIPTS = TOP / "web" / "member" / "host.js"
SESSIONS = "".join(path.read_text() for path in sorted((CRATES / "wb_judged_sessions" / "specs").glob("*.antt")))

# each case of `JudgedCall`, and the first words of its lines
CASES = {"Starts": {"board", "judge", "held"}, "Takes": {"came", "tick", "add", "wall", "gone", "held"}, "Tunes": {"tuning"}}
ASKS = {"members", "list", "lacks", "paint", "since", "words", "show", "view", "gaps", "report", "pages", "known", "next", "version", "digest"}
# the page says a drawing of ours that a record has to a host that is not judged, for its datagram
NOT_JUDGED = {"say"}

# Of the Python of each driver: the files, how it names a host, the lines that are read from a record or from another member, and how else
# objects of a class are named.
PYTHON: dict[str, tuple[tuple[str, ...], str, dict[str, str], dict[str, set[str]]]] = {
    "live": (("live/*.py", "live/carriers/*.py"), "host", {"held.board": "board", "given.told": "held"}, {}),
    "lab": (("lab/laboratory/*.py", "lab/laboratory/figures/*.py"), "host", {}, {"hostmember": {"member"}}),
    "python": (("python/wb/*.py",), "by", {}, {"lines": {"calls"}}),
}
# the same of scripts: the folder, and the lines that are read from a record
SCRIPTS = {
    "page": ("web/member/", {("web/member/board.js", "board"): "board", ("web/member/held.js", "board"): "board", ("web/member/held.js", "line"): "say"}),
    "javascript": ("javascript/", {("javascript/record.js", "found"): "board"}),
}

# why nobody here says a line
UNSAID = {
    "arrive": "scripts have it, and `datagram` does the same",
    "hear": "scripts have it, and `datagram` does the same",
    "ask": "it is for a driver that wants chosen names, and a look wants all",
    "stop": "it is for a driver that gives names up, and self-managing hosts do so themselves",
    "lacks": "drivers here count what is missing with what no member told left out",
    "words": "wb-live asks `wb words`, which outlives a host, and the page reads bytes itself",
}


def host_words() -> set[str]:
    """The first words of all lines that a host knows, of whichever kind, by the tables."""
    lines = LINES[LINES.index("## The lines"):LINES.index("A block has these lines")]
    return {word for row in re.findall(r"^\| (`.*?) \|", lines, re.M) for word in re.findall(r"`([a-z]+)", row)}


def read_words() -> set[str]:
    """The same by what reads lines."""
    texts = [(CRATES / it).read_text() for it in ("wb_dialog/src/parsing.rt", "wb_dialog/src/judged_parsing.rt", "wb_commands/src/parsing.rt")]
    return {word for text in texts for word in re.findall(r'(?:is_word\(word, |behind\(line, |word == )b"([a-z]+)"', text)}


def said_by_python(driver: str, planted: tuple[str, str] = ("", "")) -> set[str]:
    patterns, host, kept, named = PYTHON[driver]
    tellers = [Teller(host, name, 0, (EACH,) if name in ("ask_all", "give") else ()) for name in ("ask", "ask_all", "give", "take_all")]
    said = Said(with_planted(files_of(TOP, *patterns), planted), tellers, kept, named)
    assert said.used == set(kept), "each line of a record is said"
    return said.words


def said_by_scripts(driver: str, planted: tuple[str, str] = ("", "")) -> set[str]:
    folder, kept = SCRIPTS[driver]
    files = {file: text for file, text in files_of(TOP, f"{folder}*.js").items() if TOP / file != HOST_OF_SCRIPTS}
    said = SaidInScripts(with_planted(files, planted), kept)
    assert said.used == set(kept), "each line of a record is said"
    return said.words


def with_planted(files: dict[str, str], planted: tuple[str, str]) -> dict[str, str]:
    """The files, and one that has another text in the place of the first, if that stands once."""
    right, wrong = planted
    assert not right or sum(text.count(right) for text in files.values()) == 1
    return {file: text.replace(right, wrong) if right else text for file, text in files.items()}


@cache
def said() -> dict[str, set[str]]:
    """What each driver says."""
    return {**{driver: said_by_python(driver) for driver in PYTHON}, **{driver: said_by_scripts(driver) for driver in SCRIPTS}}


def called_by_page() -> set[str]:
    """The lines that the page has calls by bytes for."""
    calls = {name for text in files_of(TOP, "web/member/*.js").values() for name in re.findall(r"\(host\) => host\.(\w+)\(", text)}
    return {{"cameFrom": "came"}.get(name, name) for name in calls}


def test_tables_have_what_is_read() -> None:
    assert host_words() == read_words() and len(host_words()) == 34


@pytest.mark.parametrize("driver", [*PYTHON, *SCRIPTS])
def test_each_word_is_a_line(driver: str) -> None:
    assert said()[driver] - host_words() == set()


def test_each_line_is_said() -> None:
    assert host_words() - {word for words in said().values() for word in words} == set(UNSAID)


def test_calls_by_bytes() -> None:
    """Each that a package makes is declared, and each that is declared is made."""
    declared = set(re.findall(r"^(?:uint32_t |uint64_t |void |const char \*)(wb_\w+)\(", HEADER, re.MULTILINE))
    by_python = set(re.findall(r'(?:\.call\("|library\.|load\(\)\.)(wb_\w+)', (TOP / "python" / "wb" / "library.py").read_text()))
    by_scripts = set(re.findall(r"\bcalls\.(wb_\w+)\(", HOST_OF_SCRIPTS.read_text()))
    assert by_python | by_scripts == declared
    assert declared - by_python == {"wb_gone"}, "only some networks say who is gone, and no carrier of the package for Python does"
    assert declared - by_scripts == set()


def test_questions() -> None:
    """Each package asks each question, by its number."""
    declared = {name: int(number) for name, number in re.findall(r"^    WB_ASK_(\w+) = (\d+)", HEADER, re.MULTILINE)}
    asked = set(re.findall(r"\bASK_(\w+)", (TOP / "python" / "wb" / "library.py").read_text().partition("class Bytes")[2]))
    assert {name: getattr(library, f"ASK_{name}") for name in asked} == declared
    script = (TOP / "javascript" / "wb.js").read_text()
    numbers = dict(re.findall(r"\b([A-Z]+) = (\d+)\b", script))
    assert {name: int(numbers[name]) for name in re.findall(r"\.items\([^;]*?, ([A-Z]+), ", script)} == declared


# a wrong word in the place of a line's first, and what is said then that no host reads
WRONG = {
    "live": ('"tuning "', '"tunning "', "tunning"),
    "lab": ('f"look {PAGE}"', 'f"peek {PAGE}"', "peek"),
    "python": ('"wall %d %d"', '"time %d %d"', "time"),
    "page": ("`list ${most}`", "`lists ${most}`", "lists"),
    "javascript": ("`keep ${rate} ${listen}`", "`keeps ${rate} ${listen}`", "keeps"),
}
# forms that are not understood
FORMS = {
    "live": ('self.tell("view %d %d" % page)', "self.tell(page.line)"),
    "lab": ('["tuning " + " ".join(map(str, constants))]', "[self.policy.line(constants)]"),
    "python": ('self.must("keep %d %d" % (rate, listen))', "self.must(*rate)"),
    "page": ("board.tell('members')", "board.tell(this.line.of.members)"),
    "javascript": ("this.must('version')", "this.must(lineOf.version)"),
}


@pytest.mark.parametrize("driver", WRONG)
def test_finds_wrong_words(driver: str) -> None:
    right, wrong, word = WRONG[driver]
    found = said_by_python(driver, (right, wrong)) if driver in PYTHON else said_by_scripts(driver, (right, wrong))
    assert found - host_words() == {word}


@pytest.mark.parametrize("driver", FORMS)
def test_finds_other_forms(driver: str) -> None:
    with pytest.raises(NotUnderstood):
        said_by_python(driver, FORMS[driver]) if driver in PYTHON else said_by_scripts(driver, FORMS[driver])


def test_cases() -> None:
    """A judged session has these cases, and no other."""
    declared = re.findall(r"^pub data JudgedCall : .*\n((?:  .*\n)+)", SESSIONS, re.M)
    assert [re.findall(r"^  (\w+) :", block, re.M) for block in declared] == [list(CASES)]
    assert set.union(ASKS, *CASES.values()) <= host_words()


@pytest.mark.parametrize("driver", ["live", "page"])
def test_said_to_judged_hosts(driver: str) -> None:
    words, acts = said()[driver] | (called_by_page() if driver == "page" else set()), set.union(*CASES.values())
    assert words - acts - ASKS - NOT_JUDGED == set(), "a session has a case for it"
    assert acts - words == set(), "and it is said"
