"""Plain English: patterns that are bad English wherever they stand, in documents, in comments and in what `--help` prints.

A pattern can't find all bad English. These find what was written most, and each hit has a plainer sentence.
"""

from __future__ import annotations

import io
import itertools
import re
import tokenize
from collections.abc import Iterator
from pathlib import Path

import pytest

from .sources import DOCUMENTS, TOP, nothing_is_wrong, short

# each pattern, a space for any white space, with what to write in its place
FORBIDDEN = {
    r"\b(?:is|are|was|were|be|been|being) told\b(?! apart)": "say who says it, and to whom: the page says, the host prints",
    r"\b(?:keep|keeps|kept|keeping) (?:itself|themselves)\b(?! (?:up|from|apart|alive))": "self-managing",
    r"\b(?:is|are) no more\b(?! than)": "was removed",
    r"\b(?:stands?|stood|comes?|came|right|directly|written|follows?|due|sent|words?|lines?) behind\b|\bbehind `": "after",
    r"\bso many\b(?!(?: \w+){0,3} that\b)": "N, or as many as what",
    r"\bof before\b": "earlier",
    r"\bWho listens\b(?!\?)": "screen readers",
    r"(?:^|[.;|] )Who (?:has|holds|lacks|wants|asks|draws|speaks|needs|hears)\b[^?.:;|]*\b(?:is|are|has|gets|takes|asks|answers|may|can|waits|sees|finds|knows)\b": "whoever, or name them",
    r"(?<!#\x20)\bWhere (?:a|an|the|no|it|its|nobody|one|two|nothing|memory|there|they|this|that|we|each|somebody|none|all|others?)\b[^.,;:?|]*,(?! (?:and|or|but|in|for|which|what|who|how|as|at|to|so)\b)": "if, or when",
    r"\bwhere (?:nothing|none|memory)\b": "if",
    r"\bby which\b": "with which, or another sentence",
    r"(?:^|[.;:|] )[Oo]f several\b": "a list, or: the last one counts",
    r"\bwant of memory\b|\bmemory (?:is|was|were) refused\b": "an allocation failed",
    r"\b(?:is|are|was) said of\b": "is about",
    r"\b(?:held|holds) up by\b|\bWho holds up\b": "prevented",
    r"(?<![Tt]here\x20)\b(?:is|are) no (?:datagram|drawop|number|line|member|name|word|delete|restore|record|drawing|fault|canvas|program|option)s?\b": "is not a",
    r"\bdear(?:er|est)\b": "more expensive, most expensive",
    r"\bBeside (?:what|that|these|those|them|it|him)\b": "besides",
}
PATTERNS = {re.compile(pattern.replace(" ", r"\s+"), re.MULTILINE): plainer for pattern, plainer in FORBIDDEN.items()}

PLAIN = [short(document) for document in DOCUMENTS]
LONGEST_LINE = 100

# the pages of the repository, those of packages, examples and tests with them, and the most words of all outside code: of sentences, and with tables
PAGES = [*DOCUMENTS, *(it for folder in ("python", "javascript", "examples/*", "tests/*") for it in sorted(TOP.glob(f"{folder}/*.md")))]
MOST_WORDS = 40_000, 60_000

# where comments are plain, of each the first line
COMMENTED = [
    *("examples", "javascript", "lab", "live", "python", "tests", "tools", "web"),
    *sorted(short(it) for part in ("src", "specs", "proofs") for it in (TOP / "crates").glob(f"*/{part}")),
]
ENDINGS = (".py", ".js", ".mjs", ".ts", ".bash", ".sh", ".in", ".rt", ".antt")
# the texts of --help in the sources
HELPING = [
    *("crates/wb/src/command.rt", "lab/figures", "lab/wb-lab", "live/options.py", "tests/gate-cost", "tests/take-figures", "tools/vendor"),
    *("test", "wb", "wb-live"),
]


def without_code(text: str) -> str:
    """The text of a page with its lines in place, those of code empty."""
    blank = re.sub(r"^```.*?^```$", lambda block: "\n" * block[0].count("\n"), text, flags=re.MULTILINE | re.DOTALL)
    lines, before = [], ""
    for line in blank.split("\n"):
        is_code = line.startswith("    ") and not before.strip()
        lines.append("" if is_code else line)
        before = "" if is_code else line
    return "\n".join(lines)


def bad_english(text: str) -> list[str]:
    """Each hit with its line and what is plainer."""
    found = []
    for pattern, plainer in PATTERNS.items():
        for hit in pattern.finditer(text):
            start = hit.start() + len(hit[0]) - len(hit[0].lstrip())
            found.append(f"line {text.count(chr(10), 0, start) + 1}: {' '.join(hit[0].split())} ({plainer})")
    return found


def long_lines(text: str) -> list[str]:
    """Lines of prose that are too long; a link that has no space may be."""
    lines = without_code(text).split("\n")
    long = [(number, line) for number, line in enumerate(lines, 1) if len(line) > LONGEST_LINE and not line.startswith(("|", "#"))]
    return [f"line {number} has {len(line)} characters" for number, line in long if " " in line.strip()]


def comments_of_python(source: str) -> Iterator[tuple[int, str]]:
    """The first lines of comments and of docstrings."""
    last = -1
    before, begun = tokenize.NEWLINE, False
    for token in tokenize.generate_tokens(io.StringIO(source).readline):
        if token.type == tokenize.COMMENT:
            if token.start[0] != last + 1:
                yield token.start[0], token.string.lstrip("#! ")
            last = token.start[0]
        elif token.type == tokenize.STRING and (not begun or before in (tokenize.NEWLINE, tokenize.INDENT)):
            yield token.start[0], token.string.strip("\"'").split("\n")[0]
        begun = begun or token.type not in (tokenize.COMMENT, tokenize.NL)
        before = token.type


def comments_of_lines(source: str) -> Iterator[tuple[int, str]]:
    """The first lines of comments that begin their line."""
    was_comment = False
    for number, line in enumerate(source.splitlines(), 1):
        comment = re.match(r"\s*(?:///|//!|//|-- (?:----)?|/\*\*?|\*|#(?![!\[]))\s?(.*)", line)
        if comment and not was_comment:
            yield number, comment[1]
        was_comment = bool(comment)


def words_of(text: str) -> tuple[int, int]:
    """How many words of a page stand in sentences, and how many with those of its tables."""
    lines = without_code(text).split("\n")
    return sum(len(line.split()) for line in lines if not line.startswith("|")), sum(len(line.split()) for line in lines)


def is_python(path: Path, source: str) -> bool:
    return path.suffix == ".py" or source.startswith("#!/usr/bin/env python3")


def comments(path: Path) -> Iterator[tuple[int, str]]:
    source = path.read_text()
    return comments_of_python(source) if is_python(path, source) else comments_of_lines(source)


def is_source(path: Path) -> bool:
    return path.is_file() and (path.suffix in ENDINGS or not path.suffix and path.read_bytes().startswith(b"#!"))


def bad_comments(path: Path) -> list[str]:
    return [f"{short(path)}:{number}: {it}" for number, line in comments(path) for it in bad_english(line)]


def texts(path: Path) -> Iterator[str]:
    """What a source prints as help: its strings, or the first comment of a script."""
    source = path.read_text()
    if path.suffix == ".rt":
        yield from re.findall(r'"((?:[^"\\]|\\.)*)"', source)
    elif is_python(path, source):
        strings = [token.string for token in tokenize.generate_tokens(io.StringIO(source).readline) if token.type == tokenize.STRING]
        yield from strings
    else:
        yield "\n".join(re.sub(r"^# ?", "", line) for line in itertools.takewhile(lambda it: it.startswith("#"), source.splitlines()))


# a new comment has its crate proved anew, so this one is mended with the next change of it
LATER = {TOP / "crates/wb_lines/specs/Progress.antt"}

COMMENTS = sorted({path for part in COMMENTED for path in [TOP / part, *(TOP / part).rglob("*")] if is_source(path)} - LATER)


@pytest.mark.parametrize("page", PLAIN)
def test_page(page: str) -> None:
    text = (TOP / page).read_text()
    nothing_is_wrong(bad_english(without_code(text)) + long_lines(text))


def test_few_words() -> None:
    counts = {short(page): words_of(page.read_text()) for page in PAGES}
    found = sum(few for few, _ in counts.values()), sum(all_ for _, all_ in counts.values())
    assert found[0] <= MOST_WORDS[0] and found[1] <= MOST_WORDS[1], f"{found}, and no more than {MOST_WORDS}: {counts}"


def test_comments() -> None:
    nothing_is_wrong([it for path in COMMENTS for it in bad_comments(path)])


@pytest.mark.parametrize("source", HELPING)
def test_help(source: str) -> None:
    nothing_is_wrong([it for text in texts(TOP / source) for it in bad_english(text)])


# sentences that are bad, and what is like them and good
BAD = [
    "Of several faults one is told.",
    "A host that keeps itself asks.",
    "The option is no more.",
    "Read the block that stands behind the line.",
    "as behind `arrive`",
    "with room for so many drawops",
    "the numbers of before",
    "Who listens is told what others draw.",
    "Who holds something answers.",
    "Where a word is wrong, the line is refused.",
    "else 0, where none is held",
    "the constants by which the timers go",
    "| Text | of several, the last |",
    "It ends for want of memory.",
    "Much is said of keepers.",
    "The bytes are no datagram.",
    "the dearest edit",
    "Beside what a host holds it has numbers.",
]
GOOD = [
    "Equal bytes can't be told apart.",
    "They keep themselves up to date.",
    "This is no more than a second.",
    "Put it behind a proxy.",
    "There are so many drawops that the board is full.",
    "Who draws on a page?",
    "Whoever holds something answers.",
    "# Where a test stands, and why",
    "Where a datagram came from, and when.",
    "Where others point, what they draw.",
    "Where is the kit?",
    "one of several members",
    "There is no datagram.",
]


@pytest.mark.parametrize("sentence", BAD)
def test_finds(sentence: str) -> None:
    assert bad_english(sentence)


@pytest.mark.parametrize("sentence", GOOD)
def test_lets_pass(sentence: str) -> None:
    assert bad_english(sentence) == []


@pytest.mark.parametrize("page", PLAIN)
def test_mutant(page: str) -> None:
    """A bad sentence at the end of a page is found, and a long line."""
    text = (TOP / page).read_text()
    assert bad_english(without_code(f"{text}\nThe fault is told by the host.\n")) != bad_english(without_code(text))
    assert long_lines(f"{text}\n{'many words ' * 12}\n") != long_lines(text)


def test_terms() -> None:
    """The glossary has each term once, in order."""
    terms = [line.split("|")[1].strip() for line in (TOP / "docs/GLOSSARY.md").read_text().splitlines() if line.startswith("| ")][1:]
    assert len(terms) > 50 and terms == sorted(set(terms), key=str.lower)
