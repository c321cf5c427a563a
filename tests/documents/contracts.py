"""The tables of docs/proofs: the public calls of each crate with their clauses and the definitions that these name, and the edits that the prover
has to refuse. They are made from the sources; test_contracts.py compares them with the pages.

    python3 -m tests.documents.contracts            # writes the tables anew
    python3 -m tests.documents.contracts wb_gaps    # prints those of a crate
"""

from __future__ import annotations

import re
import sys
from collections.abc import Iterator
from pathlib import Path

from .reached import File, Module, Name, Stated, clauses_of, named_by, public_items, read_imports, words_of
from .sources import CRATES, TOP, crates_below, is_tests

BEGIN = "<!-- made by: python3 -m tests.documents.contracts -->"
# how long a row may be as it is shown, without where its links lead
LONGEST_ROW = 180
LINKS = r"(?<=\])\([^)]*\)"
# the heads of clauses that a table has; how a value is viewed, and what its type owes to a trait, is left out
SHOWN = ("ensures", "requires", "invariant", "ghost Value")
HEAD = "| Of | Clauses |\n|---|---|"


def page_of(crate: str) -> Path:
    return TOP / f"docs/proofs/{crate}.md"


def crates() -> list[str]:
    return [it for it in crates_below() if not is_tests(it)]


def stated(crate: str) -> Iterator[tuple[str, str, str, set[Name]]]:
    """What callers of a crate see: each clause with the type, or the kind, and the call that has it, and the definitions that it names."""
    items = public_items(crate)
    for path in sorted((CRATES / crate / "src").rglob("*.rt")):
        text, module = path.read_text(), Module()
        read_imports(text, module)
        for it in clauses_of(text, items):
            if it.is_seen and it.head.startswith(SHOWN):
                names = {name for name in named_by(words_of(it.text), None, module) if is_told(it.head, name[1])}
                if names or it.head.startswith(SHOWN[:3]):
                    yield (*place_of(it, text), it.head, names)


def place_of(it: Stated, text: str) -> tuple[str, str]:
    """The type that has a clause, or else "laws" or "calls", and its call."""
    if it.type:
        return f"`{it.type}`", "its value" if it.type == it.owner else f"`{it.owner}`"
    body = re.compile(r"^\{\s*(\}?)", re.MULTILINE).search(text, text.find(f"pub fn {it.owner}"))
    return "laws" if body and body[1] else "calls", f"`{it.owner}`"


def is_told(head: str, name: str) -> bool:
    """Whether a table has it: the record that stands for the values of a type is named with the type alone."""
    return head.startswith("ghost") or not name.endswith("Value")


def told(crate: str, head: str, names: set[Name], linked: set[File]) -> str:
    """A clause as a table has it. The first definition of each file on the page is a link."""
    word = re.sub(r"^ensures ?|^ghost Value", "", head).replace(" =", "")
    return " ".join([word, *(definition(crate, name, linked) for name in sorted(names))]).strip()


def definition(crate: str, name: Name, linked: set[File]) -> str:
    (home, path), item = name
    label = f"`{path}.{item}`" if home == crate else f"`{home}.{path}.{item}`"
    if name[0] in linked:
        return label
    linked.add(name[0])
    return f"[{label}](../../crates/{home}/specs/{path.replace('.', '/')}.antt)"


def rows(first: str, members: list[str]) -> Iterator[str]:
    """The rows that have these members, none of them long: each begins one unless it fits in whole."""
    line = ""
    for member in members:
        line = f"{line}; {member}" if line else member
        if width(first, line) > LONGEST_ROW and line != member:
            yield f"| {first} | {line[:-len(member) - 2]} |"
            first, line = "", member
        while width(first, line) > LONGEST_ROW:
            words = line.split(" ")
            most = max(1, *(count for count in range(1, len(words)) if width(first, " ".join(words[:count])) <= LONGEST_ROW))
            yield f"| {first} | {' '.join(words[:most])} |"
            first, line = "", " ".join(words[most:])
    yield f"| {first} | {line} |"


def width(*cells: str) -> int:
    """How long a row of these cells is as it is shown."""
    return sum(len(re.sub(LINKS, "", it)) for it in cells)


def clauses(crate: str) -> dict[str, dict[str, list[str]]]:
    """Of each type, and of calls and laws of none, the calls with their clauses. Each definition stands at the first clause that names it."""
    found: dict[str, dict[str, list[str]]] = {}
    linked: set[File] = set()
    before: set[Name] = set()
    for group, call, head, names in stated(crate):
        found.setdefault(group, {}).setdefault(call, []).append(told(crate, head, names - before, linked))
        before |= names
    return found


def tables(crate: str) -> str:
    """All that a page has after its prose."""
    lines = [BEGIN, "", HEAD]
    for group, members in clauses(crate).items():
        lines += rows(group, [f"{it}: {', '.join(filter(None, of))}".rstrip(": ") for it, of in members.items()])
    edits = sorted(it.stem for it in (CRATES / crate / "must-fail").glob("*.edit"))
    lines += rows("edits that must fail", [f"`{it}`" for it in edits]) if edits else []
    return "\n".join(lines) + "\n"


def prose_of(crate: str) -> str:
    """What a page has before its tables."""
    return page_of(crate).read_text().partition(BEGIN)[0]


def main() -> None:
    if sys.argv[1:]:
        print(tables(sys.argv[1]))
        return
    for crate in crates():
        page_of(crate).write_text(f"{prose_of(crate).rstrip()}\n\n{tables(crate)}")


if __name__ == "__main__":
    main()
