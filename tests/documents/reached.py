"""Which definitions of specs/ a clause of a public call reaches.

An auditor reads the clauses and what they name, and what that names. What no clause reaches says nothing to a caller: it
stands in specs/Inside/ or in proofs/ (test_reached.py).

    python3 -m tests.documents.reached              # the files of specs/ of which nothing is reached
    python3 -m tests.documents.reached --counts     # and which definitions of each file are not
    python3 -m tests.documents.reached --headline   # what the headline and the laws of sessions reach, as docs/PROOFS.md lists it
"""

from __future__ import annotations

import re
import sys
from dataclasses import dataclass, field
from functools import cache
from typing import NamedTuple, Tuple

from .sources import CRATES, SPAN, TOP, crates_below, is_tests

# a file of specs/, by its crate and its path below specs/ with dots, and a definition there
File = Tuple[str, str]
Name = Tuple[File, str]

IMPORT = re.compile(r"^ *(pub )?(?:ghost )?use (?:Rattle\.(\w+)\.specs\.([\w.]+?))(?:\.\{([^}]*)\}| as (\w+))?;?$", re.MULTILINE)
DEFINITION = re.compile(r"^(?:(?:abbrev|unfoldable) )?pub (?:(record|data) )?([^\s:]+)")


@dataclass
class Module:
    """What a file defines, each by the words of its text, and which words of it are names of other files."""

    words: dict[str, set[str]] = field(default_factory=dict)
    names: dict[str, Name] = field(default_factory=dict)
    files: dict[str, File] = field(default_factory=dict)
    handed_on: dict[str, Name] = field(default_factory=dict)


def words_of(text: str) -> set[str]:
    """The words of a text of antt, and of a dotted one each part."""
    bare = re.sub(r"--.*|//.*", "", text)
    return {part for word in re.findall(r"[^\s(){}\[\],;]+", bare) for part in [word, *word.split(".")] if part}


def spellings(name: str) -> set[str]:
    """How a name is written where it is used: an operator without the places of its operands."""
    return {name, name.replace("◌", "")} if "◌" in name else {name}


def read_imports(text: str, module: Module) -> None:
    for found in IMPORT.finditer(text):
        is_pub, crate, path, items, other = found.groups()
        if path.startswith("declared"):
            continue
        if items is None:
            module.files[other or path.split(".")[-1]] = (crate, path)
            continue
        for item in items.split(","):
            source, _, alias = item.strip().partition(" as ")
            for spelling in spellings(alias or source):
                module.names[spelling] = ((crate, path), source)
            if is_pub:
                module.handed_on[alias or source] = ((crate, path), source)


def read_module(text: str) -> Module:
    """The definitions of a file of specs/, and its imports."""
    module, name = Module(), ""
    read_imports(text, module)
    for line in text.splitlines():
        found = DEFINITION.match(line)
        if found and not line.startswith(("pub mod", "pub use")):
            name = found[2]
            module.words[name] = set()
        elif re.match(r"\S", line) and not line.startswith("--") and not (name and line.startswith(name)):
            private = re.match(r"(?:abbrev |unfoldable )?(?:record |data )?([^\s:]+) ?:", line)
            name = private[1] if private else name if line.startswith((")", "}")) else ""
            if private:
                module.words[name] = set()
        if name:
            module.words[name] |= words_of(line)
    return module


@cache
def modules() -> dict[File, Module]:
    """All files of specs/."""
    found = {}
    for crate in crates_below():
        folder = CRATES / crate / "specs"
        for path in sorted(folder.rglob("*.antt")):
            if path.stem != "Lib":
                found[crate, ".".join(path.relative_to(folder).with_suffix("").parts)] = read_module(path.read_text())
    return found


def home_of(name: Name) -> Name | None:
    """Where a name is defined that another file may hand on."""
    for _ in range(9):
        module = modules().get(name[0])
        if module is None:
            return None
        if name[1] in module.words:
            return name
        if name[1] not in module.handed_on:
            return None
        name = module.handed_on[name[1]]
    return None


def named_by(words: set[str], here: File | None, module: Module) -> set[Name]:
    """The definitions that these words of a file name: its own, those that it imports, and those of modules that it imports."""
    found = set()
    for word in words:
        if here and word in module.words:
            found.add((here, word))
        for spelling in (word,):
            if spelling in module.names:
                home = home_of(module.names[spelling])
                found |= {home} if home else set()
        first, _, rest = word.partition(".")
        if rest and first in module.files:
            home = home_of((module.files[first], rest.split(".")[0]))
            found |= {home} if home else set()
    if here:
        found |= {(here, name) for name in module.words if "◌" in name and spellings(name) & words}
    return found


def braced(text: str, at: int) -> str:
    """What stands in the braces that open at this place."""
    depth = 0
    for end in range(at, len(text)):
        depth += {"{": 1, "}": -1}.get(text[end], 0)
        if not depth:
            return text[at + 1:end]
    return text[at + 1:]


CLAUSE = r"^\s*(?:requires|ensures|invariant|ghost)\b[^\n{]*\{"
ITEM = r"^(?P<indent> *)(?:(?P<pub>pub(?:\([^)]*\))?) )?(?:const |unsafe |extern \"C\" )*(?P<kind>fn|trait|struct|enum|impl|mod)\b(?P<rest>[^\n]*)$"
PART = re.compile(f"{ITEM}|(?P<clause>{CLAUSE})", re.MULTILINE)
HANDED_ON = re.compile(r"^pub use ([\w:]+?)(?:::\{([^}]*)\})?;", re.MULTILINE)


@cache
def static_libraries() -> set[str]:
    return set(re.findall(r"^(\w+) staticlib\b", (TOP / "crates.txt").read_text(), re.MULTILINE))


def public_items(crate: str) -> set[str]:
    """The names of what a caller of a crate can name: what its root and its public modules have and hand on. Of a program and
    of a library for C, all that is `pub`."""
    folder = CRATES / crate / "src"
    due, names = [next(it for it in (folder / "lib.rt", folder / "main.rt") if it.is_file())], set()
    if due[0].stem == "main" or crate in static_libraries():
        due = sorted(folder.rglob("*.rt"))
    while due:
        path = due.pop()
        text = path.read_text()
        for use in HANDED_ON.finditer(text):
            names |= {it.split(" as ")[-1].strip() for it in use[2].split(",")} if use[2] else {use[1].split("::")[-1]}
        for item in re.finditer(ITEM, text, re.MULTILINE):
            word = re.match(r"\W*(\w+)", item["rest"])
            if item["pub"] == "pub" and not item["indent"] and word:
                names.add(word[1])
                below = path.parent if path.stem in ("lib", "main", "mod") else path.parent / path.stem
                due += [it for it in (below / f"{word[1]}.rt", below / word[1] / "mod.rt") if item["kind"] == "mod" and it.is_file()]
    return names


class Stated(NamedTuple):
    """A clause of a source: the type that its call belongs to, if any, the call or type that has it, what stands before its brace as
    `ensures end`, its text, and whether a caller sees it."""

    type: str
    owner: str
    head: str
    text: str
    is_seen: bool


def type_of(rest: str) -> str:
    """The type of an `impl`, by what follows that word."""
    bare = re.sub(r"^\s*<[^>]*>", "", rest).split(" for ")[-1]
    word = re.search(r"[A-Za-z]\w*", bare)
    return word[0] if word else ""


def clauses_of(text: str, items: set[str]) -> list[Stated]:
    """The clauses of a source. A caller sees those of these items, of the public calls of such a type, and of what such a type has of a trait."""
    found, type_, owner, is_seen = [], "", "", False
    of_type = of_trait = False
    for part in PART.finditer(text):
        word = re.match(r"\W*(\w+)", part["rest"] or "")
        if part["clause"]:
            head = part["clause"].rstrip("{").strip()
            found.append(Stated(type_, owner, head, braced(text, part.end() - 1), is_seen))
        elif part["kind"] == "impl":
            of_trait = " for " in part["rest"]
            of_type = bool(items & set(re.findall(r"\w+", part["rest"].split(" for ")[-1])))
            type_ = owner = type_of(part["rest"])
            is_seen = of_type and of_trait
        elif part["kind"] == "fn" and part["indent"]:
            owner, is_seen = word[1] if word else "", of_type and (of_trait or part["pub"] == "pub")
        elif word:
            owner, is_seen = word[1], part["pub"] == "pub" and word[1] in items
            of_type, of_trait = is_seen, part["kind"] == "trait"
            type_ = owner if of_trait else ""
    return found


@cache
def roots_of(crate: str, is_public: bool = True) -> dict[str, set[Name]]:
    """The definitions that clauses of a crate name, those that a caller sees or all, by the call or type that has them."""
    found: dict[str, set[Name]] = {}
    items = public_items(crate)
    for path in sorted((CRATES / crate / "src").rglob("*.rt")):
        text, module = path.read_text(), Module()
        read_imports(text, module)
        for it in clauses_of(text, items):
            if it.is_seen or not is_public:
                found.setdefault(it.owner, set()).update(named_by(words_of(it.text), None, module))
    return found


def reach(roots: set[Name]) -> set[Name]:
    """What these name, and what that names, and so on."""
    reached, due = set(), list(roots)
    while due:
        name = due.pop()
        if name in reached:
            continue
        reached.add(name)
        module = modules()[name[0]]
        due += named_by(module.words[name[1]], name[0], module) - reached
    return reached


@cache
def reached_by_callers() -> frozenset[Name]:
    return frozenset(reach({it for crate in crates_below() if not is_tests(crate) for names in roots_of(crate).values() for it in names}))


def is_inside(file: File) -> bool:
    return file[1].startswith("Inside.")


def unread_files() -> list[str]:
    """The files of specs/ that have definitions, of which no public clause reaches one, and that do not stand in specs/Inside/."""
    read = {name[0] for name in reached_by_callers()}
    unread = [file for file, module in modules().items() if module.words and file not in read and not is_inside(file)]
    return sorted(f"{crate} {path}" for crate, path in unread)


def headline_roots() -> set[Name]:
    """What the clauses name of the calls and laws that the table of the headline names, each with its crate or else of wb_board."""
    table = (TOP / "docs/PROOFS.md").read_text().split("## The headline\n")[1].split("\n## ")[0]
    roots: set[Name] = set()
    for row in table.splitlines():
        carried = row.split("|")[2] if row.startswith("| ") else ""
        for crate in re.findall(r"of (wb_\w+)", carried) or ["wb_board"]:
            for name in SPAN.findall(carried):
                roots |= roots_of(crate, False).get(name.split("::")[-1], set())
    return roots


def headline_list() -> str:
    """The files that the headline reaches, a line for each crate, as PROOFS lists them."""
    files = {name[0] for name in reach(headline_roots())}
    names = {crate: [path.replace(".", "/") for other, path in sorted(files) if other == crate] for crate in crates_below()}
    return "\n".join(f"{crate}: {', '.join(its)}" for crate, its in names.items() if its)


def main() -> None:
    reached = reached_by_callers()
    if "--headline" in sys.argv:
        print(headline_list())
        return
    if "--counts" in sys.argv:
        for file, module in modules().items():
            unread = [it for it in module.words if (file, it) not in reached]
            if unread:
                print(f"{file[0]} {file[1]}: {len(unread)} of {len(module.words)}: {' '.join(unread)}")
        print(len(reached), "of", sum(len(it.words) for it in modules().values()), "definitions are reached")
    print("\n".join(unread_files()))


if __name__ == "__main__":
    main()
