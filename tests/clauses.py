"""Which clause an edit that must fail is there for, and what came of it when that clause was deleted, too.

An edit shows that a clause counts if its clause refuses it, and nothing does once that says nothing. Where the goal that an edit names would
stand without the clause, the edit guards nothing. The clause is that of its goal, in the function that it changes, or in the trait that this
is of. Lines `# clause: FUNCTION NAME` of an edit name others: that of a caller, or several, if each of them refuses it. tests/try-edits
`--without-its-clause` tries this, and tests/edits/clauses.txt has what came of it, a line for each edit.
"""

from __future__ import annotations

import hashlib
import re
from dataclasses import dataclass
from pathlib import Path
from typing import Sequence

TOP = Path(__file__).resolve().parent.parent
TABLE = TOP / "tests/edits/clauses.txt"
NOTHING = "Unit {0}"
GUARDS = "refused by its clause, and not without it"
GUARD_TOGETHER = "refused by each of these clauses, and not without them"
NOT_YET = "not tried yet"
ENDED = "its check ended with"
NAMED = re.compile(r"^# clause: ([\w:]+)(?: (\w+))?$", re.MULTILINE)
PLACES = re.compile(r"^(use Rattle\.[\w.]+\.Goals\.)\{([^}]*)\}\n", re.MULTILINE)
OWED = re.compile(r"^(\w+)-requires(?:-.*)?-clause-(\w+)$")
# goals that no clause of a function states, by how their names begin
STATED_ELSEWHERE = (
    (r"-smaller$", "its goal is that a loop ends, which each loop owes without a clause"),
    (r"^loop-", "its goal is an invariant of a loop, which proofs/ states"),
    (r"^invariant_of-", "its goal is what a type says of its own values"),
)


@dataclass(frozen=True)
class Clause:
    """What a function ensures, or requires: the file, the function, its name if it has one, and where its text begins and ends."""

    file: str
    function: str
    kind: str
    name: str
    begin: int
    end: int
    is_only: bool

    @property
    def label(self) -> str:
        kind = "" if self.kind == "ensures" else f", which it {self.kind}"
        return f"`{self.name}` of {self.function}{kind}" if self.name else f"that of {self.function}{kind}"


def closing(text: str, at: int, pair: str = "{}") -> int:
    """Where the brace closes that opens at this place."""
    depth = 0
    for end in range(at, len(text)):
        depth += {pair[0]: 1, pair[1]: -1}.get(text[end], 0)
        if not depth:
            return end
    return len(text)


def contract_at(text: str, found: re.Match[str]) -> tuple[int, int]:
    """Where the contract begins and ends of the function whose name was found here; two zeros if it has none."""
    head = closing(text, text.index("(", found.end()), "()")
    if text[head:].split("\n", 1)[0].endswith("{"):
        return 0, 0
    ends = (it.start() for it in re.compile(rf"^{found[1]}\{{|;$", re.MULTILINE).finditer(text, head))
    end = next((it for it in ends if text.count("{", head, it) == text.count("}", head, it)), 0)
    return (head, end) if end else (0, 0)


def contract_of(text: str, function: str, at: int) -> tuple[int, int]:
    """The places of a text where the contract of a function begins and ends; two zeros if it has none. If functions share the name, it is that of the
    last one that begins before the place `at`, or else of the first."""
    all_found = list(re.finditer(rf"^( *)(?:pub(?:\([^)]*\))? )?(?:const )?(?:unsafe )?(?:extern \"C\" )?fn {function}\b", text, re.MULTILINE))
    found = next((it for it in reversed(all_found) if it.start() <= at), all_found[0] if all_found else None)
    return contract_at(text, found) if found else (0, 0)


def clauses_of(file: str, text: str, function: str, kind: str, at: int) -> list[Clause]:
    begin, end = contract_of(text, function, at)
    clause = re.compile(rf"^\s+{kind}(?: (\w+))? \{{", re.MULTILINE)
    found = [it for it in clause.finditer(text, begin, end)] if end else []
    return [Clause(file, function, kind, it[1] or "", it.end(), closing(text, it.end() - 1), len(found) == 1) for it in found]


def of_trait(files: dict[str, str], owner: str, function: str) -> list[Clause]:
    """What the trait ensures of a function of this crate; none if the trait is of another one. The owner is a type with the trait behind it."""
    for file, text in files.items():
        for it in re.finditer(r"^(?:pub(?:\([^)]*\))? )?(?:unsafe )?trait (\w+).*\{$", text, re.MULTILINE):
            found = re.compile(rf"^( *)fn {function}\b", re.MULTILINE).search(text, it.end(), closing(text, it.end() - 1))
            if owner.endswith(it[1]) and found:
                return clauses_of(file, text, function, "ensures", found.start())
    return []


def one_of(found: list[Clause], name: str) -> Clause | None:
    """The clause of this name; if there is no name, the only one."""
    fits = [it for it in found if it.name == name] if name else found if len(found) == 1 else []
    return fits[0] if fits else None


def clause_in(files: dict[str, str], function: str, kind: str, name: str) -> Clause | None:
    """The clause of a function of a crate, in whichever file it stands."""
    for file, text in files.items():
        found = one_of(clauses_of(file, text, function.split("::")[-1], kind, 0), name)
        if found:
            return found
    return None


def clauses_for(edit: Path, goal: str, file: str, function: str, at: int, texts: dict[str, str]) -> list[Clause] | str:
    """The clauses that an edit is there for, in the texts that it makes, or why there is none to delete. The function is the one that it
    changes at this place of a file, with its type if it has one, and the trait behind that."""
    crate, owed, goal_name = edit.parent.parent, OWED.match(goal), re.search(r"clause-(\w+)$", goal)
    files = {**{it.relative_to(crate).as_posix(): it.read_text() for it in sorted((crate / "src").rglob("*.rt"))}, **texts}
    named = [(it[1], it[2] or "") for it in NAMED.finditer(edit.read_text())]
    if named:
        told = [clause_in(files, owner, "ensures", name) for owner, name in named]
        return [it for it in told if it] if all(told) else f"one of these clauses does not stand there: {named}"
    for kind, why in STATED_ELSEWHERE:
        if re.search(kind, goal):
            return why
    if owed:
        found = clause_in(files, owed[1], "requires", owed[2])
        return [found] if found else f"{owed[1]} does not require {owed[2]}"
    owner, name = function.rpartition("::")[::2]
    own = clauses_of(file, texts[file], name, "ensures", at) if name else []
    its = own or of_trait(files, owner, name)
    one = one_of(its, goal_name[1] if goal_name else "")
    if one:
        return [one]
    return f"no one clause stands at {name} that its goal tells" if its else f"its clause is that of a trait of a crate below, which {name} keeps to"


def others_of(clause: Clause, names: Sequence[str], text: str) -> list[Clause]:
    """The clauses of these names of the same function."""
    return [it for it in clauses_of(clause.file, text, clause.function, "ensures", clause.begin) if it.name in names]


def label_of(found: list[Clause]) -> str:
    """How a row names the clauses."""
    names = [f"`{it.name}`" for it in found]
    return found[0].label if len(found) == 1 else f"{', '.join(names[:-1])} and {names[-1]} of {found[0].function}"


def answers_of(crate: Path, clause: Clause, function: str) -> list[Path]:
    """The files that answer goals of the function."""
    *owner, name = function.split("::")[-2:] if "::" in function else [function]
    found = [it for it in sorted((crate / "proofs").rglob("Answers.antt")) if it.parent.name.lstrip("+") == clause.function]
    own = [it for it in found if owner and owner[-1] in it.parts and name == clause.function]
    return own or found


def places_used(line: re.Match[str], text: str) -> str:
    """A line that imports places of a function, with those alone that the text names elsewhere: the others may be gone with a goal."""
    names = [it for it in line[2].split(", ") if len(re.findall(rf"(?<![\w-]){re.escape(it)}(?![\w-])", text)) > 1]
    return f"{line[1]}{{{', '.join(names)}}}\n" if names else ""


def without_answers(text: str, clause: Clause) -> str:
    """The answers of a function without those to goals of the clause: an answer to what says nothing is no proof of it."""
    def is_of_it(goal: str) -> bool:
        return goal.startswith("returns") if clause.is_only else bool(re.search(rf"clause-{clause.name}(-\d+)?$", goal))
    kept, drops = [], False
    for block in text.split("\n\n"):
        head = re.search(r"^(?:abbrev )?(?:pub )?(\S+) : goal\.", block, re.MULTILINE)
        drops = is_of_it(head[1]) if head else drops and block.startswith(" ")
        if not drops:
            kept.append(block)
    left = "\n\n".join(kept).rstrip("\n") + "\n"
    return PLACES.sub(lambda it: places_used(it, left), left)


def without(texts: dict[str, str], crate: Path, clauses: list[Clause], function: str) -> dict[str, str]:
    """These texts of a crate with nothing in the place of what the clauses say, and without the answers to them."""
    made = dict(texts)
    for clause in sorted(clauses, key=lambda it: -it.begin):
        text = made.get(clause.file) or (crate / clause.file).read_text()
        made[clause.file] = f"{text[:clause.begin]} {NOTHING} {text[clause.end:]}"
        for path in answers_of(crate, clause, function):
            file = path.relative_to(crate).as_posix()
            made[file] = without_answers(made.get(file) or path.read_text(), clause)
    return made


def own_digest(edit: Path) -> str:
    """What an edit is, in a few letters."""
    return hashlib.sha256(edit.read_text().encode()).hexdigest()[:8]


def table() -> dict[str, tuple[str, str]]:
    """Of each edit what it was when it was tried, and what came of that."""
    lines = [line for line in TABLE.read_text().splitlines() if line and not line.startswith("#")]
    return {name: (digest, told) for name, digest, told in (line.split(" ", 2) for line in lines)}


def has_row(name: str, edit: Path) -> bool:
    """Whether this very edit was tried, and its check came to an end."""
    digest, told = table().get(name, ("", ""))
    return digest == own_digest(edit) and ENDED not in told


def write(told: dict[str, str], edits: dict[str, Path]) -> None:
    """Takes these into the table, which has each edit by its name and no other. A row of what the edit was before is dropped."""
    known, head = table(), [line for line in TABLE.read_text().splitlines() if line.startswith("#")]
    rows = []
    for name, edit in edits.items():
        digest = own_digest(edit)
        before = known.get(name, ("", ""))
        row = told.get(name) or (before[1] if before[0] == digest else "")
        rows.append(f"{name} {digest} {row}" if row else f"{name} - {NOT_YET}")
    TABLE.write_text("\n".join([*head, *rows]) + "\n")
