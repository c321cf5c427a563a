"""The documents have each crate with its modules, and the limits of the sources."""

from __future__ import annotations

import ast
import functools
import operator
import re
from dataclasses import dataclass

from .sources import CRATES, SPAN, TOP, crates_below, is_tests, nothing_is_wrong, rows_of, texts

# a limit of docs/PROTOCOL.md or docs/SCRIPTS.md: its row, and the constants that keep it, each with the text of the row
LIMITS = {
    "coordinate": [("wb_names/src/shape.rt", "MAX_COORDINATE", "0 to {:,}")],
    "text": [("wb_names/src/text.rt", "MAX_LEN", "1 to {} bytes")],
    "marks, and echoes, of a datagram": [("wb_names/src/entries.rt", "MAX_ENTRIES", "{:,}")],
    "cells of a board": [("wb_history/src/history.rt", "MAX_CELLS", "1 to {:,}")],
    "canvas": [("wb_display/src/canvas.rt", "MAX_WIDTH", "1 to {} wide"), ("wb_display/src/canvas.rt", "MAX_HEIGHT", "1 to {} high")],
    "moment of the clock": [("wb_names/src/moment.rt", "MOMENT_LIMIT", "below {}")],
    "delay to a source": [("wb_recovery/src/fault.rt", "DELAY_LIMIT", "below {}")],
    "level of a request timer": [("wb_recovery/src/timers.rt", "MAX_LEVEL", "0 to {}")],
    "script": [("wb_script/src/said.rt", "MAX_LINES", "{:,} lines"), ("wb_lines/src/line_reader.rt", "MAX_LINE_LEN", "{:,} bytes")],
}

# constants that a definition has as a number of its own, with which the source is proved: `most_lines` and `row_words`
HELD_BY_A_DEFINITION = {("wb_script", "MAX_LINES"), ("wb_codec", "ROW_WORDS")}


def unsaid_crates() -> list[str]:
    """Crates that have no page, no row in PROOFS.md, or no row in ARCHITECTURE.md with what they stand on of the kit."""
    wrong = []
    proofs = "\n".join(rows_of(TOP / "docs/PROOFS.md"))
    plan = {re.split(r"[ |]+", it)[1]: it for it in rows_of(TOP / "docs/ARCHITECTURE.md")}
    for crate, below in crates_below().items():
        if is_tests(crate):
            continue
        if not (TOP / f"docs/proofs/{crate}.md").exists() or f"(proofs/{crate}.md)" not in proofs:
            wrong.append(f"{crate} has no page of what is proved")
        row = plan.get(crate, "")
        wrong += [f"{crate} has no {it} in ARCHITECTURE.md" for it in ["|", *below] if not it.startswith("wb_") and it not in row]
    return wrong


@functools.cache
def files_of(crate: str) -> set[str]:
    """The modules of a crate: the names of its files of sources, definitions and proofs, and of the folders of its proofs."""
    return {it.stem for part in ("src", "specs", "proofs") for it in (CRATES / crate / part).rglob("*")}


@functools.cache
def words_of(crate: str) -> set[str]:
    """The words of a crate that may be names: of lower-case letters alone, which a comment may have too, those that it declares."""
    declared = re.findall(r"^(?:abbrev |unfoldable |pub |record |data )*([a-z]+) :|\b(?:fn|mod|type|ghost) ([a-z]+)\b", texts()[crate], re.MULTILINE)
    return {it for it in re.findall(r"\w+", texts()[crate]) if not re.fullmatch(r"[a-z]+", it)} | {it for pair in declared for it in pair}


def wrong_modules() -> list[str]:
    """Names in the row of ARCHITECTURE.md on a crate that stand neither in it nor in a crate below."""
    below, wrong = crates_below(), []
    for row in rows_of(TOP / "docs/ARCHITECTURE.md"):
        crate, said, *_ = [it.strip() for it in row.strip("|").split("|")]
        reached, ahead = set(), [crate] if crate in texts() else []
        while ahead:
            name = ahead.pop()
            if name in texts() and name not in reached:
                reached.add(name)
                ahead += below[name]
        known = set(reached) | {word for name in reached for word in words_of(name) | files_of(name)}
        wrong += [f"{crate} knows no {it}" for it in SPAN.findall(said) if reached and re.fullmatch(r"[A-Za-z_]\w*", it) and it not in known]
    return wrong


def limit_in(file: str, name: str) -> int | str:
    """A constant of a crate: a number, and as a power of two where the source has it so."""
    value = re.search(rf"const {name}: \w+ = \(?([\d_]+)(?: << (\d+))?\)?(?: - 1)?;", (CRATES / file).read_text())
    if value is None:
        return f"no {name}"
    return f"2^{value[2]}" if value[2] and int(value[2]) > 20 else int(value[1]) << int(value[2] or 0)


def wrong_limits() -> list[str]:
    """The limits that the two pages tell otherwise than the sources have them."""
    lines = [*rows_of(TOP / "docs/PROTOCOL.md"), *rows_of(TOP / "docs/SCRIPTS.md")]
    rows = dict(line.strip("| ").split(" | ", 1) for line in lines if line.count(" | ") == 1)
    wrong = []
    for row, constants in LIMITS.items():
        for file, name, told in constants:
            limit = limit_in(file, name)
            text = told.replace("{:,}", "{}") if isinstance(limit, str) else told
            if text.format(limit) not in rows.get(row, ""):
                wrong.append(f"{name} of {file} is {limit}, and the row '{row}' says {rows.get(row)}")
    return wrong


OPERATIONS = {ast.Add: operator.add, ast.Sub: operator.sub, ast.Mult: operator.mul, ast.FloorDiv: operator.floordiv, ast.LShift: operator.lshift, ast.Pow: operator.pow}


def value_of(text: str, known: dict[str, int]) -> int | None:
    """The number that an expression of a source or of a law is, by the constants that it names; None if it is none."""

    def value(it: ast.expr) -> int:
        match it:
            case ast.Constant(value=int(number)):
                return number
            case ast.Name(id=name):
                return known[name]
            case ast.BinOp(left=left, op=op, right=right):
                result: int = OPERATIONS[type(op)](value(left), value(right))
                return result
        raise ValueError(f"no number: {ast.unparse(it)}")

    plain = re.sub(r"\bas u\d+|\w+::", "", text).replace("^", "**").replace("/", "//").strip()
    try:
        return value(ast.parse(plain, mode="eval").body)
    except (KeyError, SyntaxError, ValueError):
        return None


@dataclass
class Numbers:
    """The public constants of a crate that are numbers, with the values that a name has in it, and those that a law has to say: not of what is
    another constant under a second name, or used by nothing."""

    values: dict[str, set[int | None]]
    owed: dict[str, set[int | None]]


@functools.cache
def numbers_in(crate: str) -> Numbers:
    known: dict[str, int] = {}
    for below in crates_below()[crate]:
        if below in crates_below():
            known |= {name: number for name, numbers in numbers_in(below).values.items() for number in numbers if number is not None}
    found = Numbers({}, {})
    for path in sorted((CRATES / crate / "src").rglob("*.rt")):
        for name, value in re.findall(r"pub const (\w+): (?:u\d+|usize) = ([^;]+);", path.read_text()):
            number = value_of(value, known)
            found.values.setdefault(name, set()).add(number)
            if value.strip() not in known and len(re.findall(rf"\b{name}\b", texts()[crate])) > 1:
                found.owed.setdefault(name, set()).add(number)
            if number is not None:
                known[name] = number
    return found


def numbers_said() -> dict[tuple[str, str], set[int | None]]:
    """What the laws say of constants, by the crate of each and its name: the clauses of functions without a body."""
    said: dict[tuple[str, str], set[int | None]] = {}
    for path in sorted(CRATES.glob("*/src/laws.rt")):
        text = path.read_text()
        lists = re.findall(r"^ghost use Rattle\.(\w+)\.specs\.declared\.[\w.]+\.TheConstants\.(?:\w+\.)?\{([^}]*)\};", text, re.MULTILINE)
        crate_of = {name: crate for crate, names in lists for name in re.findall(r"\w+", names)}
        for law in re.findall(r"^pub fn \w+\(\)\n((?:    ensures .*\n)*)\{\}", text, re.MULTILINE):
            for name, value in re.findall(r"\b([A-Z][A-Z_]+) ≡ ([\d ^-]*\d)", law):
                said.setdefault((crate_of.get(name, path.parts[-3]), name), set()).add(value_of(value, {}))
    return said


def unpinned_numbers() -> list[str]:
    """The constants whose value no law says, or another than the source has; and constants of laws that no source has."""
    said, wrong = numbers_said(), []
    for crate in crates_below():
        numbers = numbers_in(crate)
        for name, values in numbers.values.items():
            told = said.pop((crate, name), set())
            owed = set() if (crate, name) in HELD_BY_A_DEFINITION else numbers.owed.get(name, set())
            if not owed <= told <= values:
                wrong.append(f"{name} of {crate} is {values}, and a law says {told or 'nothing'} of it")
    return wrong + [f"a law says {name} of {crate}, which has no such public constant" for crate, name in said]


def test_each_crate_is_told_of() -> None:
    nothing_is_wrong(unsaid_crates())


def test_modules() -> None:
    nothing_is_wrong(wrong_modules())


def test_limits() -> None:
    nothing_is_wrong(wrong_limits())


def test_laws_of_the_numbers() -> None:
    nothing_is_wrong(unpinned_numbers())
