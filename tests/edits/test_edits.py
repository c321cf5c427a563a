"""The edits that must fail, in crates/CRATE/must-fail: each changes a text that stands once in its file and names a goal, and there are no more than there
may be. With `--tried LOG`, which tests/try-edits or `rt must-fail` printed, each was also refused for what it names: there, or before over
the very text that stands now, as edits.lock says.

A line '# goal: TEXT' of an edit names the goal that refuses it, as the prover prints it, or a part of it. An edit fails here if it is refused for another
reason, as where a proof no longer reads, which shows nothing of the contract.
"""

from __future__ import annotations

import re
from pathlib import Path

import pytest

from .. import clauses, refusals

TOP = Path(__file__).resolve().parents[2]
EDITS = sorted(TOP.glob("crates/*/must-fail/*.edit"))
MOST = 186
REFUSED = "refused, as it must be"


def crate_of(edit: Path) -> str:
    return edit.parent.parent.name


def goal_of(edit: Path) -> str:
    found = re.search(r"^# goal: (.+)$", edit.read_text(), re.MULTILINE)
    return found[1].strip() if found else ""


def wrong_pairs(edit: Path) -> list[str]:
    """What is wrong with the pairs of an edit, each of which applies to what the ones before it made."""
    wrong: list[str] = []
    texts: dict[Path, str] = {}
    file, old = None, ""
    for line in edit.read_text().splitlines():
        key, _, value = line.partition(": ")
        if key == "file":
            file = edit.parent.parent / value.strip()
            if file not in texts:
                texts[file] = file.read_text() if file.is_file() else ""
        elif key == "old":
            old = value
        elif line.startswith("new:") and file:
            found = texts[file].count(old) if old else 0
            if found != 1:
                wrong.append(f"the text stands {found} times in {file.relative_to(TOP)}: {old}")
            if old == value:
                wrong.append("it changes nothing")
            texts[file] = texts[file].replace(old, value)
    return wrong if texts else ["it names no file"]


@pytest.mark.parametrize("edit", EDITS, ids=refusals.name_of)
def test_edit_applies(edit: Path) -> None:
    assert wrong_pairs(edit) == []
    assert goal_of(edit), "it names no goal"


@pytest.mark.parametrize("edit", EDITS, ids=refusals.name_of)
def test_edit_is_refused(edit: Path, request: pytest.FixtureRequest) -> None:
    """By its goal, in what was printed of the tries, or before over this very text."""
    tried = request.config.getoption("--tried")
    if not tried:
        pytest.skip("no edit was tried: ./test does so")
    label = f"must-fail {crate_of(edit)}/{edit.name}: "
    said = [line.split(label, 1)[1] for line in Path(tried).read_text(errors="replace").splitlines() if label in line]
    if not said:
        assert refusals.is_recorded(edit), "it was not tried"
        return
    assert said[-1].startswith(REFUSED), said[-1]
    assert any(goal_of(edit) in goal for goal in re.findall(r"`([^`]*)(?:`|$)", said[-1])), f"not {goal_of(edit)} refuses it: {said[-1]}"


def test_each_has_a_row_in_the_table() -> None:
    """It says whether the clause of the edit refuses it and nothing does without that, or why not."""
    rows, edits = clauses.table(), {refusals.name_of(it): it for it in EDITS}
    assert sorted(rows) == sorted(edits), "tests/try-edits --without-its-clause FOLDER CRATE .. writes the table"
    changed = [name for name, row in rows.items() if row != ("-", clauses.NOT_YET) and (row[0] != clauses.own_digest(edits[name]) or not row[1])]
    assert changed == [], "these are other edits than were tried"


def test_edits_were_tried_without_their_clauses() -> None:
    assert [name for name, (_, told) in clauses.table().items() if told == clauses.NOT_YET or clauses.ENDED in told] == []


def test_there_are_not_too_many() -> None:
    assert 0 < len(EDITS) <= MOST


def test_records(tmp_path: Path) -> None:
    """Of three small crates, a change of an edit, or of its crate, makes it due. No other change does, and an edit that is gone has no record."""
    edit, low, beside = (tmp_path / f"crates/{it}" for it in ("high/must-fail/turned.edit", "low/src/lib.rt", "beside/src/lib.rt"))
    gone = edit.with_name("gone.edit")
    own = [edit, tmp_path / "crates.txt", *(tmp_path / f"crates/high/{part}/text" for part in refusals.PARTS)]
    for path in [*own, low, beside, gone, tmp_path / refusals.LOCK]:
        path.parent.mkdir(parents=True, exist_ok=True)
        path.write_text("" if path.suffix == ".lock" else "text\n")
    (tmp_path / "crates.txt").write_text("low: thiserror\nhigh: low\nbeside: low\n")
    refusals.record(gone)
    gone.unlink()
    refusals.record(edit)
    assert refusals.is_recorded(edit), "what was just recorded is due"
    assert [*refusals.records(tmp_path)] == ["high/turned"]
    for path in [*own, low, beside]:
        before = path.read_text()
        path.write_text(before.replace("high: low", "high: low thiserror") if path.name == "crates.txt" else before + "more\n")
        refusals.forget()
        assert refusals.is_recorded(edit) == (path not in own), f"a change of {path.relative_to(tmp_path)} is taken wrongly"
        path.write_text(before)
    refusals.forget()


def test_each_record_is_of_an_edit() -> None:
    assert set(refusals.records(TOP)) <= {refusals.name_of(it) for it in EDITS}
