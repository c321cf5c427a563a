"""Definitions in specs/ are there to be read: a clause of a public call reaches each file of them, or it stands in specs/Inside/; and PROOFS lists what
the headline and the laws of sessions reach."""

from __future__ import annotations

from .reached import headline_list, modules, reach, reached_by_callers, roots_of, unread_files
from .sources import TOP, nothing_is_wrong

# files that no public clause reaches, and that still stand beside those that one does: move them, and add none
STILL_BESIDE = """
wb_board Counts
wb_codec Checked
wb_codec RowReading
wb_codec TextLengths
wb_display Cells
wb_display DisplayList
wb_display Walking
wb_display Walks
wb_gaps LastNumbers
wb_history Plays
wb_history RowRanges
wb_history Seats
wb_keeper TakingIn
wb_keeping Steps
wb_lines Groups
wb_words Rests
"""


def test_unread_files_stand_inside() -> None:
    unread, beside = unread_files(), STILL_BESIDE.split("\n")[1:-1]
    nothing_is_wrong([f"no public clause reaches {it}: it belongs into specs/Inside/" for it in unread if it not in beside]
                     + [f"{it} is read or moved: it leaves the list" for it in beside if it not in unread])


def test_what_is_reached() -> None:
    """Of definitions that were traced by hand."""
    called = reached_by_callers()
    assert (("wb_feed", "Batches"), "Takes") in roots_of("wb_feed")["run_batch"], "a clause of the call names it"
    assert (("wb_names", "Arrivals"), "IsBatch") in called, "Takes, and IsInOrder by it, name it"
    assert (("wb_history", "Passes"), "IsSound") in reach({(("wb_board", "Counts"), "IsWorkerCount"), *roots_of("wb_board")["accept"]}), "wb_board hands it on"
    assert (("wb_feed", "Inside.Working"), "TakesBack") not in called, "a call inside of run_batch alone names it"
    assert all(name[1] in modules()[name[0]].words for name in called)


def test_the_headline_is_listed() -> None:
    text = (TOP / "docs/PROOFS.md").read_text()
    assert headline_list() in text, "docs/PROOFS.md: its list is another than: python3 -m tests.documents.reached --headline"
