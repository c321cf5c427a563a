"""A name of specs/ is to mean one thing to who reads it. These counts only fall."""

from __future__ import annotations

from .names import seen_together, shared_names

# how many names mean two things in one file, which uses one of them under another name
MOST_TOGETHER = 20
# how many names that clauses reach are defined by several files
MOST_SHARED = 262


def test_few_names_mean_two_things_in_one_file() -> None:
    found = seen_together()
    assert len(found) <= MOST_TOGETHER, "\n".join(f"{name}: {', '.join(paths)}" for name, paths in found.items())


def test_few_names_are_shared() -> None:
    assert len(shared_names()) <= MOST_SHARED, "python3 -m tests.documents.names lists them"
