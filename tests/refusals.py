"""Over which text each edit that must fail was last refused.

A line `CRATE/NAME DIGEST` of tests/edits/edits.lock says that the goal of this edit refused it over a text with this digest: the edit itself and its
crate. What a crate below promises stands in its clauses, and a crate that no longer fits them is not proved at all. So a change there makes no edit
due here; `./test --every-edit` tries each, before a release and with a new toolchain. Comments say nothing to the prover, so a line that is a
comment does not count. tests/try-edits writes the file and tries the edits that are due; tests/edits looks whether each was tried or is recorded.
"""

from __future__ import annotations

import hashlib
import re
import threading
from functools import lru_cache
from pathlib import Path

TOP = Path(__file__).resolve().parent.parent
LOCK = Path("tests/edits/edits.lock")
PARTS = ("src", "specs", "proofs")
# the lines that are comments, by the ending of a file
COMMENTS = {".rt": re.compile(rb"^[ \t]*//.*\n?", re.MULTILINE), ".antt": re.compile(rb"^[ \t]*-- .*\n?", re.MULTILINE)}


writing = threading.Lock()


@lru_cache(maxsize=None)
def lines_of_crates(top: Path) -> dict[str, str]:
    """The line of crates.txt for each crate."""
    lines = [line for line in (top / "crates.txt").read_text().splitlines() if ":" in line and not line.startswith("#")]
    return {line.split(":")[0].split()[0]: line for line in lines}


def bare(text: bytes, suffix: str) -> bytes:
    """What the prover reads of a text, by the ending of its file."""
    comment = COMMENTS.get(suffix)
    return comment.sub(b"", text) if comment else text


def without_comments(path: Path) -> bytes:
    """What the prover reads of a file."""
    return bare(path.read_bytes(), path.suffix)


@lru_cache(maxsize=None)
def digest_of_crate(top: Path, crate: str) -> str:
    """One hash of a crate: its line of crates.txt, and each file by its name and by its text without comments."""
    folder = top / "crates" / crate
    told = [lines_of_crates(top)[crate]]
    for path in sorted(it for part in PARTS for it in (folder / part).rglob("*") if it.is_file()):
        told.append(f"{path.relative_to(folder)} {hashlib.sha256(without_comments(path)).hexdigest()}")
    return hashlib.sha256("\n".join(told).encode()).hexdigest()


def forget() -> None:
    """Looks at all files anew from here on."""
    lines_of_crates.cache_clear()
    digest_of_crate.cache_clear()


def top_of(edit: Path) -> Path:
    return edit.parents[3]


def name_of(edit: Path) -> str:
    """Its crate and its name."""
    return f"{edit.parents[1].name}/{edit.stem}"


def digest_of(edit: Path) -> str:
    """What an edit is tried over. Which clauses it is there for counts elsewhere (tests/clauses.py)."""
    told = [re.sub(r"^# clause: .*\n", "", edit.read_text(), flags=re.MULTILINE), digest_of_crate(top_of(edit), edit.parents[1].name)]
    return hashlib.sha256("\n".join(told).encode()).hexdigest()[:32]


def records(top: Path) -> dict[str, str]:
    """The digest of each edit that was refused."""
    lock = top / LOCK
    return dict(line.split() for line in lock.read_text().splitlines()) if lock.exists() else {}


def is_recorded(edit: Path) -> bool:
    """Whether it was refused over what stands now."""
    return records(top_of(edit)).get(name_of(edit)) == digest_of(edit)


def record(edit: Path) -> None:
    """Writes that its goal has refused it over what stands now, and forgets the edits that are gone."""
    top = top_of(edit)
    with writing:
        known = {**records(top), name_of(edit): digest_of(edit)}
        there = {name_of(it) for it in top.glob("crates/*/must-fail/*.edit")}
        (top / LOCK).write_text("".join(f"{name} {digest}\n" for name, digest in sorted(known.items()) if name in there))
