"""What tools/vendor copies into a workspace is whole. That the examples of embedding are built and run over such copies is tested by tests/embedding."""

from __future__ import annotations

import filecmp
import os
import shutil
import subprocess
from pathlib import Path

import pytest

TOP = Path(__file__).resolve().parents[2]
VENDOR = TOP / "tools" / "vendor"


def vendor(workspace: Path, *crates: str) -> tuple[int, str]:
    """How it ends, and what it says; the folder of the test is left out of that."""
    ran = subprocess.run([VENDOR, workspace, *crates], stdout=subprocess.PIPE, stderr=subprocess.STDOUT, text=True, check=False)
    return ran.returncode, ran.stdout.replace(f"{workspace.parent}/", "")


def line_of(crate: str, workspace: Path = TOP) -> list[str]:
    return [line for line in (workspace / "crates.txt").read_text().splitlines() if line.split(":")[0].split(" ")[0] == crate]


def differences(one: Path, other: Path) -> list[str]:
    """The files that two folders have not alike."""
    names = {path.relative_to(of) for of in (one, other) for path in of.rglob("*") if path.is_file()}
    return sorted(str(name) for name in names if not ((one / name).exists() and (other / name).exists() and filecmp.cmp(one / name, other / name, shallow=False)))


def names_in(folder: Path) -> list[str]:
    return sorted(path.name for path in folder.iterdir())


@pytest.fixture
def new(tmp_path: Path) -> Path:
    """A workspace with two crates."""
    assert vendor(tmp_path / "new", "wb_gaps") == (0, "copied wb_names\ncopied wb_gaps\n"), "a crate comes after those that it stands on"
    return tmp_path / "new"


def test_crates_are_whole(new: Path) -> None:
    assert (new / "crates.txt").read_text().splitlines() == [*line_of("wb_names"), *line_of("wb_gaps")]
    assert [differences(TOP / "crates/wb_gaps" / part, new / "crates/wb_gaps" / part) for part in ("src", "specs", "proofs")] == [[], [], []]
    assert (names_in(new), names_in(new / "crates/wb_gaps")) == (["crates", "crates.txt"], ["proofs", "specs", "src"])


def test_what_is_there_stays(new: Path) -> None:
    library = new / "crates/wb_names/src/lib.rt"
    library.write_text(library.read_text() + "// mine\n")
    assert vendor(new, "wb_display") == (0, "copied wb_display\n")
    assert library.read_text().endswith("// mine\n")


@pytest.mark.parametrize("crates", [["wb_nothing"], ["wb_gaps", "wb_nothing"]], ids=" ".join)
def test_names_are_checked_before_anything_is_copied(tmp_path: Path, crates: list[str]) -> None:
    assert vendor(tmp_path / "none", *crates) == (2, "vendor: there is no crate wb_nothing here\n")
    assert not (tmp_path / "none").exists()


def test_crate_of_the_toolchain_is_none_of_these(tmp_path: Path) -> None:
    assert vendor(tmp_path / "none", "thiserror") == (2, "vendor: there is no crate thiserror here\n")


def test_workspace_that_is_no_folder(tmp_path: Path) -> None:
    file = tmp_path / "file"
    file.write_text("file\n")
    assert vendor(file, "wb_names") == (1, "vendor: file is no folder\n")
    assert file.read_text() == "file\n"


@pytest.fixture
def listed(tmp_path: Path) -> Path:
    """A workspace whose list lacks the end of its last line, with a crate."""
    workspace = tmp_path / "list"
    workspace.mkdir()
    (workspace / "crates.txt").write_text("mine: thiserror")
    assert vendor(workspace, "wb_names")[0] == 0
    return workspace


def test_list_whose_last_line_lacks_its_end(listed: Path) -> None:
    assert (listed / "crates.txt").read_text().splitlines() == ["mine: thiserror", *line_of("wb_names")]


def test_what_was_deleted_is_copied_again_and_listed_once(listed: Path) -> None:
    shutil.rmtree(listed / "crates/wb_names")
    assert vendor(listed, "wb_names") == (0, "copied wb_names\n")
    assert len(line_of("wb_names", listed)) == 1


def test_another_line_for_what_is_not_there(listed: Path) -> None:
    shutil.rmtree(listed / "crates/wb_names")
    (listed / "crates.txt").write_text("mine: thiserror\nwb_names: indexmap\n")
    status, said = vendor(listed, "wb_names")
    assert (status != 0, said) == (True, "vendor: crates.txt has another line for wb_names, and crates/wb_names is not there: remove that line first\n")
    assert names_in(listed / "crates") == []


def test_part_of_a_crate_is_not_taken_for_it(tmp_path: Path) -> None:
    """As an interrupt leaves it."""
    workspace = tmp_path / "part"
    (workspace / "crates/wb_names/src").mkdir(parents=True)
    shutil.copy(TOP / "crates/wb_names/src/lib.rt", workspace / "crates/wb_names/src")
    said = "vendor: crates/wb_names is there, but crates.txt has no line for it, and it is not what would be copied: remove it first\n"
    assert vendor(workspace, "wb_gaps") == (1, said)
    assert names_in(workspace / "crates") == ["wb_names"]


def test_what_is_whole_gets_its_line(new: Path, tmp_path: Path) -> None:
    workspace = tmp_path / "whole"
    shutil.copytree(new / "crates/wb_gaps", workspace / "crates/wb_gaps")
    assert vendor(workspace, "wb_gaps") == (0, "copied wb_names\n")
    assert (workspace / "crates.txt").read_text().splitlines() == [*line_of("wb_names"), *line_of("wb_gaps")]


def test_interrupt_leaves_no_folder_of_the_name(tmp_path: Path) -> None:
    """A stand-in for cp is killed, with what called it, in the middle of the second part of a crate."""
    stand_in, workspace = tmp_path / "bin" / "cp", tmp_path / "cut"
    stand_in.parent.mkdir()
    stand_in.write_text('#!/bin/bash\n/bin/cp "$@"\ncase "$*" in *specs*) kill -KILL $PPID ;; esac\n')
    stand_in.chmod(0o755)
    environment = {**os.environ, "PATH": f"{stand_in.parent}:{os.environ['PATH']}"}
    subprocess.run([VENDOR, workspace, "wb_names"], env=environment, capture_output=True, check=False)
    assert [name for name in names_in(workspace / "crates") if not name.startswith(".")] == []
    assert vendor(workspace, "wb_names") == (0, "copied wb_names\n")
    assert names_in(workspace / "crates") == ["wb_names"]
    assert differences(TOP / "crates/wb_names/specs", workspace / "crates/wb_names/specs") == []


def test_handles(tmp_path: Path) -> None:
    """If HANDLES lacks what is used, that is reported and nothing copied; what uses none comes there; and HANDLES comes with threads."""
    workspace = tmp_path / "handles"
    workspace.mkdir()
    (workspace / "HANDLES").write_text("Handles allowed: none.\n")
    status, said = vendor(workspace, "wb_feed")
    assert (status != 0, said) == (True, "vendor: what is copied uses the handle Threads, which HANDLES of handles does not allow\n")
    assert names_in(workspace) == ["HANDLES"]
    assert vendor(workspace, "wb_names") == (0, "copied wb_names\n")
    assert (workspace / "HANDLES").read_text() == "Handles allowed: none.\n"
    assert vendor(tmp_path / "threads", "wb_feed")[1].splitlines()[-1] == "copied HANDLES"
    assert (tmp_path / "threads/HANDLES").read_text() == (TOP / "HANDLES").read_text()
