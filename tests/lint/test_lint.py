"""What reads the sources and runs nothing: types, names, scripts and layout. A tool that is missing is named with its package."""

from __future__ import annotations

import filecmp
import functools
import shutil
import subprocess
from pathlib import Path

import pytest

TOP = Path(__file__).resolve().parents[2]
PYTHON = ("live", "lab", "tests", "figures", "web", "tools", "examples", "python", "javascript", "wbhost.py", "wb-live")
# what is typed
TYPED = ("wbhost.py", "live", "lab/laboratory", "tests", "python/wb", "python/wheels.py", "javascript/pack.py", "tools/packing")


def find(package: str, *names: str) -> str:
    """The first of these programs that is there; without any, the test is skipped."""
    found: str | None = next((path for name in names if (path := shutil.which(name))), None)
    if not found:
        pytest.skip(f"there is no {names[0]} here (apt-get install {package})")
    return found


@functools.cache
def scripts(word: str) -> list[str]:
    """The files whose first line has this word, and those with the ending of such a script."""
    ending = {"python3": ".py", "sh": ".bash"}[word]
    found = []
    for path in sorted(path for folder in (*PYTHON, ".ci", "wb", "test") for path in [TOP / folder, *(TOP / folder).rglob("*")] if path.is_file()):
        with path.open("rb") as file:
            first = file.readline(80).decode("utf-8", "replace")
        if path.suffix == ending or (first.startswith("#!") and word in first):
            found.append(str(path.relative_to(TOP)))
    return found


def must_pass(*words: str) -> None:
    """Fails with what it says, if it does not end well."""
    ran = subprocess.run(words, cwd=TOP, stdin=subprocess.DEVNULL, stdout=subprocess.PIPE, stderr=subprocess.STDOUT, text=True, check=False)
    if ran.returncode:
        pytest.fail(ran.stdout, pytrace=False)


def test_names_in_python() -> None:
    """No name is unused or unknown."""
    checker = find("pyflakes3", "ruff", "pyflakes3")
    must_pass(checker, *(["check", "--select=F"] if checker.endswith("ruff") else []), *scripts("python3"))


def test_types_of_python() -> None:
    must_pass(find("mypy", "mypy"), *TYPED)


@pytest.mark.parametrize("script", ["tools/static", "web/build"])
def test_types_of_scripts(script: str) -> None:
    """Each is a program of its own, and both stand on web/building."""
    must_pass(find("mypy", "mypy"), script)


def test_shell_scripts() -> None:
    """But for names that one script has from another (SC2154)."""
    must_pass(find("shellcheck", "shellcheck"), "--shell=bash", "--severity=warning", "--exclude=SC2154", "-x", *scripts("sh"))


def test_layout_of_crates(tmp_path: Path) -> None:
    """`rt fmt` changes nothing."""
    find("the toolchain", "rt")
    wrong = []
    (tmp_path / "crates.txt").write_text((TOP / "crates.txt").read_text())
    for crate in sorted((TOP / "crates").iterdir()):
        copy = tmp_path / "crates" / crate.name
        for part in ("src", "specs", "proofs"):
            if (crate / part).is_dir():
                shutil.copytree(crate / part, copy / part)
        subprocess.run(["rt", "fmt"], cwd=copy, check=True, capture_output=True)
        files = [path.relative_to(copy) for path in copy.rglob("*") if path.is_file()]
        wrong += [f"crates/{crate.name}/{file}" for file in files if not filecmp.cmp(copy / file, crate / file, shallow=False)]
    assert wrong == []
