"""The programs of examples, one in each language, and one that is a page: each has a session of three over the loopback interface that loses a third.
People write and draw; one member is killed, and is started anew. In the end all three show the same, by the digests of what they show."""

from __future__ import annotations

import shutil
import subprocess
import sys
import time
from pathlib import Path

import pytest

from ..host.program import TOP, program
from ..live.browser import PATIENCE, Browser, Page
from ..restarted import Shown, free_port, session_of_programs, session_of_three, without_empty
from .conftest import found, run

pytestmark = pytest.mark.timeout(1200)


def must_be_equal(digests: list[str]) -> None:
    assert digests[0] and digests == [digests[0]] * 3


@pytest.mark.parametrize("by", ["program", "library"])
def test_python(by: str, tmp_path: Path, request: pytest.FixtureRequest) -> None:
    """A program over a child process, or over the library."""
    more = {"PYTHONPATH": str(TOP / "python"), "WB_PROGRAM": program()}
    if by == "library":
        more["WB_LIBRARY"] = str(request.getfixturevalue("library") / "lib/libwb.so")
    must_be_equal(session_of_programs([sys.executable, str(TOP / "examples/member.py")], tmp_path, more))


def test_node(room: Path, tmp_path: Path) -> None:
    shutil.copy(TOP / "examples/member.mjs", room)
    must_be_equal(session_of_programs([found("nodejs", "node"), str(room / "member.mjs")], tmp_path, {}))


def test_c(library: Path, tmp_path: Path) -> None:
    compiler, lib = found("gcc", "cc", "gcc", "clang"), library / "lib"
    words = ["-std=c11", "-Wall", "-Wextra", "-Werror", "-O1", f"-I{library}/include", f"{TOP}/examples/c/member.c", f"-L{lib}", "-lwb", f"-Wl,-rpath,{lib}"]
    run([compiler, *words, "-o", tmp_path / "member"], tmp_path)
    must_be_equal(session_of_programs([str(tmp_path / "member")], tmp_path, {}))


@pytest.fixture(scope="session")
def crates(library: Path, tmp_path_factory: pytest.TempPathFactory) -> Path:
    """The folder of the programs in Rust, which cargo builds over the library, and nothing from elsewhere."""
    folder = tmp_path_factory.mktemp("crates")
    shutil.copytree(TOP / "examples/rust", folder / "rust", ignore=shutil.ignore_patterns("target"))
    there = {"WB_PREFIX": str(library), "CARGO_TARGET_DIR": str(folder), "RUSTFLAGS": "-D warnings"}
    run([found("cargo", "cargo"), "build", "--offline", "--examples"], folder / "rust", **there)
    return folder / "debug/examples"


def test_crate(crates: Path, library: Path) -> None:
    """Its own tests."""
    there = {"WB_PREFIX": str(library), "CARGO_TARGET_DIR": str(crates.parents[1]), "LD_LIBRARY_PATH": f"{library}/lib", "RUSTFLAGS": "-D warnings"}
    told = run(["cargo", "test", "--offline"], crates.parents[1] / "rust", **there)
    assert "4 passed; 0 failed" in told, told


def test_board_in_rust(crates: Path, library: Path) -> None:
    assert run([crates / "board"], crates, LD_LIBRARY_PATH=f"{library}/lib") == "*****        \ndrawn in Rust\n"


def test_rust(crates: Path, library: Path, tmp_path: Path) -> None:
    must_be_equal(session_of_programs([str(crates / "member")], tmp_path, {"LD_LIBRARY_PATH": f"{library}/lib"}))


class Window(Shown):
    """A window whose page is a member."""

    def __init__(self, browser: Browser, address: str) -> None:
        self.page: Page = browser.open(address, 800, 600)
        self.page.wait("!(document.querySelector('button')?.disabled ?? true)")

    @property
    def rows(self) -> list[str]:  # type: ignore[override]
        told = str(self.page.value("document.querySelector('pre').textContent"))
        return without_empty([row.rstrip() for row in told.split("\n")])

    def draw(self, drawing: str) -> None:
        self.page.value("document.querySelector('input').focus(); document.querySelector('input').value = ''; 0")
        self.page.call("Input.insertText", text=drawing)
        self.page.value("document.querySelector('button').click(); 0")

    def end(self) -> None:
        self.page.value("location.href = 'about:blank'; 0")


def test_page(room: Path) -> None:
    chromium = found("chromium", "chromium", "chromium-browser", "google-chrome")
    port = free_port()
    server = subprocess.Popen([sys.executable, TOP / "examples/page/serve.py", str(port), room / "node_modules/wb"])
    try:
        with Browser(chromium, 2 * PATIENCE) as browser:
            must_be_equal(session_of_three(lambda at: Window(browser, f"http://127.0.0.1:{port}/#{at + 1}")))
            assert browser.faults == []
    finally:
        server.kill()
        server.wait()


def test_yjs(room: Path) -> None:
    """Three documents in one process: one member ends, and goes on from its record with an empty document."""
    theirs = Path("/usr/share/nodejs")
    if not (theirs / "yjs").is_dir():
        pytest.skip("there is no Yjs here (apt-get install node-yjs)")
    for each in ("yjs", "lib0", "isomorphic.js"):
        if not (room / "node_modules" / each).exists():
            (room / "node_modules" / each).symlink_to(theirs / each)
    for path in (TOP / "examples/yjs").glob("*.mjs"):
        shutil.copy(path, room)
    began = time.monotonic()
    told = run([found("nodejs", "node"), "--preserve-symlinks", room / "three.mjs"], room).splitlines()
    assert time.monotonic() - began < 600
    must_be_equal(told[-3:])
