"""Each command of IN-YOUR-PROGRAM and of the packages' pages, typed in a new folder that has the repository, with an empty environment and no network."""

from __future__ import annotations

import os
import re
import shutil
import subprocess
import sys
import time
from collections.abc import Callable, Iterator
from pathlib import Path
from typing import NamedTuple

import pytest

from ..host.program import TOP, program
from .conftest import found, modules

PAGES = ["docs/IN-YOUR-PROGRAM.md", "python/README.md", "javascript/README.md", "examples/yjs/README.md"]
PATIENCE = 120.0

# the interpreter of an archive is looked for in these folders, as on a machine of Debian
DEBIAN = ("/usr/local/bin", "/usr/bin", "/bin")

PROVED = "it proves and builds, which takes minutes: tests/launcher and tests/release run it over stand-ins"
NOT_RUN = {
    "./wb --library ~/.local": PROVED,
    **dict.fromkeys(['ours, theirs = one.host.digest("1/1"), other.host.digest("1/1")', 'if ours != theirs and not one.host.gaps("1/1"):'], "lines of Python, as tests/python/test_hosts has them"),
}


def commands_of(page: str) -> list[str]:
    """The lines of a page's blocks that a shell takes, without comments; those of programs end with a semicolon."""
    parts = re.split(r"^```(\w*)\n(.*?)^```$", (TOP / page).read_text(), flags=re.MULTILINE | re.DOTALL)
    lines = [line for text in parts[::3] for line in re.findall(r"^    (\S.*)$", text, re.MULTILINE)]
    lines += [line for kind, block in zip(parts[1::3], parts[2::3]) if kind in ("sh", "bash", "console") for line in block.splitlines()]
    return [line.split("     #")[0].strip() for line in lines if not re.search(r";($| //)", line)]


COMMANDS = [(page, command) for page in PAGES for command in commands_of(page)]


class Home(NamedTuple):
    """A new folder, the checkout in it, and the environment of a command."""

    room: Path
    top: Path
    environment: dict[str, str]

    def start(self, command: str) -> subprocess.Popen[str]:
        line = command.replace("DIR", str(self.room / "made"))
        words = [str(TOP / "tests/alone.sh"), "env", "-i", *(f"{name}={value}" for name, value in self.environment.items()), "bash", "-c", line]
        return subprocess.Popen(words, cwd=self.top, stdin=subprocess.PIPE, stdout=subprocess.PIPE, stderr=subprocess.STDOUT, text=True)

    def run(self, command: str) -> str:
        told, _ = (started := self.start(command)).communicate(timeout=600)
        assert started.returncode == 0, told
        return told


def files() -> Iterator[Path]:
    """The files of the repository."""
    told = subprocess.run(["git", "-C", TOP, "ls-files", "-coz", "--exclude-standard"], stdout=subprocess.PIPE, text=True, check=False)
    if told.returncode:
        pytest.skip("this is no checkout of git, whose files are copied")
    yield from (Path(name) for name in told.stdout.split("\0") if name and (TOP / name).is_file())


@pytest.fixture(scope="module")
def home(tmp_path_factory: pytest.TempPathFactory) -> Home:
    room = tmp_path_factory.mktemp("home")
    top = room / "wb"
    for name in files():
        (top / name).parent.mkdir(parents=True, exist_ok=True)
        shutil.copy(TOP / name, top / name)
    (room / "made").mkdir()
    # as if it had been proved
    (top / "out").mkdir()
    shutil.copy(program(), top / "out/wb")
    return Home(room, top, {"PATH": ":".join(DEBIAN), "HOME": str(room)})


def with_modules(home: Home) -> Home:
    if not (home.top / "out/modules").exists():
        (home.top / "out/modules").mkdir()
        for name in ("wb.wasm", "wb-any.wasm"):
            shutil.copy(modules() / name, home.top / "out/modules")
    return home


def with_library(home: Home, library: Path) -> Home:
    if not (home.room / ".local").exists():
        shutil.copytree(library, home.room / ".local", symlinks=True)
    return home


def member_of(home: Home, command: str) -> None:
    """A member, and that of the other terminal, in one network: it shows what the first draws."""
    other = command.replace("7 8017 7.record 8018", "8 8018 8.record 8017")
    assert other != command
    both = f"({other} </dev/null >../other & sleep 20; kill $!) & (sleep 8; echo 'text 0 0 \"hello\"'; sleep 8) | {command}; wait"
    # the other one listens as long as its input is there
    told = home.run(both.replace("</dev/null", "< <(sleep 25)"))
    assert "hello" in told and "hello" in (home.room / "other").read_text(), told


def runner(command: str) -> Callable[[Home, pytest.FixtureRequest], None] | str:
    """What runs a command and looks at what it did, or why it is not run."""
    if command in NOT_RUN:
        return NOT_RUN[command]
    for start, run in RUNNERS.items():
        if command.startswith(start):
            return lambda home, request: run(home, command, request)
    raise AssertionError(f"nobody runs this command, and no reason is named: {command}")


def run_member(home: Home, command: str, _: pytest.FixtureRequest) -> None:
    member_of(home, command)


def run_pack(home: Home, command: str, _: pytest.FixtureRequest) -> None:
    found("npm", "npm")
    with_modules(home).run(command)
    assert (home.top / "node_modules/wb/wb.js").exists()


def run_node(home: Home, command: str, request: pytest.FixtureRequest) -> None:
    found("nodejs", "node")
    if not (home.top / "node_modules/wb").exists():
        run_pack(home, next(each for _, each in COMMANDS if each.startswith("javascript/pack.py")), request)
    member_of(home, command)


def run_compiler(home: Home, command: str, request: pytest.FixtureRequest) -> None:
    found("gcc", "cc")
    found("pkg-config", "pkg-config")
    library: Path = request.getfixturevalue("library")
    has_archive = (library / "lib/libwb.a").exists()
    # a library that is not proved has no archive
    with_library(home, library).run(command if has_archive else command.replace("libwb.a", "libwb.so"))
    assert home.run("LD_LIBRARY_PATH=~/.local/lib ./host < examples/session.txt") == home.run("out/wb host < examples/session.txt")


def run_cargo(home: Home, command: str, request: pytest.FixtureRequest) -> None:
    """By the toolchain itself, since the one that stands in its place asks for a home."""
    found("cargo", "cargo")
    root = Path(subprocess.run(["rustc", "--print", "sysroot"], stdout=subprocess.PIPE, text=True, check=True).stdout.strip())
    with_library(home, request.getfixturevalue("library"))
    there = home._replace(environment={**home.environment, "PATH": f"{root}/bin:{home.environment['PATH']}", "LD_LIBRARY_PATH": f"{home.room}/.local/lib"})
    assert there.run(command).endswith("*****        \ndrawn in Rust\n")


def run_pip(home: Home, command: str, _: pytest.FixtureRequest) -> None:
    made = subprocess.run([sys.executable, "-m", "venv", home.room / "environment"], capture_output=True, check=False)
    if made.returncode:
        pytest.skip("there is no venv here (apt-get install python3-venv)")
    there = home._replace(environment={**home.environment, "PATH": f"{home.room}/environment/bin:{home.environment['PATH']}"})
    there.run(command)
    assert there.run("cd / && python3 -c 'import wb; print(wb.__file__)'").startswith(str(home.room / "environment"))


def run_yjs(home: Home, command: str, _: pytest.FixtureRequest) -> None:
    pytest.skip("tests/programs/test_sessions.py runs it, in a folder that has Yjs")


RUNNERS: dict[str, Callable[[Home, str, pytest.FixtureRequest], None]] = {
    "PYTHONPATH=python examples/member.py": run_member, "javascript/pack.py": run_pack, "node examples/member.mjs": run_node, "cc examples/c/": run_compiler,
    "WB_PREFIX=~/.local cargo": run_cargo, "python3 -m pip install": run_pip, "node three.mjs": run_yjs,
}


def test_each_command_is_run_or_has_a_reason() -> None:
    assert len(COMMANDS) >= 8
    for _, command in COMMANDS:
        runner(command)


@pytest.mark.timeout(1200)
@pytest.mark.parametrize("page, command", COMMANDS, ids=[f"{page}-{command[:30]}" for page, command in COMMANDS])
def test_command(page: str, command: str, home: Home, request: pytest.FixtureRequest) -> None:
    run = runner(command)
    if isinstance(run, str):
        pytest.skip(run)
    began = time.monotonic()
    run(home, request)
    assert time.monotonic() - began < 900 and os.path.exists(TOP / page)
