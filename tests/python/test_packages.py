"""The wheel, what pip makes, the types, and the programs of the package's page."""

from __future__ import annotations

import os
import re
import shutil
import subprocess
import sys
import zipfile
from pathlib import Path

import pytest
import wb
import wheels

from ..host.program import TOP, program
from ..restarted import rows_by_record
from .conftest import HOME

LONGEST = 60.0  # seconds of a program of the page
USE = "import wb\nwith wb.Host(1) as host: print(wb.__file__, host.pages())"
# two programs print what their comments say, and one that shows what it drew
FIRST, SECOND, THIRD = re.findall(r"```python\n(.*?)```", (HOME / "README.md").read_text(), re.DOTALL)


def ran(words: list[str], folder: Path, **more: str) -> str:
    environment = {**os.environ, "PYTHONDONTWRITEBYTECODE": "1", **more}
    return subprocess.run(words, cwd=folder, env=environment, stdout=subprocess.PIPE, text=True, check=True, timeout=LONGEST).stdout


@pytest.fixture
def copy(tmp_path: Path) -> Path:
    """A copy of the package's folder."""
    shutil.copytree(HOME, tmp_path / "copy", ignore=shutil.ignore_patterns("__pycache__"))
    return tmp_path / "copy"


@pytest.fixture
def wheel(tmp_path: Path) -> Path:
    (tmp_path / "one").mkdir()
    return tmp_path / "one" / wheels.write_wheel(tmp_path / "one", [])


def need_pip() -> None:
    if subprocess.run([sys.executable, "-m", "pip", "--version"], capture_output=True, check=False).returncode:
        pytest.skip("there is no pip here (apt-get install python3-pip)")


def test_wheel(wheel: Path, copy: Path, tmp_path: Path) -> None:
    """From two folders it has the same bytes, and it runs where it was unpacked."""
    assert wheel.name == f"wb-{wb.__version__}-py3-none-any.whl"
    (tmp_path / "two").mkdir()
    ran([sys.executable, str(copy / "wheels.py"), str(tmp_path / "two")], tmp_path)
    assert (tmp_path / "two" / wheel.name).read_bytes() == wheel.read_bytes()
    with zipfile.ZipFile(wheel) as archive:
        archive.extractall(tmp_path / "site")
    assert ran([sys.executable, "-c", USE], tmp_path, PYTHONPATH=str(tmp_path / "site")) == f"{tmp_path}/site/wb/__init__.py []\n"


def test_pip(wheel: Path, copy: Path, tmp_path: Path) -> None:
    """It builds the same wheel."""
    need_pip()
    words = ["wheel", "--no-index", "--no-deps", "--quiet", "--disable-pip-version-check", "--wheel-dir", str(tmp_path / "pip"), str(copy)]
    ran([sys.executable, "-m", "pip", *words], tmp_path)
    assert (tmp_path / "pip" / wheel.name).read_bytes() == wheel.read_bytes()


@pytest.mark.parametrize("words, place", [([], "/site-packages/"), (["-e"], "/copy/wb/")], ids=["pip install", "pip install -e"])
def test_installs(words: list[str], place: str, copy: Path, tmp_path: Path) -> None:
    """An environment of its own has what can be used."""
    need_pip()
    home = tmp_path / "environment"
    if subprocess.run([sys.executable, "-m", "venv", str(home)], stdout=subprocess.DEVNULL, stderr=subprocess.DEVNULL, check=False).returncode:
        pytest.skip("there is no venv here (apt-get install python3-venv)")
    python = str(home / "bin/python")
    ran([python, "-m", "pip", "install", "--no-index", "--quiet", "--disable-pip-version-check", *words, str(copy)], tmp_path)
    told = ran([python, "-c", USE], home)
    assert place in told and told.endswith(" []\n")


def test_version() -> None:
    """It is that of the program."""
    told = subprocess.run([program(), "--version"], stdout=subprocess.PIPE, stderr=subprocess.STDOUT, text=True, check=False).stdout
    assert told.split()[1] == wb.__version__


def test_types() -> None:
    checker = shutil.which("mypy")
    if not checker:
        pytest.skip("there is no mypy here (apt-get install mypy)")
    checked = subprocess.run([checker, "--strict", "--cache-dir=/dev/null", "wb", "wheels.py"], cwd=HOME, stdout=subprocess.PIPE, text=True, check=False)
    assert checked.returncode == 0, checked.stdout


def test_first_program(tmp_path: Path) -> None:
    told = ran([sys.executable, "-c", FIRST], tmp_path, PYTHONPATH=str(HOME))
    assert told.split("\n")[:2] == ["Drawop(source=1, page=Page(creator=1, number=1), number=1, time=5, operation='line 0 0 4 0 *')", "*****"]


def test_second_program(tmp_path: Path) -> None:
    """It shows what it drew, in a group of its own, and leaves its record."""
    shows = SECOND.replace('print("\\n".join(member.host.show(page, 40, 5)))', "print(member.host.show(page, 9, 3)[1]); break")
    shows = shows.replace("239.192.17.1", "239.192.17.98").replace("8017)", '18018), interface="127.0.0.1"')
    assert ran([sys.executable, "-c", shows], tmp_path, PYTHONPATH=str(HOME)) == "  hello  \n"
    assert os.listdir(tmp_path) == ["7.record"]


def test_third_program(tmp_path: Path) -> None:
    assert ran([sys.executable, "-c", THIRD], tmp_path, PYTHONPATH=str(HOME)) == "line 0 0 4 0 *\n"


def test_restarts(tmp_path: Path) -> None:
    """examples/member.py: two members show one page after one was killed and started anew, without records and with them."""
    shown = rows_by_record([sys.executable, str(TOP / "examples/member.py")], tmp_path, {"PYTHONPATH": str(HOME)})
    assert shown == [[["one", "two", "one anew"]] * 2] * 2
