"""What the tests of the page of `./wb --page` share: its folder, which WB_PAGE names or ./wb --page builds, and the browser."""

from __future__ import annotations

import fcntl
import os
import shutil
import subprocess
from collections.abc import Iterator
from pathlib import Path

import pytest

from ..host.program import TOP
from ..live.browser import PATIENCE
from .serving import Broker, Folder
from .windows import Ordinary

# prints the folder if it is of the sources as they stand
STANDING = 'top=$1 && . "$top/tools/program.bash" && . "$top/tools/page.bash" && is_made "$page" "$(digest_of_page)" && echo "$page"'


def found(package: str, *programs: str) -> str:
    """The first of these programs that is there; without any, the test is skipped."""
    paths = [path for name in programs if (path := shutil.which(name))]
    if not paths:
        pytest.skip(f"there is no {package} here (apt-get install {package})")
    return paths[0]


def wait_for_the_build() -> None:
    """Waits for the end of the build that ./test began beside the tests: it holds a lock while it is at work."""
    building = os.environ.get("WB_PAGE_BUILDING")
    if building:
        with open(building) as lock:
            fcntl.flock(lock, fcntl.LOCK_SH)


@pytest.fixture(scope="session")
def page(request: pytest.FixtureRequest) -> Path:
    """The folder that is tested, which is built if that is due and --build-page is among the words."""
    wait_for_the_build()
    named = os.environ.get("WB_PAGE")
    if named:
        return Path(named)
    if request.config.getoption("--build-page"):
        found("binaryen", "wasm-opt")
        return Path(subprocess.run([TOP / "wb", "--page"], stdout=subprocess.PIPE, text=True, check=True).stdout.strip())
    told = subprocess.run(["bash", "-c", STANDING, "bash", str(TOP)], stdout=subprocess.PIPE, text=True, check=False).stdout.strip()
    if not told:
        pytest.skip("no page stands of these sources (--build-page builds it, in some minutes)")
    return Path(told)


@pytest.fixture(scope="session")
def module(page: Path) -> Path:
    return page / "wb-any.wasm"


@pytest.fixture(scope="module")
def browser() -> Iterator[Ordinary]:
    one = Ordinary(found("chromium", "chromium", "chromium-browser", "google-chrome"), 2 * PATIENCE)
    with one:
        yield one


@pytest.fixture(scope="module")
def folder(page: Path) -> Iterator[Folder]:
    served = Folder(page)
    yield served
    served.end()


@pytest.fixture(scope="module")
def broker() -> Iterator[Broker]:
    carrier = Broker(found("mosquitto", "mosquitto", "/usr/sbin/mosquitto"))
    yield carrier
    carrier.end()
