"""The launcher ./wb: --install and --page."""

from __future__ import annotations

import shutil
import subprocess

import pytest

from ..documents.shell import shell_lines
from .checkout import TOP, Checkout, End

INSTALLED = """\
bin/wb
bin/wb-live
lib/wb/wb
share/bash-completion/completions/wb
share/bash-completion/completions/wb-live
share/doc/wb/BUILT
share/doc/wb/LICENCE
share/doc/wb/THIRD-PARTY
share/man/man1/wb-live.1
share/man/man1/wb.1
share/wb/live/main.py
share/wb/live/ui/whiteboard.js
share/wb/python/wb/__init__.py
share/wb/wb
share/wb/wb-live
share/wb/wbhost.py
"""


@pytest.fixture
def with_live(checkout: Checkout) -> Checkout:
    for name in ("wb-live", "wbhost.py"):
        shutil.copy(TOP / name, checkout.top)
    checkout.write("live/ui/whiteboard.js", "")
    shutil.copytree(TOP / "python", checkout.top / "python", ignore=shutil.ignore_patterns("__pycache__"))
    checkout.write("live/main.py", "import wbhost\ndef main(words): print(wbhost.find_program(), *words)")
    return checkout


def printed(checkout: Checkout, path: str, *words: str, **more: str) -> str:
    ran = subprocess.run([checkout.room / path, *words], env=checkout.environment(**more), stdin=subprocess.DEVNULL, stdout=subprocess.PIPE, text=True, check=False)
    return ran.stdout.replace(f"{checkout.room}/", "")


def test_install(with_live: Checkout) -> None:
    """A program, wb-live, a manual page, completions and a line on the licence. It may be moved, and another install takes its place."""
    folder, moved = with_live.room / "usr", with_live.room / "moved"
    assert with_live.wb("--install", str(folder)).status == 0
    installed = [str(path.relative_to(folder)) for path in folder.rglob("*") if not path.is_dir()]
    assert sorted(path for path in installed if "/python/" not in path or path.endswith("__init__.py")) == INSTALLED.splitlines()
    assert printed(with_live, "usr/bin/wb", "x") == "one x\n"
    told = printed(with_live, "usr/share/wb/wb", "--version").splitlines()
    assert [line.split()[0] for line in told] == ["wb", "sources", "proved"], "it says of what it was built"
    assert printed(with_live, "usr/bin/wb", "--version").splitlines() == told == with_live.wb("--version").printed.splitlines()
    folder.rename(moved)
    assert printed(with_live, "moved/bin/wb-live", "a", WB_PROGRAM="") == "moved/lib/wb/wb a\n", "it runs by what was installed with it"
    assert printed(with_live, "moved/share/wb/wb", "--now") == "proved moved/lib/wb/wb\n"
    assert printed(with_live, "moved/share/wb/wb", "y") == "one y\n"
    (moved / "share/doc/wb/BUILT").write_text("wb 0.1.0\nsources 12\nnot proved\n")
    assert printed(with_live, "moved/share/wb/wb", "--now") == "unproved moved/lib/wb/wb\n", "it says what BUILT says"
    assert printed(with_live, "moved/share/wb/wb", "--version").splitlines()[-1] == "not proved"
    (moved / "share/wb/old").touch()
    assert with_live.wb("--install", str(moved)).status == 0
    assert sorted(path.name for path in (moved / "share/wb").iterdir()) == ["live", "python", "wb", "wb-live", "wbhost.py"]


def test_uninstall(with_live: Checkout) -> None:
    """The lines of docs/LIVE.md leave no file of it, and what others have put there."""
    folder = with_live.room / "usr"
    assert with_live.wb("--install", str(folder)).status == 0
    (folder / "bin/other").touch()
    lines = [line for line in shell_lines("docs/LIVE.md") if " rm " in line]
    script = "\n".join(lines).replace("/usr/local", str(folder)).replace("sudo ", "")
    assert len(lines) == 2 and subprocess.run(["bash", "-ec", script], check=False).returncode == 0
    assert [str(path.relative_to(folder)) for path in folder.rglob("*") if not path.is_dir()] == ["bin/other"]


def test_folder_that_can_not_be_written_is_said_first(checkout: Checkout) -> None:
    assert checkout.wb("--install", "/dev/null/usr") == End(5, "", "wb: /dev/null/usr can't be written\n")
    assert (checkout.wb("--install").status, checkout.begun()) == (2, [])


def page_of(checkout: Checkout, lacks: str = "") -> dict[str, str]:
    """The files of the folder that --page prints."""
    path = checkout.wb("--page", LACKS=lacks).printed.strip()
    return {file.name: file.read_text().strip() for file in (checkout.room / path.lstrip("/")).iterdir()} if path else {}


def test_page_is_built_behind_the_program(page: Checkout) -> None:
    assert page_of(page) == {"module": "one", "one.js": "scripts"}
    assert page.begun() == ["page needs", "check low", "check middle", "run wb", "page module", "page folder"]
    page.forget()
    assert (page_of(page, "all"), page.begun()) == ({"module": "one", "one.js": "scripts"}, []), "a second start is at once"


def test_page_with_another_script_keeps_its_modules(page: Checkout) -> None:
    page_of(page)
    page.forget()
    page.write("web/member/one.js", "other")
    assert page_of(page) == {"module": "one", "one.js": "other"}
    assert page.begun() == ["page needs", "page folder"]


def test_page_of_another_source_has_other_modules(page: Checkout) -> None:
    page_of(page)
    page.forget()
    page.main("two")
    assert (page_of(page)["module"], page.begun().count("page module")) == ("two", 1)


def test_libraries_that_were_put_away_are_made_again(page: Checkout) -> None:
    page_of(page)
    shutil.rmtree(page.top / "crates/low/out")
    page.write("web/building/heap.c", "x")
    page.forget()
    assert page.wb("--page").status == 0
    assert page.begun() == ["page needs", "run wb", "page module", "page folder"]


def test_page_whose_build_breaks_off_does_not_count_as_built(page: Checkout) -> None:
    page_of(page)
    page.write("web/building/heap.c", "y")
    assert (page.wb("--page", BREAKS="yes").status, page.wb("--page").status) == (5, 0)


def test_what_the_page_lacks_is_said_before_anything_is_proved(page: Checkout) -> None:
    assert page.wb("--page", LACKS="apt-get install it") == End(5, "", "wb: the page is not built: apt-get install it\n")
    assert page.begun() == ["page needs"]
