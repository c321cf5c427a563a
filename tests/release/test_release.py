"""./wb --release: what it packs, that it is the same from everywhere, and that it runs on a machine that has nothing else of wb."""

from __future__ import annotations

import hashlib
import os
import shutil
import subprocess
import sys
import tarfile
from pathlib import Path

import pytest

from ..host.program import program
from ..launcher.checkout import Checkout, End

NAME = "wb-0.1.0-linux-x86_64"
DEBIAN = ["wb_0.1.0_amd64.deb", "python3-wb_0.1.0_all.deb"]

# each once, and the modules of wb-live, the page, the documents and the examples beside them
PACKED = """\
README.md
bin/wb
bin/wb-live
include/wb.h
lib/libwb.a
lib/libwb.so
lib/libwb.so.0
lib/pkgconfig/wb.pc
lib/systemd/user/wb-live.service
lib/wb/wb
packages/wb-0.1.0-py3-none-manylinux2014_x86_64.whl
packages/wb-0.1.0.tgz
share/bash-completion/completions/wb
share/bash-completion/completions/wb-live
share/doc/wb/BUILT
share/doc/wb/CHANGELOG.md
share/doc/wb/LICENCE
share/doc/wb/README.md
share/doc/wb/THIRD-PARTY
share/doc/wb/javascript/README.md
share/doc/wb/python/README.md
share/fish/vendor_completions.d/wb-live.fish
share/fish/vendor_completions.d/wb.fish
share/man/man1/wb-live.1
share/man/man1/wb.1
share/wb/page/index.html
share/wb/wb
share/wb/wb-live
share/wb/wbhost.py
share/zsh/site-functions/_wb
"""

MOMENT = "1700000000"


def release(checkout: Checkout, **more: str) -> Path:
    made = checkout.room / "release"
    ended = checkout.wb("--release", str(made), by=None, given="", SOURCE_DATE_EPOCH=MOMENT, **more)
    assert ended.status == 0, ended.told
    return made


def sums(folder: Path) -> list[str]:
    """What SHA256SUMS says, once each sum was found to be that of its file."""
    told = (folder / "SHA256SUMS").read_text().splitlines()
    for line in told:
        found, name = line.split("  ")
        assert hashlib.sha256((folder / name).read_bytes()).hexdigest() == found
    return told


def test_two_checkouts_have_one_sum(checkouts: list[Checkout]) -> None:
    one, two = checkouts
    for path in two.top.rglob("*"):
        if path.is_file() and not path.is_symlink() and "crates" not in path.parts:
            os.utime(path, (1, 1))
            path.chmod(path.stat().st_mode & ~0o077)
    first, second = sums(release(one)), sums(release(two))
    assert first == second
    assert [line.split("  ")[1] for line in first] == [f"{NAME}.tar.gz", *DEBIAN]


def unpacked(checkout: Checkout, **more: str) -> Path:
    with tarfile.open(release(checkout, **more) / f"{NAME}.tar.gz") as archive:
        archive.extractall(checkout.room / "unpacked")
    return checkout.room / "unpacked" / NAME


def test_what_is_packed(checkout: Checkout) -> None:
    folder = unpacked(checkout)
    found = sorted(str(path.relative_to(folder)) for path in folder.rglob("*") if not path.is_dir() or path.is_symlink())
    others = ("share/wb/live/", "share/wb/python/", "share/wb/page/", "share/doc/wb/docs/", "share/doc/wb/examples/")
    assert {"share/doc/wb/docs/CLASS.md", "share/doc/wb/docs/LIVE.md", "share/doc/wb/docs/IN-YOUR-PROGRAM.md", "share/doc/wb/examples/member.py"} <= set(found)
    assert not any("target/" in it or "node_modules/" in it for it in found)
    assert [it for it in found if not it.startswith(others) or it == "share/wb/page/index.html"] == PACKED.splitlines()
    built = (folder / "share/doc/wb/BUILT").read_text().splitlines()
    assert [line.split()[0] for line in built] == ["wb", "sources", "proved", "library", *["crate"] * 4]
    assert built[4:] == [f"crate {it} proved" for it in ("low", "middle", "wb", "wb_c")]
    assert (folder / "share/man/man1/wb-live.1").read_text().startswith('.TH WB-LIVE 1 "2023-11-14" "wb 0.1.0"')
    assert not any("@" in path.read_text() for path in (folder / "share/man/man1").iterdir())


def test_a_release_without_its_tools_is_said_first(checkout: Checkout) -> None:
    few = checkout.room / "few"
    few.mkdir()
    for path in Path("/usr/bin").iterdir():
        if path.name != "dpkg-deb":
            (few / path.name).symlink_to(path)
    ended = checkout.wb("--release", str(checkout.room / "release"), PATH=f"{checkout.bin}:{few}")
    assert ended == End(5, "", "wb: the release is not made: there is no dpkg-deb here (apt-get install dpkg)\n")
    assert checkout.begun() == []


# ---- Debian


def test_the_debian_packages_are_installed_and_removed(checkout: Checkout, tmp_path: Path) -> None:
    made = release(checkout, STATIC=program())
    root = tmp_path / "root"
    (root / "var/lib/dpkg/updates").mkdir(parents=True)
    for name in ("status", "available"):
        (root / "var/lib/dpkg" / name).touch()
    (root / "var/lib/dpkg/info").mkdir()
    words = ["dpkg", f"--root={root}", "--force-not-root", "--force-depends", "--log=/dev/null"]
    ran = subprocess.run([*words, "--install", *(made / name for name in DEBIAN)], capture_output=True, text=True, check=False)
    assert ran.returncode == 0, ran.stderr
    assert (root / "usr/share/man/man1/wb.1.gz").exists() and (root / "usr/lib/x86_64-linux-gnu/libwb.so").is_symlink()
    assert (root / "usr/share/zsh/vendor-completions/_wb").exists() and (root / "usr/share/doc/wb/examples/member.py").exists()
    copyright = (root / "usr/share/doc/wb/copyright").read_text()
    assert "LICENSE" in copyright.upper() and "C Library" not in copyright and (root / "usr/share/doc/python3-wb/copyright").exists()
    told = subprocess.run([root / "usr/bin/wb", "host"], input=b"board 1 100 1 42\n", stdout=subprocess.PIPE, check=True).stdout
    assert told == b"ok never\n"
    assert subprocess.run([root / "usr/bin/wb", "--version"], stdout=subprocess.PIPE, check=True).stdout == (root / "usr/share/doc/wb/BUILT").read_bytes()
    (root / "usr/lib/x86_64-linux-gnu/libwb.so").unlink()  # it is a text here, so the program is the host
    assert hosted([sys.executable], {"PYTHONPATH": str(root / "usr/lib/python3/dist-packages")}) == f"{root}/usr/bin/wb [Page(creator=1, number=1)]\n"
    (root / "usr/lib/x86_64-linux-gnu/libwb.so").symlink_to("libwb.so.0")
    ran = subprocess.run([*words, "--purge", "python3-wb", "wb"], capture_output=True, text=True, check=False)
    assert ran.returncode == 0, ran.stderr
    assert [path for path in (root / "usr").rglob("*") if not path.is_dir()] == [] if (root / "usr").exists() else True


HOSTED = """import wb
with wb.Host(1, listen=0) as host:
    host.add(1, 5, "1/1", wb.Line(0, 0, 4, 0, "*"))
    print(wb.find_program(), host.pages())
"""


def hosted(python: list[str], more: dict[str, str]) -> str:
    """What a program in Python prints that has a host."""
    ran = subprocess.run([*python, "-B", "-c", HOSTED], capture_output=True, text=True, check=False, env={"PATH": "/nowhere", **more})
    assert ran.returncode == 0, ran.stderr
    return ran.stdout


def test_debian_finds_no_error(checkout: Checkout, tmp_path: Path) -> None:
    """Nor is one passed over."""
    if not shutil.which("lintian"):
        pytest.skip("there is no lintian here (apt-get install lintian)")
    stripped = tmp_path / "wb"
    subprocess.run(["strip", "-o", stripped, program()], check=True)
    made = release(checkout, STATIC=str(stripped))
    told = subprocess.run(["lintian", "--fail-on", "none", "--allow-root", "--show-overrides", *(made / name for name in DEBIAN)], capture_output=True, text=True, check=False)
    # the library of this checkout is a text
    known = ("libwb.", "[shlibs]")
    assert [line for line in told.stdout.splitlines() if line.startswith(("E:", "O:")) and not any(each in line for each in known)] == []
