"""What is compiled in has its licence in each thing that is handed out."""

from __future__ import annotations

import shutil
import subprocess
import tarfile
import zipfile
from pathlib import Path

import pytest

from ..launcher.checkout import TOP

TOLD = TOP / "tools/installed/THIRD-PARTY"


@pytest.mark.skipif(not shutil.which("rt"), reason="there is no toolchain here, whose folders have the licences")
def test_each_crate_has_its_licence() -> None:
    """The file is that of the crates and of the toolchain that stand here, and a crate without a licence ends the script."""
    ran = subprocess.run([TOP / "tools/third-party"], stdout=subprocess.PIPE, stderr=subprocess.PIPE, text=True, check=False)
    assert (ran.returncode, ran.stderr) == (0, "")
    assert ran.stdout == TOLD.read_text(), "tools/third-party > tools/installed/THIRD-PARTY"
    named = [word.strip(",") for part in ran.stdout.split("-" * 72) for word in part.strip().splitlines()[0].split()]
    assert {"clap", "crossbeam_channel", "hex", "indexmap", "itoa", "memchr", "rand_core", "rand_pcg", "thiserror"} <= set(named)


def test_packages_have_it(tmp_path: Path) -> None:
    built = [tmp_path / name for name in ("wb", "libwb.so", "wb.wasm", "wb-any.wasm")]
    for path in built:
        path.write_text("stands in")
    subprocess.run(["python3", TOP / "python/wheels.py", tmp_path, *built[:2]], stdout=subprocess.DEVNULL, check=True)
    with zipfile.ZipFile(next(tmp_path.glob("*.whl"))) as wheel:
        assert wheel.read(next(it for it in wheel.namelist() if it.endswith("/licenses/THIRD-PARTY"))) == TOLD.read_bytes()
    subprocess.run(["python3", TOP / "javascript/pack.py", tmp_path, tmp_path], stdout=subprocess.DEVNULL, check=True)
    with tarfile.open(next(tmp_path.glob("*.tgz"))) as package:
        inside = package.extractfile("package/THIRD-PARTY")
        assert inside is not None and inside.read() == TOLD.read_bytes()
