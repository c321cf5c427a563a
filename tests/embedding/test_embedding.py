"""The examples of embedding, each in a workspace of its own to which tools/vendor copies what it stands on.

They are built and run without a proof. `pytest tests/embedding --prove` proves examples/embed first, which takes some minutes.
"""

from __future__ import annotations

import shutil
import subprocess
from pathlib import Path

import pytest

TOP = Path(__file__).resolve().parents[2]
# the crates that are copied, and what else of them and of the toolchain an example uses
EXAMPLES = {
    "embed": ("wb_codec wb_display wb_gaps", "wb_names hex anyhow"),
    "host": ("wb_member wb_codec", "wb_recovery wb_display wb_names anyhow"),
}


@pytest.mark.parametrize("name", EXAMPLES)
def test_example(name: str, tmp_path: Path, request: pytest.FixtureRequest) -> None:
    """It prints what its file `stdout` says."""
    if not shutil.which("rt"):
        pytest.skip("there is no command rt of the toolchain")
    copied, used = EXAMPLES[name]
    subprocess.run([TOP / "tools/vendor", tmp_path, *copied.split()], check=True, capture_output=True)
    folder = tmp_path / "crates" / name
    (folder / "src").mkdir(parents=True)
    shutil.copy(TOP / "examples" / name / "main.rt.in", folder / "src/main.rt")
    with (tmp_path / "crates.txt").open("a") as crates:
        crates.write(f"{name}: {copied} {used}\n")
    is_proved = name == "embed" and request.config.getoption("--prove")
    if is_proved:
        take_over(tmp_path)
    ran = subprocess.run(["rt", "run" if is_proved else "try"], cwd=folder, capture_output=True, text=True, check=False)
    assert (ran.returncode, ran.stdout) == (0, (TOP / "examples" / name / "stdout").read_text()), ran.stderr[-4000:]


def take_over(workspace: Path) -> None:
    """What was proved of the copied crates here, where it was kept."""
    for crate in (workspace / "crates").iterdir():
        proved = TOP / "crates" / crate.name / "out"
        if proved.is_dir():
            shutil.copytree(proved, crate / "out", symlinks=True)
