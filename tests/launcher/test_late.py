"""Which tests `./test` tries once more, alone."""

from __future__ import annotations

import subprocess
from pathlib import Path

import pytest

from ..late import late

UI, LIVE, HOST = "tests/ui/test_class.py::test_flow[forms]@test_class", "tests/live/test_members.py::test_two", "tests/host/test_lines.py::test_ends"
TEST = Path(__file__).resolve().parents[2] / "test"

PYTEST = """#!/bin/sh
case $* in
    *late.py) printf '%s\\n' one two ;;
    *one) exit 0 ;;
    *) exit 1 ;;
esac
"""


@pytest.mark.parametrize(("failed", "wanted"), [
    ([], []),
    ([UI], ["tests/ui/test_class.py::test_flow[forms]"]),
    ([UI, LIVE], ["tests/ui/test_class.py::test_flow[forms]", LIVE]),
    ([UI, HOST], []),
    ([f"{LIVE}[{count}]" for count in range(4)], []),
])
def test_few(failed: list[str], wanted: list[str]) -> None:
    assert late(failed) == wanted


def test_alone(tmp_path: Path) -> None:
    """One that passes alone is named; one that fails again has failed."""
    (tmp_path / "tests").mkdir()
    for name, text in (("python", PYTEST), ("tests/alone.sh", '#!/bin/sh\nexec "$@"\n')):
        (tmp_path / name).write_text(text)
        (tmp_path / name).chmod(0o755)
    function = TEST.read_text().partition("try_late() {")[2].partition("\n}\n")[0]
    ran = subprocess.run(["bash", "-uc", f"python=./python; try_late() {{{function}\n}}; try_late; echo $late"], cwd=tmp_path, stdin=subprocess.DEVNULL,
                         stdout=subprocess.PIPE, text=True, check=True)
    assert ran.stdout == "failed beside other tests, and passed alone: one\n1\n"
