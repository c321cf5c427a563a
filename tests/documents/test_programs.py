"""docs/IN-YOUR-PROGRAM.md: each program on the page stands in an example, which a test of its language runs."""

from __future__ import annotations

import re
from pathlib import Path

TOP = Path(__file__).resolve().parents[2]


def test_programs_are_those_of_examples() -> None:
    text = (TOP / "docs/IN-YOUR-PROGRAM.md").read_text()
    examples = {path: path.read_text() for path in (TOP / "examples").rglob("*") if path.suffix in {".c", ".mjs", ".py", ".rs"}}
    programs = re.findall(r"```(?:c|js|python|rust)\n(.*?)```", text, re.DOTALL)
    assert len(programs) >= 2
    for program in programs:
        named = [path for path, example in examples.items() if program.strip() in example]
        assert named and str(named[0].relative_to(TOP)) in text, program
