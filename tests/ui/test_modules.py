"""The modules of the page by themselves: their types by tsc, and what they compute in Node."""

from __future__ import annotations

import json
import shutil
import subprocess

import pytest

from ..node import find_node, run_tests
from .sheets import TOP

PAGE = TOP / "live" / "ui"
HERE = TOP / "tests" / "ui"
LONGEST = 300
OPTIONS = ["--allowJs", "--checkJs", "--noEmit", "--strict", "--target", "es2022", "--module", "es2022", "--lib", "es2022,dom,dom.iterable"]


def run(package: str, program: str, *words: str) -> None:
    found = shutil.which(program)
    if not found:
        pytest.skip(f"there is no {program} here (apt-get install {package})")
    done = subprocess.run([found, *words], stdout=subprocess.PIPE, stderr=subprocess.STDOUT, text=True, timeout=LONGEST, check=False)
    assert done.returncode == 0, done.stdout


def test_types() -> None:
    run("node-typescript", "tsc", *OPTIONS, *map(str, [*sorted(PAGE.glob("*.js")), HERE / "newer.d.ts"]))


def test_units() -> None:
    run_tests(HERE / "units.test.mjs")


def test_kinks() -> None:
    run_tests(HERE / "kinks.test.mjs")


def test_scancodes() -> None:
    """Each code is one that qrencode makes, but for the mask, which either may choose."""
    node, program = find_node(), shutil.which("qrencode")
    if not program:
        pytest.skip("there is no qrencode here (apt-get install qrencode)")
    texts = ["a", "http://192.168.1.20:8050/db865d0c9e1f4a67b2c3d4e5f6071829/", "Gr\u00f6\u00dfe \u6f22", *("x" * many for many in (14, 15, 180, 181, 300, 500, 666))]
    printed = subprocess.run([node, HERE / "scancodes.mjs"], input=json.dumps([*texts, "x" * 667]), stdout=subprocess.PIPE, text=True, check=True).stdout
    *codes, too_long = json.loads(printed)
    for text, code in zip(texts, codes):
        drawn = subprocess.run([program, "-8", "-l", "M", "-m", "0", "-t", "ASCII", "-o", "-"], input=text.encode(), stdout=subprocess.PIPE, check=True).stdout.decode().splitlines()
        wanted = [row[::2].replace("#", "1").replace(" ", "0") for row in drawn if row]
        assert wanted in code["masks"], text
        assert code["chosen"] in code["masks"], text
    assert too_long["chosen"] is None


def test_measures() -> None:
    """What is painted has the measures that docs/INK.md tells."""
    script = f"import({json.dumps((PAGE / 'inkmeasures.js').as_uri())}).then((all) => console.log(JSON.stringify({{ ...all }})))"
    found = json.loads(subprocess.run([find_node(), "-e", script], stdout=subprocess.PIPE, text=True, check=True).stdout)
    marker, pressed, corners, head, dashes = (found[name] for name in ("MARKER", "PRESSED", "CORNERS", "HEAD", "DASHES"))
    told = " ".join((TOP / "docs" / "INK.md").read_text().split())
    wanted = [f"{marker['wide']} times as wide", f"at {100 * marker['dark']:.0f} in 100", f"`{pressed['least']} + {pressed['more']} p` times as wide", f"corners of {corners['frame']}, and of {corners['note']} units",
              f"`max({head['least']}, {head['widths']} widths)` long, with {head['side']} radians", f"{dashes['long']} widths long, with gaps of {dashes['gap']}; only on lines below {dashes['most']['line']:,} units",
              f"and on shapes with corners less than {dashes['most']['shape']:,} apart",
              f"in size {found['IN_SHAPES']}, broken at spaces", f"A line is {found['LEADING']} sizes high"]
    assert [sentence for sentence in wanted if sentence not in told] == []


def test_names() -> None:
    """No name of a script has two meanings: what the page has and what the member in a browser has are called differently."""
    page, member = ({path.name for path in (TOP / folder).glob("*.js")} for folder in ("live/ui", "web/member"))
    assert page and member
    assert page & member == set()
