"""What a library says of itself by `wb_version` (include/wb.h). No source knows its own digest, so the build writes this call, a line of C."""
from __future__ import annotations

import json
import re
import subprocess
from pathlib import Path

TOP = Path(__file__).resolve().parent.parent.parent

# the digest of the library's sources, and the toolchain's name, as ./wb has them
TOLD = "top=$PWD; . tools/program.bash; . tools/page.bash; sources_of_library; toolchain"


class Changed(Exception):
    """What was built may be of other sources than it says."""


def number() -> str:
    found = re.search(r"^## ([0-9.]+)$", (TOP / "CHANGELOG.md").read_text(), re.MULTILINE)
    if not found:
        raise Changed("CHANGELOG.md names no version")
    return found[1]


def proved() -> str:
    """What a library says that is proved of these sources."""
    ran = subprocess.run(["bash", "-c", TOLD], cwd=TOP, stdin=subprocess.DEVNULL, stdout=subprocess.PIPE, text=True, check=True)
    return "wb %s\nsources %s\nproved by %s\n" % (number(), *ran.stdout.splitlines())


def not_proved(bitcode: Path) -> str:
    """The same of one that is made of an LLVM module which is not proved. Of which sources that is, a file beside it says, if ./wb made it."""
    of = bitcode.with_name(bitcode.name + ".of")
    return "wb %s\nsources %s\nnot proved\n" % (number(), of.read_text().strip() if of.exists() else "-")


def check(said: str) -> None:
    """Changed if other sources stand here than those of which a library says it is."""
    if proved() != said:
        raise Changed("a source was changed while the library was built")


def source(said: str) -> str:
    """The call in C."""
    return "const char *wb_version(void);\nconst char *wb_version(void) { return %s; }\n" % json.dumps(said)
