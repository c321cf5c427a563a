"""Where the program and the library of a host are. Nothing is proved or built here: what is not there is said."""
from __future__ import annotations

import os
import shutil
from pathlib import Path
from typing import List, Optional

HERE = Path(__file__).resolve().parent

LIBRARY = "libwb.so"


class NoProgram(Exception):
    """There is no program, and how to get it."""


def beside() -> List[Path]:
    """The folders that may have what was built: this package, the checkout in which it lies, and the tree in which it was installed."""
    top = HERE.parent.parent
    return [HERE, top / "out", top / "out" / "lib", top.parent.parent / "bin", top.parent.parent / "lib", top.parent / "x86_64-linux-gnu"]


def find_program() -> str:
    """The program that WB_PROGRAM names; else one that was built or installed with this package; else `wb` of PATH."""
    there = [str(folder / "wb") for folder in beside() if (folder / "wb").is_file() and os.access(folder / "wb", os.X_OK)]
    found = os.environ.get("WB_PROGRAM") or next(iter(there), None) or shutil.which("wb")
    if not found:
        raise NoProgram("there is no program wb: put it on PATH, or name it by WB_PROGRAM; in a checkout, "
                        "./wb --now builds one that is not proved, in two minutes, and prints its path")
    return found


def find_library() -> Optional[str]:
    """The library that WB_LIBRARY names, or else one that was built or installed with this package. None where there is none."""
    there = [str(folder / LIBRARY) for folder in beside() if (folder / LIBRARY).is_file()]
    return os.environ.get("WB_LIBRARY") or next(iter(there), None)
