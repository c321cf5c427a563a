"""How live/, lab/ and the tests speak to `wb host`: the package of python/, and the program of the checkout."""
from __future__ import annotations

import os
import subprocess
import sys
from pathlib import Path

TOP = Path(__file__).resolve().parent
sys.path.insert(1, str(TOP / "python"))

from wb.blocks import Block, number_of, rows_of  # noqa: E402
from wb.child import LINES, PATIENCE, Child, HostEnded  # noqa: E402
from wb.child import ChildHost as Host  # noqa: E402
from wb.ink import FIRST_ROW, SIGNS, Ink  # noqa: E402
from wb.ink import read as read_ink  # noqa: E402
from wb.program import NoProgram  # noqa: E402

__all__ = ["FIRST_ROW", "LAUNCHER", "LINES", "PATIENCE", "SIGNS", "Block", "Child", "Host", "HostEnded", "Ink", "NoProgram", "find_program", "number_of",
           "prove_program", "read_ink", "rows_of"]

LAUNCHER = TOP / "wb"


def find_program() -> str:
    """The program that WB_PROGRAM names, or else one of ./wb that is there at once: no proof is begun. Where none is proved it is the build
    that is not, which takes a minute or two the first time."""
    return os.environ.get("WB_PROGRAM") or launched("--now").partition(" ")[2]


def prove_program() -> str:
    """The program that WB_PROGRAM names, or else that of ./wb, which proves and builds it where that is due."""
    return os.environ.get("WB_PROGRAM") or launched("--where")


def launched(word: str) -> str:
    built = subprocess.run([str(LAUNCHER), word], stdout=subprocess.PIPE, check=False)
    if built.returncode != 0:
        raise NoProgram("there is no program: ./wb %s ended with %d" % (word, built.returncode))
    return built.stdout.decode().strip()
