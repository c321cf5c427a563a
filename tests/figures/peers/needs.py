"""What each peer needs, and where it is. Nothing is installed or built here: what is not there is said."""

from __future__ import annotations

import ctypes
import os
import shutil
from pathlib import Path

import wbhost
from wb.program import find_program

TOP = Path(wbhost.__file__).resolve().parent
SCRIPTS = Path("/usr/share/nodejs")  # where Debian's packages of Node have their scripts
NORM = "libnorm.so.1"


class Missing(Exception):
    """Something is not there, and how to get it."""


def program() -> str:
    """The program that WB_PROGRAM names, or else one that was built or installed."""
    try:
        return find_program()
    except wbhost.NoProgram as fault:
        raise Missing(str(fault)) from fault


def node() -> str:
    found = shutil.which("node") or shutil.which("nodejs")
    if not found:
        raise Missing("there is no node: apt-get install nodejs")
    return found


def yjs() -> Path:
    """The folder in which Node finds Yjs."""
    if not (SCRIPTS / "yjs").is_dir():
        raise Missing("there is no Yjs: apt-get install node-yjs")
    return SCRIPTS


def modules() -> Path:
    """The folder of the page's modules, as javascript/test finds it."""
    folder = Path(os.environ.get("WB_MODULES") or TOP / "out" / "modules")
    if not (folder / "wb-any.wasm").exists():
        raise Missing("there is no module for Node: ./wb --page builds it, or WB_MODULES names its folder")
    return folder


def norm() -> ctypes.CDLL:
    """The library of NORM. Debian has no binding of it for Python, and its header is C++."""
    try:
        return ctypes.CDLL(NORM)
    except OSError as fault:
        raise Missing("there is no NORM: apt-get install libnorm1") from fault
