"""Packages of Debian's that some words take: each is looked for first, and one line says how to come by it."""
from __future__ import annotations

import importlib
import os
import subprocess
import sys
from types import ModuleType

from .carriers.carrier import NetworkFault

# the interpreter for which Debian installs its packages
DEBIANS = "/usr/bin/python3"

# seconds in which that interpreter says whether it has a package
PATIENCE = 20


def has_module(name: str) -> bool:
    try:
        importlib.import_module(name)
    except ImportError:
        return False
    return True


def module_of(name: str, package: str, words: str) -> ModuleType:
    """A module of a package that these words take. NetworkFault, with the one command that helps, where it is not here."""
    try:
        return importlib.import_module(name)
    except ImportError:
        raise NetworkFault(advice(name, package, words)) from None


def advice(name: str, package: str, words: str) -> str:
    """What to do where this interpreter has no such module: start with Debian's, where that one has it, or install it."""
    if debian_has(name):
        return "%s takes %s, which this Python lacks and Debian's has: start it as %s ./wb-live .." % (words, name, DEBIANS)
    return "%s takes a package that is not here: apt-get install %s" % (words, package)


def debian_has(name: str) -> bool:
    """Whether Debian's interpreter is another one than this, and has a module."""
    if not os.path.exists(DEBIANS) or os.path.realpath(sys.executable) == os.path.realpath(DEBIANS):
        return False
    try:
        command = [DEBIANS, "-c", "import " + name]
        asked = subprocess.run(command, stdin=subprocess.DEVNULL, capture_output=True, timeout=PATIENCE, check=False)
    except (OSError, subprocess.TimeoutExpired):
        return False
    return asked.returncode == 0
