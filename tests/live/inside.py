"""Tests that run in a network of their own, which has nothing but the loopback interface, and with mounts of their own. They are marked `inside`, and a
test of their file runs them there."""
from __future__ import annotations

import os
import subprocess
import sys
from typing import List, Sequence

from .members import TOP

# is set inside
INSIDE = "WB_INSIDE"

# a program in such a network, and with mounts of its own
ALONE = ["sh", "-c", 'ip link set lo up && exec "$@"', "sh"]
WAYS = (["unshare", "--net", "--mount"], ["unshare", "--net", "--mount", "--map-root-user"])


def way_inside(*tried: str) -> List[str]:
    """The command that runs another in such a network, if one can be had in which the command `tried` succeeds; else nothing."""
    for way in WAYS:
        try:
            if subprocess.run([*way, *ALONE, *tried], capture_output=True, check=False).returncode == 0:
                return [*way, *ALONE]
        except OSError:
            continue
    return []


def run_inside(file: str, way: Sequence[str], python: str = sys.executable) -> None:
    """Runs the tests of a file that are marked so, there."""
    command = [*way, python, "-B", "-m", "pytest", "-q", "-p", "no:cacheprovider", "-m", "inside", file]
    ran = subprocess.run(command, cwd=TOP, env={**os.environ, INSIDE: "1"}, stdin=subprocess.DEVNULL, stdout=subprocess.PIPE, text=True, check=False)
    assert ran.returncode == 0, ran.stdout
    print(ran.stdout)
