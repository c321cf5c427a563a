"""Compares wb with what people would pick in its place, in one run: tests/take-figures peers [WORDS]

It takes minutes, sends to 127.0.0.1 alone, and is best run while nothing else runs. If a peer needs something that is not there, a line says so.
"""

from __future__ import annotations

import argparse
import platform
import subprocess

from . import arrivals, needs, sessions
from .group import CONSTANTS, LIVE, kinds
from .measuring import load

PARTS = ("arrivals", "sessions", "killed")


def describe() -> None:
    """What is measured, and where."""
    print(f"{platform.machine()}, Python {platform.python_version()}, {load()}")
    try:
        print(f"wb: {needs.program()}")
        print(f"Node {subprocess.run([needs.node(), '--version'], stdout=subprocess.PIPE, text=True, check=True).stdout.strip()}")
    except needs.Missing as fault:
        print(f"peers: {fault}")


def words() -> argparse.ArgumentParser:
    made = argparse.ArgumentParser(prog="tests/take-figures peers", description=(__doc__ or "").split(":", 1)[0] + ".")
    made.add_argument("--only", nargs="+", choices=PARTS, default=PARTS, metavar="PART", help=f"some of {', '.join(PARTS)}")
    made.add_argument("--rounds", type=int, default=5, help="rounds of arrivals")
    made.add_argument("--arrivals", type=int, default=60_000, help="drawings of a round")
    made.add_argument("--sessions", type=int, default=3, help="sessions of a kind")
    made.add_argument("--drawings", type=int, default=300, help="drawings of a session")
    made.add_argument("--killed", type=int, default=12, help="sessions whose last drawer is killed")
    made.add_argument("--side-by-side", type=int, default=1, help="how many of those sessions run at once")
    made.add_argument("--members", type=int, nargs="+", default=(3, 10), help="sizes of groups")
    made.add_argument("--lost", type=float, nargs="+", default=(0.2, 0.3), help="shares that are lost")
    made.add_argument("--constants", nargs="+", default=CONSTANTS, help=f"constants of wb's timers, or {LIVE} for those that a member of wb-live takes by itself")
    return made


def main() -> None:
    options = words().parse_args()
    describe()
    if "arrivals" in options.only:
        arrivals.compare(options.rounds, options.arrivals)
    plan = sessions.Plan(options.members, options.lost, kinds(options.constants))
    if "sessions" in options.only:
        sessions.compare(plan, options.sessions, options.drawings)
    if "killed" in options.only:
        sessions.compare_killed(plan, options.killed, options.side_by_side)


if __name__ == "__main__":
    main()
