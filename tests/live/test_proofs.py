"""A member that begins before the program is proved: a stand-in for the launcher plays the proof, over the program that is tested."""
from __future__ import annotations

import os
import shutil
import subprocess
import tempfile
from pathlib import Path
from typing import List

from ..facts import Facts
from .test_guests import Window
from .members import TOP, Process, comes, program

# The launcher: what is there at once is a build that is not proved, until the file `proved` stands beside it. Its proof goes on as
# the tests say, by files: `stage` is what it writes, `fast` lets another build take the first one's place, and `ends` ends it.
LAUNCHER = """#!/bin/bash
top=$(dirname -- "$(readlink -f -- "$0")")
case $1 in
    --where) echo "$top/out/wb" ;;
    --now) [ ! -e "$top/none" ] || exit 5
        [ -e "$top/ends-0" ] && echo "proved $top/out/wb" || echo "unproved $top/out/unproved/wb" ;;
    --beside)
        echo $$ >"$top/prover"
        while kill -0 "$2" 2>/dev/null; do
            [ ! -e "$top/stage" ] || cp "$top/stage" "$top/out/progress"
            [ ! -e "$top/fast" ] || { rm "$top/fast"; cp "$top/out/unproved/wb" "$top/new" && mv "$top/new" "$top/out/unproved/wb"; }
            [ ! -e "$top/ends-0" ] || exit 0
            [ ! -e "$top/ends-5" ] || { echo "wb: wb_board is not proved; the log is out/logs/1/wb_board.log" >&2; exit 5; }
            sleep 0.1
        done ;;
esac
"""


class Checkout:
    """A copy of what ./wb-live is, with a launcher of its own."""

    def __init__(self) -> None:
        self.folder = tempfile.TemporaryDirectory(prefix="wb-checkout-")
        self.top = Path(self.folder.name)
        for name in ("wb-live", "wbhost.py"):
            shutil.copy(TOP / name, self.top / name)
        for name in ("live", "python"):
            shutil.copytree(TOP / name, self.top / name, ignore=shutil.ignore_patterns("tests", "__pycache__"))
        (self.top / "out" / "unproved").mkdir(parents=True)
        for path in (self.top / "out" / "wb", self.top / "out" / "unproved" / "wb"):
            shutil.copy(program(), path)
        (self.top / "wb").write_text(LAUNCHER)
        (self.top / "wb").chmod(0o755)

    def say(self, name: str, text: str = "") -> None:
        (self.top / (name + ".new")).write_text(text)
        (self.top / (name + ".new")).replace(self.top / name)

    def start(self, *words: str) -> Process:
        kept = os.environ.pop("WB_PROGRAM")
        try:
            return Process(list(words), top=self.top)
        finally:
            os.environ["WB_PROGRAM"] = kept


def hosts_of(member: Process) -> List[str]:
    """The programs that are children of a member."""
    told = subprocess.run(["ps", "-o", "args=", "--ppid", "%d" % member.process.pid], stdout=subprocess.PIPE, text=True, check=False)
    return sorted({line.split()[0] for line in told.stdout.splitlines() if "/wb " in line and "--beside" not in line})


def test_change(facts: Facts) -> None:
    place = Checkout()
    one = place.start("--ports", "27800")
    facts("a member begins by a build that is not proved", hosts_of(one), [str(place.top / "out/unproved/wb")])
    facts("and says so on standard output", one.lines[0].startswith("NOT PROVED YET: this board runs by a build that is checked while it runs"), True)
    facts("and on the page", one.wait_for(lambda states: states["hello"]["proof"]["text"].startswith("NOT PROVED YET") and not states["hello"]["proof"]["proved"]), True)
    place.say("stage", "5 13 12 wb_board 34 of 128")
    facts("the page has crates and minutes", one.wait_for(lambda states: states["hello"]["proof"]["progress"] == "5 of 13 crates proved, 12 min: wb_board 34 of 128"), True)
    facts("and a bar of them", one.wait_for(lambda states: (states["hello"]["proof"]["crates"], states["hello"]["proof"]["many"]) == (5, 13)), True)
    facts("people draw meanwhile", one.draw("1/1", "line 0 0 4 0 *")[0], 200)
    place.say("fast")
    facts("and after a faster build has taken its place", one.wait_for(lambda states: states["board"]["rows"] == ["*****"]) and one.draw("1/1", 'text 0 1 "two"')[0], 200)
    place.say("ends-0")
    facts("when the proof is done the page says so", one.wait_for(lambda states: states["hello"]["proof"]["proved"]), True)
    facts("in words", one.states["hello"]["proof"]["text"], "The program is proved now, and this member has changed over to it from its record.")
    facts("and the member has changed over", hosts_of(one), [str(place.top / "out/wb")])
    facts("with all that was drawn", one.wait_for(lambda states: states["board"]["rows"] == ["*****", "two"]), True)
    facts("and goes on", (one.draw("1/1", 'text 0 2 "three"')[0], one.wait_for(lambda states: states["board"]["rows"] == ["*****", "two", "three"])), (200, True))
    facts("it ends as it should", one.end(), 0)
    two = place.start("--ports", "27840")
    facts("the next start has the proved program, and says so", ("which is proved; live/" in two.lines[0], hosts_of(two)), (True, [str(place.top / "out/wb")]))
    two.end()


def test_failure(facts: Facts) -> None:
    place = Checkout()
    one = place.start("--ports", "27880")
    one.draw("1/1", "line 0 0 4 0 *")
    place.say("ends-5")
    text = "NOT PROVED: wb_board is not proved; the log is out/logs/1/wb_board.log. This board goes on by a build that is checked while it runs."
    facts("where a crate is not proved, the page says which", one.wait_for(lambda states: states["hello"]["proof"]["text"] == text), True)
    facts("and the member goes on", (one.draw("1/1", 'text 0 1 "on"')[0], hosts_of(one)), (200, [str(place.top / "out/unproved/wb")]))
    one.end()


def test_none(facts: Facts) -> None:
    place = Checkout()
    place.say("none")
    one = place.start("--ports", "28000")
    facts("where there is no build that is not proved, a start waits for the proof", hosts_of(one), [str(place.top / "out/wb")])
    one.end()


def test_end(facts: Facts) -> None:
    place = Checkout()
    one = place.start("--ports", "27920")
    facts("a proof is begun", comes(lambda: (place.top / "prover").exists() and bool((place.top / "prover").read_text())), True)
    prover = (place.top / "prover").read_text().strip()
    one.end()
    facts("and ends with its session", comes(lambda: not Path("/proc", prover).exists()), True)


def test_guests(facts: Facts) -> None:
    """The members of browsers change over too."""
    place = Checkout()
    served = place.start("--ports", "27960", "--web", "127.0.0.1:0")
    try:
        windows = [Window(served).look() for _ in range(2)]
        facts("each browser is told that nothing is proved yet", [window.wait_for(lambda states: not states["hello"]["proof"]["proved"]) for window in windows], [True, True])
        facts("both may draw", [window.wait_for(lambda states: states["hello"]["ready"]) for window in windows], [True, True])
        facts("one draws", windows[0].draw("1/1", "line 0 0 4 0 *")[0], 200)
        facts("and the other sees it", windows[1].wait_for(lambda states: states["board"]["rows"] == ["*****"]), True)
        place.say("ends-0")
        facts("both are told that it is proved", [window.wait_for(lambda states: states["hello"]["proof"]["proved"]) for window in windows], [True, True])
        facts("all hosts are the proved program", comes(lambda: hosts_of(served) == [str(place.top / "out/wb")]), True)
        facts("each goes on", windows[1].draw("1/1", 'text 0 1 "two"')[0], 200)
        facts("with all that was drawn", [window.wait_for(lambda states: states["board"]["rows"] == ["*****", "two"]) for window in windows], [True, True])
        late = Window(served).look()
        facts("a newcomer has the proved program", late.wait_for(lambda states: states["board"]["rows"] == ["*****", "two"] and states["hello"]["proof"]["proved"]), True)
    finally:
        served.end()
