"""What stands beside a record, so that a program which was killed goes on as if it had not been: the address, browsers' numbers, and what windows asked for."""
from __future__ import annotations

import os
import re
import stat
from pathlib import Path
from typing import List, Optional

import pytest

from live.kept import FIRST_LINE, Kept
from live.record import NoRoom, RecordFault

from ..facts import Facts
from .members import Process
from .test_guests import Window

FIRST_PORT = 25_160

# a drawop of member 7 on page 1/1, and one of member 9
DIGITS = "57420201" + "".join("%08x" % number for number in (41, 7, 1, 1, 1))
OTHER = "57420201" + "".join("%08x" % number for number in (41, 9, 1, 1, 1))


def test_file(facts: Facts, tmp_path: Path) -> None:
    path = str(tmp_path / "a.record.page")
    kept = Kept(path)
    kept.admit("c" * 32, 7)
    kept.admit("d" * 32, 9)
    kept.admit("c" * 32, 8)
    kept.keep("w-1", DIGITS)
    with pytest.raises(NoRoom), kept.unless_lost(["w-2", "w-3"]):
        kept.keep("w-2", OTHER)
        raise NoRoom("the record is full")
    key = kept.key
    kept.close()
    facts("only its owner reads it", stat.S_IMODE(os.stat(path).st_mode), 0o600)
    with open(path, "a", encoding="latin-1") as file:
        file.write("asked w-3 5742")  # a crash cut it off
    again = Kept(path, is_new=False)
    facts("all of it is there again", (again.key, again.guests, again.asked), (key, {"c" * 32: 8, "d" * 32: 9}, {"w-1": DIGITS}))
    facts("by whom something was drawn", (again.drawn_by(7), again.drawn_by(9)), ([DIGITS], []))
    again.renew()
    facts("under another address nobody is known", (again.key != key, again.guests), (True, {}))
    again.close()
    facts("as it stays", Kept(path, is_new=False).key, again.key)
    other = Kept(path, is_new=True)
    facts("what belonged to another record is forgotten", (other.key != again.key, other.asked), (True, {}))
    (tmp_path / "b").write_text("my notes\n")
    os.symlink(path, tmp_path / "c")
    for name in ("b", "c"):
        with pytest.raises(RecordFault):
            Kept(str(tmp_path / name))
    facts("a file of another's stays as it is", (tmp_path / "b").read_text(), "my notes\n")
    facts("the first line says what it is", Path(path).read_text().split("\n")[0], FIRST_LINE)


def begin(folder: Path, port: int, *more: str) -> Process:
    return Process(["--ports", str(FIRST_PORT), "--speed", "10", "--record", str(folder / "a.record"), "--web", "127.0.0.1:%d" % port, *more])


def test_returning(facts: Facts, tmp_path: Path) -> None:
    """A browser, by its requests: what it asks for under one name is drawn once, however often it asks and whoever was killed meanwhile."""
    served = begin(tmp_path, 0)
    port, token = served.port, served.token
    one = Window(served).look()
    one.wait_for(lambda states: states["hello"]["ready"])
    me = one.me
    first = one.post("/draw", {"page": "1/2", "op": "line 0 0 3 0 a", "id": "w-1"})
    many = one.post("/draw", {"many": [{"page": "1/2", "op": "line 0 %d 3 %d b" % (y, y), "id": "w-%d" % y} for y in (1, 2, 3)]})
    facts("many at once, of which one was drawn already", [answer["seq"] for answer in many[1]["answers"]], [1, 2, 3])
    facts("again", one.post("/draw", {"page": "1/2", "op": "line 0 0 3 0 a", "id": "w-1"}), first)
    bad = {"many": [{"page": "1/2", "op": "line 9", "id": "w-4"}, {"page": "1/2", "op": "line 0 4 3 4 c", "id": "w-5"}]}
    facts("one of them is wrong", [answer["ok"] for answer in one.post("/draw", bad)[1]["answers"]], [False, True])
    served.kill()
    again = begin(tmp_path, port)
    try:
        facts("the address is the same", (again.port, again.token), (port, token))
        one.served = again
        one.states.clear()
        one.look()
        facts("the number too", (one.wait_for(lambda states: states["hello"]["ready"] and "board" in states), one.me), (True, me))
        facts("what was drawn is known by its name", one.post("/draw", {"page": "1/2", "op": "line 0 0 3 0 a", "id": "w-1"})[1]["seq"], 1)
        facts("what was not has the next number", one.post("/draw", {"page": "1/2", "op": "line 0 5 3 5 d", "id": "w-6"})[1]["seq"], 5)
        one.post("/page", {"page": "1/2"})
        facts("all is there once", one.wait_for(lambda states: states["board"]["rows"] == ["aaaa", "", "bbbb", "bbbb", "cccc", "dddd"]), True)
        status, text = again.get("/%s/" % ("0" * 32), {"Accept": "text/html,*/*"})
        facts("another address is refused in words", (status, "<h1>" in text, "{" in text), (403, True, False))
    finally:
        facts("it ends with 0", again.end(), 0)
    other = begin(tmp_path, port, "--new-address")
    facts("another address if that is asked for", (other.token != token, other.end()), (True, 0))
    facts("which then stays", (begin_and_end(tmp_path, port)), other.token)
    facts("a new record has one of its own", begin_and_end(tmp_path, port, "--forget") != other.token, True)


def begin_and_end(folder: Path, port: int, *more: str) -> Optional[str]:
    served = begin(folder, port, *more)
    return served.token if served.end() == 0 else None


def test_cut_off(facts: Facts, tmp_path: Path) -> None:
    """A program that is killed between what stands beside the record and the record: what was drawn for a window is there."""
    served = begin(tmp_path, 0)
    one = Window(served).look()
    one.wait_for(lambda states: states["hello"]["ready"])
    one.post("/draw", {"page": "1/2", "op": "line 0 0 3 0 a", "id": "w-1"})
    served.wait_for(lambda states: True, 0.1)
    served.kill()
    record = tmp_path / "a.record"
    digits = re.findall("(?m)^asked w-1 ([0-9a-f]+)$", (tmp_path / "a.record.page").read_text())[0]
    lines: List[str] = [line for line in record.read_text("latin-1").split("\n") if digits not in line and "draw %d 1/2" % one.me not in line]
    record.write_text("\n".join(lines), "latin-1")
    again = begin(tmp_path, served.port)
    try:
        again_look = Window(again).look()
        again_look.wait_for(lambda states: states["hello"]["ready"])
        again_look.post("/page", {"page": "1/2"})
        facts("it is there", again_look.wait_for(lambda states: states["board"]["rows"] == ["aaaa"], 20), True)
        facts("and in the record", digits in record.read_text("latin-1"), True)
    finally:
        facts("it ends with 0", again.end(), 0)
