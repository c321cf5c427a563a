"""What is kept, and what a broken disk or a wrong file does to it."""
from __future__ import annotations

import os
import random
import resource
import stat
import subprocess
import sys
import threading
import tracemalloc
from pathlib import Path
from typing import Any, Callable, Dict, List, Tuple

import pytest

from live.held import checked
from live.record import Record, RecordFault, read_played
from ..facts import Facts
from .attacks.test_hostile import Attacker
from .test_joins import holds, write_board
from .test_keeping import board_of
from .members import PATIENCE, Process, comes

FIRST_PORT = 26_400
PAGE = "1/1"

# bytes that a file may have, where the disk is full
FULL = 1_500


def status_of(words: List[str]) -> int:
    """The status of a start that is refused; -1 where it is not."""
    started = Process(words, web=False)
    try:
        return started.process.wait(PATIENCE) if "member" not in "".join(started.lines[1:2]) else -1
    finally:
        started.end()


def check_files(facts: Facts, folder: Path) -> None:
    """Files that do not begin as records stay as they are."""
    texts = {"one line": "shopping list", "two lines": "milk\nbread", "a script": "#!/bin/bash\necho hello", "a long one": "x" * 300_000}
    for name, text in texts.items():
        path = folder / "text"
        path.write_text(text)
        words = ["--ports", str(FIRST_PORT), "--no-terminal", "--record", str(path)]
        facts("a file that is no record: " + name, (status_of(words), path.read_text() == text), (1, True))
        facts("nor is it forgotten", (status_of([*words, "--forget"]), path.read_text() == text), (1, True))
        facts("nor shown: " + name, (status_of(["--replay", str(path), "--no-terminal"]), path.read_text() == text), (1, True))
    none = folder / "none"
    facts("a replay makes no file", (status_of(["--replay", str(none), "--no-terminal"]), none.exists()), (1, False))


def check_versions(facts: Facts, folder: Path) -> None:
    """A record says its version. One without is of an earlier wb, and goes on; one of a later wb stays as it is."""
    path = folder / "old.wb"
    old = '# started at 2025-01-01 10:00:00\nboard 7 100 1 42\ntick 5\nsay draw 7 1/1 1 1000 line 0 0 4 0 o\n'
    path.write_text(old)
    words = ["--ports", str(FIRST_PORT), "--record", str(path)]
    member = Process(words)
    facts("a record without a version goes on", member.wait_for(lambda states: states["board"]["rows"] == ["ooooo"]), True)
    member.end()
    facts("and keeps its lines", path.read_text().startswith(old), True)
    later = "# wb record 2\n" + old
    path.write_text(later)
    facts("a record of a later version is refused, and stays as it is", (status_of([*words, "--no-terminal"]), path.read_text() == later), (1, True))
    facts("nor shown", status_of(["--replay", str(path), "--no-terminal"]), 1)
    path.unlink()
    Process(words).end()
    facts("a new record begins with its version", path.read_text().split("\n")[0], "# wb record 1")
    path.unlink()


def refused(words: List[str], environment: Dict[str, str]) -> Tuple[int, str]:
    """The status of a start that is refused, and what it says."""
    started = Process([*words, "--no-terminal"], web=False, environment=environment)
    try:
        status = started.process.wait(PATIENCE)
        return status, started.process.stderr.read().strip() if started.process.stderr else ""
    except subprocess.TimeoutExpired:
        return -1, ""
    finally:
        started.end()


# lines that no record has, each with what the start says about it
WRONG = {
    "tick abc": "it is no moment of a board that goes on",
    "tick -1": "it is no moment of a board that goes on",
    "tick 1152921504606846976": "it is no moment of a board that goes on",
    "tick 281474976710655": "it is no moment of a board that goes on",
    "tick " + "9" * 5_000: "it is no moment of a board that goes on",
    "datagram zz": "it has no pairs of digits",
    "datagram 574": "it has no pairs of digits",
    "datagram ": "it has no pairs of digits",
    "arrive 57 42": "it has no pairs of digits",
    "say draw x": "it says no datagram (word 2: number)",
    "say draw 7 1/1 0 5 line 0 0 4 0 o": "it says no datagram",
    "say draw 7 4294967296/1 1 5 line 0 0 4 0 o": "it says no datagram",
}


def begun(path: Path) -> None:
    record = Record(str(path))
    try:
        board_of(record, [])
    finally:
        record.close()


def refusal_of(path: Path) -> List[str]:
    """What the start says about a record that is to be drawn on, and about one that is to be shown."""
    told: List[str] = []
    uses: List[Callable[[], Any]] = [lambda: begun(path), lambda: checked(os.environ["WB_PROGRAM"], read_played(str(path)))]
    for use in uses:
        try:
            use()
            told.append("")
        except RecordFault as fault:
            told.append(str(fault))
    return told


def check_malformed(facts: Facts, folder: Path) -> None:
    """For an invalid line the start gives the record's name, its number and its words; the record stays as it is, and is not shown either."""
    for number, (line, why) in enumerate(WRONG.items()):
        path = folder / ("wrong-%d.wb" % number)
        text = "board 7 100 1 42\n\n# a comment\n%s\ntick 5\n" % line
        path.write_text(text)
        told = "%s, line 4: %s" % (path, why)
        for said in refusal_of(path):
            facts("a record with %s is refused: %s" % (line[:40], said[-200:]), (said[:len(told)], "\n" in said, len(said) < 250), (told, False, True))
        facts("and stays as it is", path.read_text() == text, True)
    path = folder / "wrong-0.wb"
    for words in (["--ports", str(FIRST_PORT), "--record", str(path)], ["--replay", str(path)]):
        facts("a start ends with one line by %s" % words[-2], refused(words, {}), (1, "wb-live: %s, line 4: %s: 'tick abc'" % (path, WRONG["tick abc"])))
    for number, board in enumerate(("board 9999999999 100 1 42", "board 7 99999 1 42", "board 7 100 1 99999999999999999999")):
        path = folder / ("board-%d.wb" % number)
        path.write_text(board + "\ntick 5\n")
        facts("no host can have %s" % board, refusal_of(path)[0], "%s: no host can have its board: %s" % (path, board))


def check_refused(facts: Facts, folder: Path) -> None:
    """A record with a line that no host takes, as a drawing of ours from 2^31 on, is none to draw on: its number would be used twice."""
    path = folder / "refused.wb"
    drawn = "draw 7 1/1 2147483648 5 line 0 0 4 0 o"
    text = "board 7 100 1 42\nsay %s\n" % drawn
    path.write_text(text)
    told = "%s: no host takes a line of it (ours): say %s" % (path, drawn)
    facts("what a host refuses ends the start", refused(["--ports", str(FIRST_PORT), "--record", str(path)], {}), (1, "wb-live: " + told))
    facts("and the record stays as it is", path.read_text() == text, True)


HEAD = b"# wb record 1\nboard 7 100 1 42\n"
LINES = b"tick 5\nsay draw 7 1/1 1 1000 line 0 0 4 0 o\n"


def check_torn(facts: Facts, folder: Path) -> None:
    """What a crash leaves of a record is one: a part of its head, and zeros in the place of what was not written."""
    path = folder / "torn.wb"
    for size in range(len(HEAD)):
        for zeros in (0, 300_000):
            path.write_bytes(HEAD[:size] + bytes(zeros))
            begun(path)
            facts("a head of %d bytes and %d zeros is begun anew" % (size, zeros), path.read_bytes()[:20], HEAD[:20])
    for zeros in (1, 5_000, 300_000):
        for torn in (b"", b"say draw 7 1/1 2 20"):
            path.write_bytes(HEAD + LINES + torn + bytes(zeros))
            told = [str(act) for act in read_played(str(path))]
            facts("%d zeros behind a record are shown as nothing" % zeros, told, (HEAD + LINES).decode().split("\n")[1:4])
            record = Record(str(path))
            record.add("tick 6")
            record.close()
            facts("and written over", path.read_bytes(), HEAD + LINES + b"tick 6\n")
    path.write_bytes(HEAD + b"x" * 300_000)
    for _ in range(2):
        facts("what is no record is not locked by who refused it", refusal_of(path)[0], "%s is no record" % path)


def check_read(facts: Facts, folder: Path) -> None:
    """Of what is shown no line is read that is too long, and only a file is."""
    path = folder / "long.wb"
    path.write_bytes(HEAD + LINES + b"say draw 7 1/1 2 20 text 0 0 \"" + b"x" * 40_000_000 + b"\"\ntick 9\n")
    tracemalloc.start()
    facts("a line of 40 MB is refused", refusal_of(path)[1], "%s, line 5: it has over 131072 bytes" % path)
    facts("and was not read", tracemalloc.get_traced_memory()[1] < 4_000_000, True)
    tracemalloc.stop()
    pipe = folder / "pipe.wb"
    os.mkfifo(pipe)
    told: List[str] = []
    reader = threading.Thread(target=lambda: told.append(refusal_of(pipe)[1]), daemon=True)
    reader.start()
    reader.join(PATIENCE)
    facts("nobody waits at a pipe", told, ["%s is no file" % pipe])


def check_links(facts: Facts, folder: Path) -> None:
    """No link is followed to a record, and only a file is one; all other records of the folder are taken as before."""
    state = {"XDG_STATE_HOME": str(folder / "linked")}
    words = ["--ports", str(FIRST_PORT), "--speed", "10"]
    first = Process(words, environment=state)
    me, kept = first.me, folder / "linked" / "wb" / ("ports-%d" % FIRST_PORT)
    first.draw(PAGE, "line 0 0 4 0 a")
    first.end()
    (folder / "empty").touch()
    (kept / "1.wb").symlink_to(folder / "nowhere")
    (kept / "2.wb").symlink_to(folder / "empty")
    os.mkfifo(kept / "3.wb")
    (kept / "4.wb").mkdir()
    os.utime(folder / "empty", (2**33, 2**33))
    again = Process(words, environment=state)
    facts("beside links a start goes on", (again.me, again.rows(PAGE)), (me, ["aaaaa"]))
    other = Process(words, environment=state)
    facts("and the next is a new member", (other.me != me, other.rows(PAGE)[:1] in ([], ["aaaaa"])), (True, True))
    facts("they end with 0", [other.end(), again.end()], [0, 0])
    facts("nothing is written where a link leads", ((folder / "nowhere").exists(), (folder / "empty").stat().st_size), (False, 0))
    for name, wanted in (("2.wb", "can't be written: it is a link, and none is followed"), ("3.wb", "is no file"), ("4.wb", "can't be written: Is a directory")):
        facts("by its name %s is refused" % name, refused(["--record", str(kept / name), *words], state), (1, "wb-live: %s %s" % (kept / name, wanted)))


def check_wish(facts: Facts, folder: Path) -> None:
    """A wish for a new number is refused if its record has no place; what was drawn is there, and one draws on. Then it is granted."""
    state = folder / "moved"
    member = Process(["--ports", str(FIRST_PORT), "--speed", "10"], environment={"XDG_STATE_HOME": str(state)})
    try:
        member.draw(PAGE, "line 0 0 4 0 a")
        me = member.me
        state.rename(folder / "away")
        status, told = member.post("/number", {"new": True})
        facts("without a place there is no new number", (status, told.get("fault", "").startswith("no new number: its record can't be written")), (422, True))
        facts("the program goes on by the old one", member.draw(PAGE, "line 0 1 4 1 a")[1].get("source"), me)
        facts("and shows all", member.wait_for(lambda states: states["board"]["rows"] == ["aaaaa", "aaaaa"]), True)
        (folder / "away").rename(state)
        status, told = member.post("/number", {"new": True})
        facts("with a place there is one", (status, told.get("me", me) != me), (200, True))
        facts("by which one draws", member.draw(PAGE, "line 0 2 4 2 a")[1].get("source"), told.get("me"))
        facts("and the old record is no more", [path.name for path in state.rglob("*.wb")], ["%s.wb" % told.get("me")])
    finally:
        facts("who wished ends with 0", member.end(), 0)


def check_folders(facts: Facts, folder: Path) -> None:
    """The folders of records are their owner's alone, also if they stood open; a link to a folder is none."""
    top = folder / "open"
    kept = top / "wb" / ("ports-%d" % FIRST_PORT)
    kept.mkdir(parents=True)
    for each in (kept, top / "wb"):
        each.chmod(0o777)
    words, state = ["--ports", str(FIRST_PORT)], {"XDG_STATE_HOME": str(top)}
    facts("a start in folders that stood open ends with 0", Process(words, environment=state).end(), 0)
    facts("they are closed", [stat.S_IMODE(each.stat().st_mode) for each in (top / "wb", kept)], [0o700, 0o700])
    state = {"XDG_STATE_HOME": str(folder / "new")}
    facts("a first start ends with 0", Process(words, environment=state).end(), 0)
    facts("new ones are closed too", [stat.S_IMODE((folder / "new" / each).stat().st_mode) for each in ("wb", "wb/" + kept.name)], [0o700, 0o700])
    kept.rename(folder / "elsewhere")
    kept.symlink_to(folder / "elsewhere")
    status, said = refused(words, {"XDG_STATE_HOME": str(top)})
    facts("a folder that is a link", (status, said), (1, "wb-live: no record can be kept in %s (%s is a link, and none is followed): --record FILE names another place" % (kept, kept.name)))


# a host that takes its time for each datagram, at the start of a line of Python
SLOW = """#!%s
import subprocess, sys, time
if sys.argv[1] != "host":
    sys.exit(subprocess.call([%r, *sys.argv[1:]]))
host = subprocess.Popen([%r, *sys.argv[1:]], stdin=subprocess.PIPE)
for line in sys.stdin.buffer:
    time.sleep(%g if line.startswith(b"held ") else 0)
    host.stdin.write(line)
    host.stdin.flush()
host.stdin.close()
sys.exit(host.wait())
"""


def check_long(facts: Facts, folder: Path) -> None:
    """A start that takes long tells how far it is."""
    path, program, slow = folder / "long.wb", os.environ["WB_PROGRAM"], folder / "slow"
    write_board(path, 7, 2_000)
    words = ["--ports", str(FIRST_PORT), "--record", str(path)]
    slow.write_text(SLOW % (sys.executable, program, program, 0.002))
    slow.chmod(0o700)
    member = Process(words, environment={"WB_PROGRAM": str(slow)})
    facts("a record of 2,000 drawops is there", member.wait_for(lambda states: holds(states, 2_000)), True)
    error = member.process.stderr
    member.process.terminate()
    told = [line for line in (error.read() if error else "").split("\n") if "takes in what its record has" in line]
    member.process.wait(PATIENCE)
    member.close()
    facts("a start of 2 ms a drawop tells how far it is: %s" % told, bool(told) and all(line.endswith(" percent") for line in told), True)


def check_noise(facts: Facts, folder: Path) -> None:
    """Half a megabyte of noise, and many questions, leave nothing in the record."""
    path = folder / "noise.wb"
    member = Process(["--ports", str(FIRST_PORT), "--speed", "10", "--record", str(path)])
    try:
        member.draw(PAGE, "line 0 0 4 0 a")
        before = path.stat().st_size
        chance = random.Random(5)
        noise = [bytes(chance.randrange(256) for _ in range(1_000)) for _ in range(500)]
        facts("half a megabyte of noise comes in", Attacker(member.udp_port).reach(member, noise), True)
        facts("the record is as before", path.stat().st_size - before < 1_000, True)
    finally:
        facts("it ends with 0", member.end(), 0)


def check_full_disk(facts: Facts, folder: Path) -> None:
    """A record that can't grow: the member says so and draws nothing, and then there is room again."""
    path = folder / "full.wb"
    member = Process(["--ports", str(FIRST_PORT), "--speed", "10", "--record", str(path)],
                     limits=lambda: resource.setrlimit(resource.RLIMIT_FSIZE, (FULL, resource.RLIM_INFINITY)))
    try:
        drawn = 0
        while drawn < 100:
            status, answer = member.draw(PAGE, "line 0 0 4 0 a")
            if status != 200:
                break
            drawn += 1
        facts("a full disk refuses a drawing", (status, "no drawing" if drawn == 0 else "record" in answer["fault"]), (422, True))
        facts("it is told", member.wait_for(lambda states: any("record" in text for text in states["health"]["warnings"])), True)
        facts("no line is torn", path.read_bytes()[-1:], b"\n")
        resource.prlimit(member.process.pid, resource.RLIMIT_FSIZE, (resource.RLIM_INFINITY, resource.RLIM_INFINITY))
        facts("with room one draws on", comes(lambda: member.draw(PAGE, "line 0 1 4 1 b")[0] == 200), True)
        facts("by the next number", member.draw(PAGE, "line 0 2 4 2 b")[1].get("seq"), drawn + 2)
        facts("and is not warned any more", member.wait_for(lambda states: not any("record" in text for text in states["health"]["warnings"])), True)
    finally:
        facts("it ends with 0", member.end(), 0)


def check_state(facts: Facts, folder: Path) -> None:
    """Without --record a start goes on where the last one ended, and --forget begins anew."""
    environment: Dict[str, str] = {"XDG_STATE_HOME": str(folder / "state")}
    words = ["--ports", str(FIRST_PORT), "--speed", "10"]
    first = Process(words, environment=environment)
    first.draw(PAGE, "line 0 0 4 0 a")
    second = Process(words, environment=environment)
    facts("two at once have two numbers", first.me != second.me, True)
    facts.holds("numbers are at random, and not the ports'", min(first.me, second.me) > 32, min(first.me, second.me))
    me = first.me
    facts("both end with 0", [second.end(), first.end()], [0, 0])
    again = Process(words, environment=environment)
    facts("a start goes on", (again.me in (me, second.me), again.me), (True, again.me))
    other = Process(words, environment=environment)
    facts("so does the other", sorted([again.me, other.me]), sorted([me, second.me]))
    mine = again if again.me == me else other
    facts("with its board", mine.rows(PAGE)[:1], ["aaaaa"])
    facts("and its numbers", mine.draw(PAGE, "line 0 1 4 1 a")[1].get("seq"), 2)
    facts("they end with 0 again", [again.end(), other.end()], [0, 0])
    anew = Process([*words, "--forget"], environment=environment)
    facts("what is to be forgotten is", (anew.me in (me, second.me), anew.rows(PAGE)), (False, []))
    facts("it ends with 0", anew.end(), 0)
    facts("records are nobody else's to read", [path.stat().st_mode & 0o77 for path in (folder / "state").rglob("*.wb")], [0, 0])


PARTS = [check_files, check_versions, check_malformed, check_refused, check_torn, check_read, check_links, check_wish, check_folders, check_long, check_noise, check_full_disk, check_state]


@pytest.mark.parametrize("part", PARTS)
def test_record(facts: Facts, tmp_path: Path, part: Callable[[Facts, Path], None]) -> None:
    part(facts, tmp_path)
