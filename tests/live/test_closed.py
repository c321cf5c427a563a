"""A board is closed unless it is opened: who finds it without a word, and that nobody else changes anything at it."""
from __future__ import annotations

import os
import random
import stat
import subprocess
import sys
import tempfile
import time
from concurrent.futures import ThreadPoolExecutor
from pathlib import Path
from types import SimpleNamespace
from typing import Any, Dict, Iterator, List, Tuple

import pytest

from live.keys import key_for, new_key, own_key
from live.options import read_options
from live.presence import Pointed, write
from live.state import lock
from ..facts import Facts
from .members import TOP, Process, comes
from .test_carriers import HAS_SEALS, HOME, Kept, Wire, fault_of
from .attacks.test_forgeries import now
from .attacks.test_hostile import Attacker, asking, deleting, drawn, framed, session, state
from .test_strangers import Ear, is_twin

FIRST_PORT = 27_600
WORDS = ["--ports", str(FIRST_PORT), "--speed", "10"]

# another user of a machine, as each has one
NOBODY = 65_534

# seconds for which it is watched that nothing happens, and in which a drawing comes
WHILE, SOON = 3, 20


@pytest.fixture
def home() -> Iterator[Dict[str, str]]:
    """The state folder of one user."""
    with tempfile.TemporaryDirectory(prefix="wb-state-") as folder:
        yield {"XDG_STATE_HOME": folder}


def started(home: Dict[str, str], *words: str, **more: Any) -> Process:
    return Process([*WORDS, *words], environment=home, closed=True, **more)


def heard(member: Process) -> List[int]:
    return [it["member"] for it in member.states["members"]["members"]]


def meet(members: List[Process]) -> bool:
    return all(each.wait_for(lambda _: len(heard(each)) == len(members) - 1) for each in members)


def foreign(member: Process, count: int) -> bool:
    return member.wait_for(lambda states: states["health"]["counts"]["foreign"] >= count)


# ---- the key of a user


def test_key(facts: Facts, home: Dict[str, str], monkeypatch: pytest.MonkeyPatch) -> None:
    """Of many first starts at a time one makes the key, which its user alone can read, and nothing else is left there."""
    monkeypatch.setenv("XDG_STATE_HOME", home["XDG_STATE_HOME"])
    folder = Path(home["XDG_STATE_HOME"]) / "wb"
    folder.mkdir(mode=0o755)
    with ThreadPoolExecutor(16) as pool:
        made = list(pool.map(lambda _: own_key(str(folder / "key")), range(64)))
    facts("all have one key", len(set(made)), 1)
    facts("which its user alone can read, and nothing is beside it", (stat.S_IMODE((folder / "key").stat().st_mode), os.listdir(folder)), (0o600, ["key"]))
    options = [read_options(words.split()) for words in ("", "--ports 25000", "--session b")]
    for each in options:
        lock(each)
    facts("other ports have other keys of it", [each.lock == key_for(made[0], name) for each, name in zip(options, ("ports-24200", "ports-25000", "ports-24200"))], [True] * 3)
    facts("and the folder is its user's alone", stat.S_IMODE(folder.stat().st_mode), 0o700)
    (folder / "key").chmod(0o640)
    facts("a key that others can read is refused", fault_of(lambda: lock(read_options([]))).endswith("chmod 600 %s" % (folder / "key")), True)


def test_words(facts: Facts, home: Dict[str, str]) -> None:
    """On a network a start says who may draw, or ends with one line that tells how to."""
    for words in (["--lan"], ["--listen", "127.0.0.1:1", "--peer", "127.0.0.1:2"], ["--broker", "mqtts://h/s"], ["wb:#session=a&lan=239.1.2.3:5000"]):
        ran = subprocess.run([sys.executable, str(TOP / "wb-live"), *words], env={**os.environ, **home}, stdin=subprocess.DEVNULL, capture_output=True, text=True, timeout=60, check=False)
        lines = ran.stderr.splitlines()
        facts("%s alone" % words[0], (ran.returncode, len(lines), all(word in ran.stderr for word in ("--key", "invitation", "--open"))), (1, 1, True))
        options = read_options([*words, "--open"])
        lock(options)
        facts("%s is open" % words[0], options.lock, None)
    facts("nothing of it is kept", os.listdir(home["XDG_STATE_HOME"]), [])


# ---- who finds it, and who does not


def test_found(facts: Facts, home: Dict[str, str]) -> None:
    """Two programs of one user find one another without a word, and a third with another key is not heard, nor an open one."""
    two = [started(home), started(home)]
    other, opened = Process(WORDS, closed=True), Process(WORDS)
    try:
        facts("two programs of one user find one another", meet(two), True)
        facts("one draws", two[0].draw("1/1", "line 0 0 3 0 a")[0], 200)
        facts("and the other shows it", two[1].wait_for(lambda states: states["board"]["rows"] == ["aaaa"]), True)
        for name, each, glyph in (("another key", other, "b"), ("an open board", opened, "c")):
            facts("%s: it draws" % name, each.draw("1/1", "line 0 1 3 1 %s" % glyph)[0], 200)
            facts("%s: and hears what it can't read" % name, each is opened or foreign(each, 1), True)
        time.sleep(WHILE)
        facts("nobody else is heard", [heard(each) for each in two], [[two[1].me], [two[0].me]])
        facts("and the page is ours", [each.rows("1/1") for each in two], [["aaaa"]] * 2)
        facts("nor do the others show it", [other.rows("1/1"), opened.rows("1/1")], [["", "bbbb"], ["", "cccc"]])
    finally:
        facts("they end with 0", [each.end() for each in (*two, other, opened)], [0] * 4)


def become_nobody() -> None:
    os.setgroups([])
    os.setgid(NOBODY)
    os.setuid(NOBODY)


def test_another_user(facts: Facts, home: Dict[str, str]) -> None:
    """Another user of the machine, under a second number of the system, is not heard, and can't read the key."""
    if os.geteuid():
        pytest.skip("a second user takes root")
    with tempfile.TemporaryDirectory(prefix="wb-nobody-") as folder:
        os.chown(folder, NOBODY, NOBODY)
        reads = subprocess.run([sys.executable, "-c", "open(%r)" % str(TOP / "wb-live")], preexec_fn=become_nobody, capture_output=True, check=False)
        if reads.returncode:
            pytest.skip("another user can't read this checkout")
        ours, theirs = started(home), started({"XDG_STATE_HOME": folder}, limits=become_nobody)
        try:
            facts("the other user's key is his own", (Path(folder) / "wb/key").stat().st_uid, NOBODY)
            facts("both draw", [each.draw("1/1", "line 0 0 3 0 %s" % glyph)[0] for each, glyph in ((ours, "a"), (theirs, "b"))], [200, 200])
            facts("and hear what they can't read", [foreign(each, 2) for each in (ours, theirs)], [True, True])
            shown = [ours.wait_for(lambda states: states["board"]["rows"] == ["aaaa"]), theirs.wait_for(lambda states: states["board"]["rows"] == ["bbbb"])]
            time.sleep(1)
            facts("nobody is heard, and each page is its own", ([heard(each) for each in (ours, theirs)], shown, ours.rows("1/1"), theirs.rows("1/1")), ([[], []], [True, True], ["aaaa"], ["bbbb"]))
            read = subprocess.run([sys.executable, "-c", "open(%r)" % (home["XDG_STATE_HOME"] + "/wb/key")], preexec_fn=become_nobody, capture_output=True, text=True, check=False)
            facts("nor is our key read", "PermissionError" in read.stderr, True)
        finally:
            facts("both end with 0", [ours.end(), theirs.end()], [0, 0])


# ---- strangers


def test_read(facts: Facts, home: Dict[str, str], tmp_path: Path) -> None:
    """Whoever hears an open board reads it, and one whose key tags; under a key that seals nobody does."""
    (tmp_path / "key").touch(0o600)
    (tmp_path / "key").write_text(new_key() + "\n")
    ways: List[Tuple[str, List[str], bool]] = [("an open board", ["--open"], True), ("a key that tags", [], True), ("a key that seals", ["--key", str(tmp_path / "key")], False)]
    for name, words, is_read in ways if HAS_SEALS else ways[:2]:
        ear = Ear(0, FIRST_PORT)
        member = started(home, *words)
        try:
            facts("%s: one draws" % name, member.draw("1/1", 'text 0 0 "what is drawn"')[0], 200)
            reads = comes(lambda: any(b"what is drawn" in data for data, _ in ear.heard), SOON if is_read else WHILE)
            facts("%s: it is read" % name, (reads, len(ear.heard) > 0), (is_read, True))
        finally:
            ear.end()
            facts("%s: it ends with 0" % name, member.end(), 0)


def noise(victims: List[int], chance: random.Random) -> List[bytes]:
    """What a stranger sends who knows all but the key."""
    made: List[bytes] = []
    for number in range(1, 41):
        source = chance.choice([*victims, 900 + number])
        made += [drawn(source, number, now(), 9, b"x"), drawn(source, number, now(), 9, b"x", (9, number)), deleting(900, number, now(), (victims[0], 1)),
                 session(source, 5, (9, 9), {victims[0]: 4_000_000_000}), state(source, (9, 9), {900: 4_000}), asking(900 + number),
                 framed(3, b"".join(each.to_bytes(4, "big") for each in (900, victims[0], 1, 1, 1))), write(Pointed(900, (1, 1), (3, 4), [])), os.urandom(8),
                 b"WG\x01\x00127.0.0.1:%d" % FIRST_PORT]
    return made


def closed_by_another(many: List[bytes]) -> List[bytes]:
    """The same under a key of the stranger's own, tagged and sealed."""
    from live.carriers.sealed import Seal

    seals = [Seal(new_key(tags), "board") for tags in (True, *([False] if HAS_SEALS else []))]
    return [seal.send(data) for seal in seals for data in many]


def test_stranger(facts: Facts, home: Dict[str, str]) -> None:
    """A stranger without the key: nothing of it is held or shown, nobody takes another number for it, and no drawing is later."""
    two = [started(home), started(home)]
    numbers, chance = [each.me for each in two], random.Random(1)
    try:
        facts("two find one another", meet(two), True)
        attackers = [Attacker(each.udp_port) for each in two]
        late: List[float] = []
        for row in range(20):
            some = noise(numbers, chance)
            for attacker in attackers:
                attacker.send(*some[:100], *closed_by_another(some[:20]))
            began = time.monotonic()
            facts("row %d is drawn" % row, two[row % 2].draw("1/1", "line 0 %d 4 %d d" % (row, row))[0], 200)
            facts("row %d comes" % row, two[1 - row % 2].wait_for(lambda states: len(states["board"]["rows"]) == row + 1, SOON), True)
            late.append(time.monotonic() - began)
        print("beside the noise of a stranger 20 drawings came after %.3f s at most" % max(late))
        facts("it is counted", [foreign(each, 2_000) for each in two], [True, True])
        facts("no page of it is held", [[it["page"] for it in each.states["pages"]["pages"] if it["drawn"]] for each in two], [["1/1"]] * 2)
        facts("nothing of it is shown", [each.rows("1/1") for each in two], [["ddddd"] * 20] * 2)
        facts("nobody of it is there, or points", [(heard(each), each.states.get("presence", {}).get("others", [])) for each in two], [([numbers[1]], []), ([numbers[0]], [])])
        facts("nothing is waited for", [each.states["health"]["phrase"] == "whole" or each.states["health"]["missing"] == 0 for each in two], [True, True])
        facts("nobody takes another number", [(each.states["hello"]["me"], is_twin(each, 0.1)) for each in two], [(number, False) for number in numbers])
    finally:
        facts("they end with 0", [each.end() for each in two], [0, 0])


@pytest.mark.parametrize("tags", [True, pytest.param(False, marks=pytest.mark.skipif(not HAS_SEALS, reason="apt-get install python3-cryptography"))])
def test_late_recording(facts: Facts, tmp_path: Path, tags: bool) -> None:
    """What two members sent before they ended is sent to one that starts later: it shows nobody, and nothing that they point at."""
    key = tmp_path / "a.key"
    key.touch(0o600)
    key.write_text(new_key(tags) + "\n")
    ear = Ear(0, FIRST_PORT)
    try:
        two = [started({}, "--key", str(key)) for _ in range(2)]
        facts("two find one another", meet(two), True)
        facts("one points", two[0].post("/point", {"page": "1/1", "cell": [3, 4], "begun": []})[0], 200)
        time.sleep(1)
        facts("both end with 0", [each.end() for each in two], [0, 0])
        recording = [data for data, _ in ear.heard]
        later = started({}, "--key", str(key))
        ear.target = ("127.0.0.1", later.udp_port)
        ear.send(*recording)
        entered = later.wait_for(lambda _: any(it["way"] == "in" for it in later.entries), WHILE)
        facts("the recording opens", (len(recording) > 5, entered), (True, True))
        time.sleep(1)
        facts("nobody is shown, and nothing that they pointed at", (heard(later), later.states.get("presence", {}).get("others", [])), ([], []))
        facts("and it ends with 0", later.end(), 0)
    finally:
        ear.end()


# ---- tags


def test_tries(facts: Facts) -> None:
    """On what begins as a datagram does that no key closed, nothing is tried: it would cost the time of a processor."""
    from live.carriers.sealed import Seal, Sealed

    key, wire, inbox, tried = new_key(tags=True), Wire(), Kept(), []  # type: str, Wire, Kept, List[bytes]
    ours, other = Seal(key, "board"), Seal(key, "board")
    ours.read = lambda data: tried.append(data)  # type: ignore[assignment]
    Sealed(wire, ours).begin(inbox)
    plain = [each + bytes(40) for each in (drawn(7, 1, 2, 3, b"x"), session(7, 5), asking(7), b"WB\2\1", write(Pointed(7, (1, 1), (3, 4), [])), b"WG\1\0")]
    closed = [bytes(40), b"WB\3\1" + bytes(40), b"WB" + bytes(40), b"\3" + bytes(32)]
    for data in [*plain, *closed, bytes(32), b""]:
        wire.inbox.arrive(data, HOME)
    facts("what may be closed is tried, and all is counted", (tried, inbox.missed), (closed, len(plain) + len(closed) + 2))
    del ours.read
    sent, read = other.send(b"WB"), ours.read
    ours.read = lambda data: tried.append(data) or read(data)  # type: ignore[assignment, func-returns-value]
    for data in (sent, sent, sent[:-1] + bytes([sent[-1] ^ 1])):
        wire.inbox.arrive(data, HOME)
    facts("nor on what came, which its envelope tells in the open", (tried[len(closed):], len(inbox.came)), ([sent], 1))


def test_costs(facts: Facts) -> None:
    """A tag that is wrong is not tried as a seal too, which costs many times as much; and no nonce begins as what is tagged does."""
    from live.carriers.sealed import Seal, new_nonce

    ours, tried = Seal(new_key(tags=True), "board"), []  # type: Seal, List[bytes]
    ours.cipher = SimpleNamespace(decrypt=lambda nonce, *_: tried.append(nonce))
    wrong = Seal(new_key(tags=True), "board").send(b"WB")
    facts("what begins as a tagged one is looked at as such alone", (ours.read(wrong), tried), (None, []))
    facts("what does not is tried", (ours.read(b"\2" + wrong[1:]), len(tried)), (None, 1))
    facts("no nonce begins so", 3 in {new_nonce()[0] for _ in range(10_000)}, False)


def test_tags(facts: Facts) -> None:
    """A key closes by a tag or by a seal, and opens both; nothing of one opens as something else."""
    from live.carriers.sealed import Letter, Seal, Sealed

    text = new_key(tags=True)
    ours, other = Seal(text, "class-7"), Seal(text, "class-7")
    sent = [other.send(b"WB%d" % number) for number in range(3)]
    facts("a tag takes 33 bytes", (len(sent[0]) - 3, sent[0][:1], sent[0][17:-16]), (33, b"\x03", b"WB0"))
    facts("it tells the sender and a counter", [ours.read(each) for each in sent], [Letter(other.sender, n + 1, b"WB%d" % n) for n in range(3)])
    wrong = [sent[0][:n] for n in (0, 15, 16, 32, len(sent[0]) - 1)] + [sent[0] + b"x"] + [sent[0][:at] + bytes([sent[0][at] ^ 1]) + sent[0][at + 1:] for at in range(len(sent[0]))]
    facts("and no byte of it can be another", {ours.read(each) for each in wrong}, {None})
    facts("nor the session, nor the key", [Seal(text, "class-8").read(sent[0]), Seal(new_key(tags=True), "class-7").read(sent[0])], [None, None])
    facts("nor is it a piece of a stream, or one of a stream it", [ours.open(sent[0], bytes(16)), ours.read(ours.close(sent[0][:-16], bytes(16)))], [None, None])
    facts("a piece of a stream opens with what goes with it", [ours.open(ours.close(b"ab", b"F" * 16), more) for more in (b"F" * 16, b"F" * 15, b"")], [b"ab", None, None])
    wire, inbox = Wire(), Kept()
    Sealed(wire, ours).begin(inbox)
    for each in (sent[0], sent[0], sent[2], b"WB", b"\x03", b""):
        wire.inbox.arrive(each, HOME)
    facts("each comes once", ([data for data, _ in inbox.came], inbox.missed), ([b"WB0", b"WB2"], 3))
    if not HAS_SEALS:
        return
    sealing = Seal(text[len("tag."):], "class-7")
    facts("who has the key takes both", (sealing.read(sent[0]), ours.read(sealing.send(b"WBs"))), (Letter(other.sender, 1, b"WB0"), Letter(sealing.sender, 1, b"WBs")))
    facts("a seal of the kind of tags is none", ours.read(sealing.close(b"\x03" + sent[0][1:-16])), None)
    facts("nor a tag of the kind of seals", ours.read(ours.close(b"\x02" + sent[0][1:-16])), None)
