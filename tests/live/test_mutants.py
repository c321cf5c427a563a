"""What is nearly right: datagrams to a live member, lines to a host, records, streams, words of the command line and requests, each with
bytes that are other ones. The seed is always the same; `--fresh` takes a new one and says it, and WB_SEED=N takes that of
a run that failed. Each part is bounded in count and time."""
from __future__ import annotations

import argparse
import contextlib
import io
import json
import os
import random
import socket
import struct
import tempfile
import threading
import time
from pathlib import Path
from typing import Any, Callable, Dict, Iterator, List, Optional, Tuple

import pytest

from wbhost import Block, Host, HostEnded

from live.board import Board
from live.film import Film, scenes_of
from live.held import checked
from live.invitation import InvitationFault, read_broker, read_invitation
from live.joining import Talk, datagrams_of
from live.options import read_options
from live.presence import Pointed, write
from live.record import NoRoom, Record, RecordFault, read_played
from live.views import Drawop
from live.words import Words
from ..facts import Facts
from .attacks.test_hostile import Attacker, asking, deleting, drawn, framed, session, state
from .members import PATIENCE, Process, comes, script_of

FIRST_PORT = 27_280
PAGE = "1/1"

# mutants of each kind, and seconds that they may take together
DATAGRAMS, LINES, RECORDS, STREAMS, WORDS, REQUESTS = 1_500, 8_000, 150, 400, 1_500, 400
SECONDS = 12.0

SEED = 7

# bytes that a member may come to have more, whatever comes in
MOST_GROWTH = 96 << 20

# numbers at the ends of their ranges, by four bytes
ENDS = [struct.pack(">I", number) for number in (0, 1, 2**16 - 1, 2**16, 2**31 - 1, 2**31, 2**32 - 1)]

# words of lines that are at an end of a range, or none
ODD = ["0", "1", "-1", "4095", "4096", "65535", "65536", "4294967295", "4294967296", "281474976710655", "281474976710656", "18446744073709551616", "9" * 400,
       "x", "1/1", "0/0", "4294967296/1", '"', '"\\', "\\", "ask-pages", "say", "keep", "board", "", "\t", "\x00", "\xff", "7=1", "7=0", "8@1+1"]


def seed_of() -> int:
    """The seed of this run."""
    if os.environ.get("WB_SEED"):
        return int(os.environ["WB_SEED"])
    return int(os.environ.get("WB_FRESH", SEED))


def bounded(count: int, found: Dict[str, int], name: str) -> Iterator[int]:
    """Counts up, until the count or the time is over, and notes how many there were."""
    end = time.monotonic() + SECONDS
    for number in range(count):
        if time.monotonic() > end:
            return
        found[name] = number + 1
        yield number


def mutant(chance: random.Random, good: List[bytes]) -> bytes:
    """One of these with one to three changes: a bit, a number, some bytes gone, doubled or added, or the end of another."""
    data = bytearray(chance.choice(good))
    for _ in range(chance.randrange(1, 4)):
        at = chance.randrange(len(data) + 1)
        kind = chance.randrange(7)
        if kind == 0 and at < len(data):
            data[at] ^= 1 << chance.randrange(8)
        elif kind == 1:
            data[at & ~3:(at & ~3) + 4] = chance.choice(ENDS)
        elif kind == 2:
            del data[at:]
        elif kind == 3:
            del data[at:at + chance.randrange(1, 9)]
        elif kind == 4:
            data[at:at] = data[at:at + chance.randrange(1, 40)]
        elif kind == 5:
            data[at:at] = bytes(chance.randrange(256) for _ in range(chance.randrange(1, 20)))
        else:
            other = chance.choice(good)
            data[at:] = other[chance.randrange(len(other) + 1):]
    return bytes(data)


def mutant_line(chance: random.Random, good: List[str]) -> str:
    """One of these with words that are other ones, gone, doubled or added; or with other bytes."""
    if chance.random() < 0.2:
        return mutant(chance, [line.encode("latin-1") for line in good]).replace(b"\n", b"").decode("latin-1")
    words = chance.choice(good).split(" ")
    for _ in range(chance.randrange(1, 3)):
        at = chance.randrange(len(words))
        words[at:at + chance.randrange(2)] = [chance.choice(ODD + words)] * chance.randrange(3) or [chance.choice(ODD)]
    return " ".join(words).replace("\n", "")


# ---- datagrams to a live member


def text(source: int, seq: int, moment: int, words: bytes) -> bytes:
    return framed(1, struct.pack(">IIIIQBHHB", source, 1, 1, seq, moment, 3, 2, 3, len(words)) + words)


def echoing(sender: int, me: int) -> bytes:
    """A session message that echoes a member."""
    return framed(2, struct.pack(">IQIIH", sender, 9, 1, 1, 1) + struct.pack(">II", me, 3) + struct.pack(">H", 1) + struct.pack(">IQQ", me, 1, 1))


def requesting(requester: int, source: int) -> bytes:
    return framed(3, struct.pack(">IIIII", requester, source, 1, 1, 1))


def memory_of(number: int) -> int:
    """The bytes that a process and its children have."""
    found = 0
    for folder in Path("/proc").glob("[0-9]*"):
        with contextlib.suppress(OSError, ValueError, IndexError):
            fields = (folder / "stat").read_text().rpartition(")")[2].split()
            if number in (int(folder.name), int(fields[1])):
                found += int((folder / "statm").read_text().split()[1]) * os.sysconf("SC_PAGE_SIZE")
    return found


def check_datagrams(facts: Facts, chance: random.Random, found: Dict[str, int]) -> None:
    """Whatever comes in, the member and its one host go on, agree, and one draws."""
    member = Process(["--ports", str(FIRST_PORT), "--speed", "10"])
    attacker = Attacker(member.udp_port)
    try:
        member.draw(PAGE, "frame 0 0 9 5 #")
        now, me = time.time_ns() // 1000, member.me
        good = [drawn(9, 1, now, 3, b"*"), deleting(9, 2, now, (me, 1)), text(9, 3, now, b"hello \"you\""), framed(1, struct.pack(">IIIIQBHHHHc", 9, 1, 1, 4, now, 2, 0, 0, 9, 9, b"+")),
                state(9, (1, 1), {9: 3, me: 1}), session(9, 5, (1, 1), {9: 3}), echoing(9, me), requesting(9, me), asking(9), drawn(me, 7, now, 2, b"!"),
                write(Pointed(9, (1, 1), (3, 4), ["line 0 0 1 1 *"])), b"WG\x01\x00" + b"127.0.0.1:1"]
        before = memory_of(member.process.pid)
        for _ in bounded(DATAGRAMS // 100, found, "hundred datagrams"):
            attacker.reach(member, [data for data in (mutant(chance, good) for _ in range(100)) if not data.startswith((b"WP", b"WG"))])
            attacker.send(*[mutant(chance, good[-2:]) for _ in range(5)])
        grown = memory_of(member.process.pid) - before
        facts.holds("after mutated datagrams a member has little more memory: %d kB" % (grown >> 10), grown < MOST_GROWTH, grown)
        status, told = member.draw(PAGE, "line 0 9 4 9 z")
        if status == 422 and "number" in told.get("fault", ""):  # one of them was a report of ours
            status = member.post("/number", {"new": True})[0] and member.draw(PAGE, "line 0 9 4 9 z")[0]
        facts("after mutated datagrams one draws: %s" % told.get("fault", ""), status, 200)
        facts("the host is the first, and agrees", (member.counts()["starts"], member.shows_all()), (1, True))
    finally:
        facts("after mutated datagrams a member ends with 0: %s" % member.last_words()[-300:], member.end(), 0)


# ---- lines to a host


LINES_OF_A_HOST = [
    "board 7 64 1 42", "tick 5", "tick 900000", "keep 4000 0", "add 7 50 1/1 line 0 0 4 0 *", 'add 8 60 1/1 text 1 2 "a b"', "add 9 60 1/1 delete 7 1", "say draw 7 1/1 1 10 line 0 0 4 0 *",
    "draw 8 1/1 1 20 frame 0 0 9 5 #", 'draw 9 1/1 3 20 text 3 2 "say \\"hi\\""', "page-state 9 1/1 7=4 8=2", "session-message 9 5 1/1 7=1 8@4+1", "request 9 7 1/1 2", "ask-pages 9",
    "arrive " + drawn(8, 1, 999, 2, b"o").hex(), "hear " + state(9, (1, 1), {8: 2}).hex(), "datagram " + session(9, 5).hex(), "came 10 " + drawn(9, 1, 999, 2, b"o").hex(),
    "judge 5 4000 0 1764000000000000 - -", "judge 900000 4000 1 1764000000000000 5 16", "wall 900000 1764000000000000", "gone 900000 777", "members", "list 5",
    "came 900000 777 " + drawn(9, 1, 999, 2, b"o").hex(), "came 900000 777@5 " + session(9, 5, (1, 1), {7: 3}).hex(), "add 900001 1/1 line 0 0 4 0 *",
    "held draw 8 1/1 1 20 frame 0 0 9 5 #", "held say draw 7 1/1 1 10 line 0 0 4 0 *", "held datagram " + drawn(8, 1, 999, 2, b"o").hex(), "held page-state 9 1/1 7=4", "held tick 5",
    "view 1 1", "show 1 1 20 5", "gaps 1 1", "next 1 1", "pages", "known", "report 1 1", "look 1 1", "distance 8 20000", "tuning 2,4,1,8", "random 7", "due", "# a comment", "",
]


def block_of(host: Host, line: str) -> Optional[Block]:
    """The block of a line; None if the host ended."""
    try:
        return host.ask(line)
    except HostEnded:
        return None


# questions for a canvas in other writings, and how many lines each prints
SHOWS = {
    "show 1 1 20 2": 3, " show  1 1 20 2 ": 3, "show 1 1 020 2\r": 3, "show 1 1 20 " + 5_000 * "0" + "2": 3, "show 1 1 20 2\r\r": 1, "show 1 1 20 \t 2": 1,
    "show 1 1\x0b20 2": 1, "show 1 1 +20 2": 1, "show 1 1 20 2 3": 1, "show 4294967296 1 20 2": 1, "show 1 1 201 2": 1, "show 1 1 20 0": 1, "show 1 1 20 " + 5_000 * "9": 1,
}


def check_shows(facts: Facts, *_: Any) -> None:
    """A driver knows how many rows a canvas has, however the question is written."""
    host = Host(os.environ["WB_PROGRAM"], patience=PATIENCE)
    host.ask("board 7 64 1 42")
    for line, wanted in SHOWS.items():
        block = block_of(host, line)
        facts("the lines of %r" % line[:30], block and len(block.lines) + 1, wanted)
    facts("and the next line has its own", host.ask("next 1 1").lines, ["next 1"])
    host.end()


def check_lines(facts: Facts, chance: random.Random, found: Dict[str, int]) -> None:
    """Each line has its block, and a host that is given the accepted ones alone answers them the same."""
    program, wrong, ended = os.environ["WB_PROGRAM"], [], []  # type: str, List[Tuple[str, Any, Any]], List[str]
    kept: List[Tuple[str, Block]] = []
    host = Host(program)
    for number in bounded(LINES, found, "lines"):
        if number % 200 == 0:
            wrong += compared(program, kept)
            kept = []
            host.end()
            host = Host(program)
        line = "board 7 64 1 42" if number % 200 == 0 else mutant_line(chance, LINES_OF_A_HOST) if chance.random() < 0.8 else chance.choice(LINES_OF_A_HOST)
        block = block_of(host, line)
        if block is None:
            ended.append(line)
            host.end()
            host, kept = Host(program), []
        elif block.fault is None:
            kept.append((line, block))
    wrong += compared(program, kept)
    host.end()
    facts("no mutated line ends a host", ended[:3], [])
    facts("what is refused changes nothing", wrong[:1], [])


def compared(program: str, kept: List[Tuple[str, Block]]) -> List[Tuple[str, Any, Any]]:
    """The accepted lines that a new host answers otherwise."""
    host = Host(program)
    told = [(line, block_of(host, line), block) for line, block in kept]
    host.end()
    return [each for each in told if each[1] != each[2]]


# ---- records


RECORD = [
    "# wb record 1", "board 7 100 1 42", "# started at 2026-01-01 10:00:00", "tick 5", "say draw 7 1/1 1 1000 line 0 0 4 0 o", "datagram " + drawn(8, 1, 999, 2, b"o").hex(),
    "arrive " + drawn(8, 3, 999, 3, b"o").hex(), "tick 900", "page-state 9 1/1 7=5", 'say draw 7 1/1 6 1001 text 0 1 "a \\"b\\""', "look 1 1", "distance 8 20000", "view 1 1",
    "say draw 7 1/1 7 1002 delete 8 1", "session-message 9 5 1/1 8=3", "say ask-pages 7", "# ended at 2026-01-01 10:00:09",
]


def mutant_record(chance: random.Random) -> bytes:
    """The record with lines that are other ones, gone, doubled, or elsewhere; or with other bytes."""
    lines = list(RECORD)
    for _ in range(chance.randrange(1, 4)):
        at = chance.randrange(len(lines))
        kind = chance.randrange(5)
        if kind < 2:
            lines[at] = mutant_line(chance, [lines[at]])
        elif kind == 2:
            del lines[at]
        elif kind == 3:
            lines.insert(chance.randrange(len(lines)), lines[at])
        else:
            lines[at] = mutant(chance, [lines[at].encode("latin-1") or b"#"]).decode("latin-1")
    data = "".join(line + "\n" for line in lines).encode("latin-1")
    return mutant(chance, [data]) if chance.random() < 0.2 else data


def started(path: Path) -> str:
    """How a start with a record goes: it is refused, or draws. Whether it draws what the record lacks, and no number twice, too."""
    held: List[Drawop] = []
    program = os.environ["WB_PROGRAM"]
    with contextlib.ExitStack() as open_ones:
        words = Words(program)
        open_ones.callback(words.end)
        try:
            record = Record(str(path))
            open_ones.callback(record.close)
            board = Board(program, read_options([]), record, words, held.append)
            board.open(1)
        except (RecordFault, NoRoom) as fault:
            return "refused" if "\n" not in str(fault) and len(str(fault)) < 400 else "refused by %r" % fault
        open_ones.callback(board.close)
        board.moment = max(board.moment, board.ready_at)
        block, drawop = board.draw((1, 1), 5_000, "line 0 0 4 0 +")
    numbers = [each.name[2] for each in held if each.name[:2] == (board.me, (1, 1))]
    if drawop is None:
        return "draws" if block.lines[-1:] == ["batch 0 0 0 1"] or block.fault in ("full", "many") else "does not draw: %s %s" % (block.fault, block.lines)
    return "draws" if len(numbers) == len(set(numbers)) else "draws a number twice"


def played(path: Path) -> str:
    """How a record is shown: it is refused, or its scenes are there."""
    words = Words(os.environ["WB_PROGRAM"])
    try:
        scenes_of(Film(checked(words.command[0], read_played(str(path))), lambda: 0), words)
    except RecordFault:
        return "refused"
    finally:
        words.end()
    return "shown"


def check_records(facts: Facts, chance: random.Random, found: Dict[str, int]) -> None:
    """A record is refused by one line, or its board is drawn on and shown: none ends a start by a fault of ours."""
    outcomes: Dict[str, int] = {}
    with tempfile.TemporaryDirectory() as folder:
        path = Path(folder) / "a.wb"
        for _ in bounded(RECORDS, found, "records"):
            data = mutant_record(chance)
            for how in (played, started):
                path.write_bytes(data)
                try:
                    outcome = how(path)
                except Exception as fault:  # of any kind: that is what is looked for
                    outcome = "%s: %r" % (how.__name__, fault)
                outcomes[outcome] = outcomes.get(outcome, 0) + 1
                if outcome not in ("refused", "draws", "shown"):
                    print("record of this outcome: %r: %r" % (outcome, data))
    facts("how mutated records go: %s" % outcomes, sorted(outcomes), ["draws", "refused", "shown"])


# ---- streams, and words


def check_streams(facts: Facts, chance: random.Random, found: Dict[str, int]) -> None:
    """A stream gives datagrams that tell their length, and then ends."""
    wrong: List[str] = []
    good = [b"".join(drawn(8, seq, 999, 2, b"o") for seq in range(1, 30))]
    for _ in bounded(STREAMS, found, "streams"):
        giver, asker = socket.socketpair()
        data = mutant(chance, good)
        threading.Thread(target=lambda giver=giver, data=data: (giver.sendall(data), giver.close()), daemon=True).start()
        try:
            for datagram in datagrams_of(Talk(asker, None), time.monotonic() + 5):
                if datagram[:2] != b"WB" or len(datagram) != 8 + int.from_bytes(datagram[4:8], "big"):
                    wrong.append(repr(datagram))
        except OSError:
            pass
        asker.close()
    facts("what a mutated stream gives", wrong[:1], [])


GOOD_WORDS = [
    "--lan 239.1.2.3:5000 --interface 127.0.0.1", "--listen 127.0.0.1:1 --peer 127.0.0.1:2", "--ports 25000 --me 7", "--broker mqtts://anna:x@h:8883/s", "--broker wss://h/mqtt --session s",
    "wb:#session=board&ports=25000", "wb:#session=b&broker=mqtts%3A%2F%2Fh%3A8884&key=" + "A" * 43, "https://page.example/#session=x&broker=wss%3A%2F%2Fh%2Fmqtt", "wb:#lan=239.1.2.3%3A5000",
    "--web 0.0.0.0:8050 --guests 5 --origin https://a.example:443", "--cells 10 --rate 400 --lose 0.5 --delay 5 --twice 0.1 --speed 10",
]


def check_words(facts: Facts, chance: random.Random, found: Dict[str, int]) -> None:
    """Words are right, or end the start with 2; no invitation and no address of a broker is anything else than one or none."""
    wrong: List[str] = []
    calls: List[Tuple[Callable[[str], Any], Tuple[Any, ...]]] = [
        (lambda words: read_options(words.split(" ")), (SystemExit,)), (read_invitation, (InvitationFault, argparse.ArgumentTypeError)), (read_broker, (InvitationFault,)),
    ]
    for _ in bounded(WORDS, found, "words"):
        words = mutant(chance, [each.encode() for each in GOOD_WORDS]).decode("latin-1")
        for call, faults in calls:
            try:
                with contextlib.redirect_stderr(io.StringIO()), contextlib.redirect_stdout(io.StringIO()):
                    call(words)
            except faults:
                pass
            except Exception as fault:  # of any kind: that is what is looked for
                wrong.append("%r: %r" % (words, fault))
    facts("words that are none end by a fault of their own", wrong[:3], [])


# ---- requests


def requests_to(member: Process) -> List[bytes]:
    host, key, cookie = b"127.0.0.1:%d" % member.port, member.token.encode(), b"wb=" + b"0" * 32
    body = json.dumps({"page": PAGE, "op": "line 0 0 4 0 *"}).encode()
    head = b"Host: %s\r\nX-Wb-Token: %s\r\nCookie: %s\r\nOrigin: http://%s\r\n" % (host, key, cookie, host)
    posts = [(b"/draw", body), (b"/page", b'{"page": "1/1"}'), (b"/page", b'{"new": true}'), (b"/point", b'{"page": "1/1", "x": 3, "y": 4, "begun": []}')]
    return [
        b"GET /%s/ HTTP/1.1\r\n%s\r\n" % (key, head), b"GET /%s/%s HTTP/1.0\r\n%s\r\n" % (key, script_of(member.get_page()[1]).encode(), head), b"GET /%s/board?page=1/1 HTTP/1.1\r\n%s\r\n" % (key, head),
        b"GET /%s/record HTTP/1.1\r\n%s\r\n" % (key, head),
        b"GET /%s/events?token=%s HTTP/1.1\r\n%sUpgrade: websocket\r\nConnection: Upgrade\r\nSec-WebSocket-Version: 13\r\nSec-WebSocket-Key: AAAAAAAAAAAAAAAAAAAAAA==\r\n\r\n\x81\x00\x88\x80abcd" % (key, key, head),
        *[b"POST /%s%s HTTP/1.1\r\n%sContent-Type: application/json\r\nContent-Length: %d\r\n\r\n%s" % (key, path, head, len(told), told) for path, told in posts],
    ]


def answered(member: Process, request: bytes) -> Optional[bytes]:
    """What begins an answer; nothing if the connection ends without one, None if it does not end in time."""
    with contextlib.suppress(ConnectionError), socket.create_connection(("127.0.0.1", member.port), timeout=8) as connection:
        connection.sendall(request)
        with contextlib.suppress(OSError):
            connection.shutdown(socket.SHUT_WR)
        try:
            return connection.recv(16)
        except socket.timeout:
            return None
    return b""


def check_requests(facts: Facts, chance: random.Random, found: Dict[str, int]) -> None:
    """Each request is answered or its connection ends; the page is served and drawn on, and no thread stays."""
    member = Process(["--ports", str(FIRST_PORT + 40), "--speed", "10"])
    try:
        good, odd = requests_to(member), []  # type: List[bytes], List[Tuple[bytes, Optional[bytes]]]
        before = len(os.listdir("/proc/%d/task" % member.process.pid))
        for _ in bounded(REQUESTS, found, "requests"):
            request = mutant(chance, good)
            answer = answered(member, request)
            if answer is None or not (answer == b"" or answer.startswith((b"HTTP/1.", b"<!DOCTYPE", b'{"ok": false'))):
                odd.append((request, answer))
        facts("a mutated request is answered, or its connection ends", odd[:1], [])
        facts("after mutated requests the page is served", member.get_page()[0], 200)
        facts("and drawn on", member.draw(PAGE, "line 0 9 4 9 z")[0], 200)
        facts("and no thread stays", comes(lambda: len(os.listdir("/proc/%d/task" % member.process.pid)) <= before + 2), True)
    finally:
        facts("after mutated requests a member ends with 0", member.end(), 0)


Part = Callable[[Facts, random.Random, Dict[str, int]], None]
PARTS: List[Part] = [check_shows, check_datagrams, check_lines, check_records, check_streams, check_words, check_requests]


@pytest.mark.parametrize("part", PARTS)
def test_mutants(facts: Facts, part: Part) -> None:
    seed, found, began = seed_of(), {}, time.monotonic()  # type: int, Dict[str, int], float
    part(facts, random.Random("%d %s" % (seed, part.__name__)), found)
    print("mutants of seed %d in %.0f s: %s" % (seed, time.monotonic() - began, ", ".join("%d %s" % (count, name) for name, count in found.items())))
