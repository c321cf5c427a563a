"""Many clients and slow ones, names of a proxy, twins, and a clock that is late."""
from __future__ import annotations

import socket
import tempfile
import time
from pathlib import Path
from typing import List, Union

from ..facts import Facts
from .members import PATIENCE, Process
from .test_requests import status_of

FIRST_PORT = 26_480
PAGE = "1/1"

# what makes the time of day of a process 23 hours late
LATE = "import time\nright = time.time_ns\ntime.time_ns = lambda: right() - 82_800_000_000_000\n"


def test_slow(facts: Facts) -> None:
    """More connections than there is room for, each with a byte in a while."""
    member = Process(["--ports", str(FIRST_PORT), "--speed", "10"])
    slow: List[socket.socket] = []
    try:
        for _ in range(540):
            slow.append(socket.create_connection(("127.0.0.1", member.port), timeout=PATIENCE))
        for _ in range(7):
            for each in slow:
                try:
                    each.sendall(b"G")
                except OSError:
                    pass
            time.sleep(1)
        try:
            status: Union[int, str] = member.get_page()[0]
        except OSError as fault:
            status = repr(fault)
        facts("beside 540 slow connections the page is served", status, 200)
        end = time.monotonic() + PATIENCE
        facts("a request that takes over 20 s is ended", sum(is_ended(each, end) for each in slow), len(slow))
    finally:
        for each in slow:
            each.close()
        facts("beside slow connections it ends with 0", member.end(), 0)


def is_ended(connection: socket.socket, end: float) -> bool:
    """Whether a connection comes to its end until a moment."""
    connection.settimeout(max(0.01, end - time.monotonic()))
    try:
        return connection.recv(1) == b""
    except socket.timeout:
        return False
    except OSError:
        return True


def test_names(facts: Facts) -> None:
    """A proxy of another name, and a server at each address of the machine."""
    member = Process(["--ports", str(FIRST_PORT), "--speed", "10", "--origin", "https://board.example.org", "--origin", "http://wb.test:81"])
    try:
        path = "/%s/" % member.token
        names = {"board.example.org": 200, "wb.test:81": 200, "127.0.0.1:%d" % member.port: 200, "example.org": 403, "wb.test": 403}
        facts("names of the words", {name: status_of(member, "GET", path, {"Host": name}) for name in names}, names)
        good = b'{"page": "1/1", "op": "line 0 0 1 0 x"}'
        ours = {"Host": "board.example.org", "X-Wb-Token": member.token}
        origins = {"https://board.example.org": 200, "http://board.example.org": 403, "https://example.org": 403}
        facts("and origins", {name: status_of(member, "POST", path + "draw", dict(ours, Origin=name), good) for name in origins}, origins)
    except (OSError, AttributeError) as fault:
        facts("names", repr(fault), "no fault")
    finally:
        facts("it ends with 0", member.end(), 0)
    everywhere = Process(["--ports", str(FIRST_PORT), "--speed", "10", "--web", "0.0.0.0:0"])
    try:
        facts("at each address of the machine", everywhere.get_page()[0], 200)
        facts("under no other name", status_of(everywhere, "GET", "/", {"Host": "example.org"}), 403)
    finally:
        facts("it ends with 0 too", everywhere.end(), 0)


def test_twins(facts: Facts) -> None:
    """Two members of one number, which the words name: neither takes another by itself."""
    with tempfile.TemporaryDirectory() as folder:
        words = ["--ports", str(FIRST_PORT), "--speed", "10", "--me", "77", "--record"]
        twins = [Process([*words, str(Path(folder) / ("%d.wb" % number))]) for number in range(2)]
        try:
            seen = [each.wait_for(lambda states: states["hello"]["twin"]) for each in twins]
            facts("each sees the other", seen, [True, True])
            facts("neither draws", [each.draw(PAGE, "line 0 0 4 0 t")[0] for each in twins], [422, 422])
            facts("each says so", [each.wait_for(lambda states: any("our number" in text for text in states["health"]["warnings"])) for each in twins], [True, True])
            status, answer = twins[0].post("/number", {"new": True})
            facts("one takes a new number", (status, answer.get("me", 77) != 77), (200, True))
            facts("and draws", twins[0].draw(PAGE, "line 0 0 4 0 t")[0], 200)
            twins[1].post("/number", {"new": True})
            facts("so does the other", twins[1].draw(PAGE, "line 0 1 4 1 u")[0], 200)
            for each in twins:
                facts("their boards are equal", each.wait_for(lambda states: states["board"]["rows"] == ["ttttt", "uuuuu"]), True)
        except (OSError, KeyError) as fault:
            facts("twins", repr(fault), "no fault")
        finally:
            facts("twins end with 0", [each.end() for each in twins], [0, 0])


def test_late(facts: Facts) -> None:
    """A member whose clock is late draws above the others, and its deletes count."""
    with tempfile.TemporaryDirectory() as folder:
        (Path(folder) / "sitecustomize.py").write_text(LATE)
        words = ["--ports", str(FIRST_PORT), "--speed", "10"]
        right = Process(words)
        late = Process(words, environment={"PYTHONPATH": folder})
        try:
            both = [right, late]
            facts("each hears the other", [each.wait_for(lambda states: states["members"]["members"]) for each in both], [True, True])
            first = right.draw(PAGE, "line 0 0 4 0 r")[1]
            facts("a late member shows what others draw", late.wait_for(lambda states: states["board"]["rows"] == ["rrrrr"]), True)
            late.draw(PAGE, "line 0 0 2 0 l")
            for each in both:
                facts("what it draws lies on top", each.wait_for(lambda states: states["board"]["rows"] == ["lllrr"]), True)
            right.draw(PAGE, "delete %d %d" % (right.me, first["seq"]))
            facts("a delete is shown by the late one", late.wait_for(lambda states: states["board"]["rows"] == ["lll"]), True)
            late.draw(PAGE, "restore %d %d" % (right.me, first["seq"]))
            for each in both:
                facts("what it restores is shown", each.wait_for(lambda states: states["board"]["rows"] == ["lllrr"]), True)
        finally:
            facts("the late one ends with 0", [right.end(), late.end()], [0, 0])
