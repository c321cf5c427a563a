"""Members as processes of their own, spoken to over HTTP as their page does."""
from __future__ import annotations

import http.client
import json
import os
import re
import signal
import socket
import subprocess
import sys
import tempfile
import threading
import time
from pathlib import Path
from typing import Any, BinaryIO, Callable, Dict, Iterator, List, Optional, Tuple

TOP = Path(__file__).resolve().parent.parent.parent

# No test waits longer for one thing, in seconds; and for what all members do together, each with many drawings. A machine that does much else is
# slow, so what takes long there has not failed.
PATIENCE, LONGEST = 120, 900


def script_of(page: str) -> str:
    """The path of the page's own script, behind the key."""
    return str(re.findall('<script type="module" src="([^"]+)">', page)[0])


def opened(words: List[str]) -> List[str]:
    """The words, with one that lets everybody in if none names a key."""
    return words if "--key" in words or any("key=" in word for word in words) else [*words, "--open"]


class Process:
    """One start of ./wb-live, and the newest state that it told. Its records are kept in a folder of its own, unless words or the
    environment say where. It is open to everybody, unless it is closed or has a key."""

    def __init__(self, words: List[str], web: bool = True, environment: Optional[Dict[str, str]] = None, limits: Any = None, top: Path = TOP,
                 launch: Optional[List[str]] = None, closed: bool = False) -> None:
        words = words if closed else opened(words)
        self.folder = tempfile.TemporaryDirectory(prefix="wb-state-")
        self.process = subprocess.Popen(
            [sys.executable, *(launch or [str(top / "wb-live")]), *words] + (["--web", "0"] if web and "--web" not in words else []),
            stdin=subprocess.DEVNULL, stdout=subprocess.PIPE, stderr=subprocess.PIPE, text=True, preexec_fn=limits,
            env={**os.environ, "XDG_STATE_HOME": self.folder.name, **(environment or {})},
        )
        assert self.process.stdout is not None
        self.lines: List[str] = []
        self.changed = threading.Condition()
        self.states: Dict[str, Any] = {}
        self.entries: List[Dict[str, Any]] = []
        self.port = 0
        for line in self.process.stdout:
            self.lines.append(line.rstrip("\n"))
            if line.startswith("page "):
                self.port, self.token = int(re.findall(r":(\d+)/", line)[0]), line.rstrip("/\n").rpartition("/")[2]
                break
        if self.port:
            threading.Thread(target=self.watch, daemon=True).start()

    @property
    def me(self) -> int:
        return int(self.lines[1].split()[1].rstrip(","))

    @property
    def udp_port(self) -> int:
        """Its port of this machine."""
        return int(re.findall(r", port (\d+) of", self.lines[1])[0])

    def get(self, path: str, headers: Optional[Dict[str, str]] = None) -> Tuple[int, str]:
        connection = http.client.HTTPConnection("127.0.0.1", self.port, timeout=PATIENCE)
        connection.request("GET", path, headers=headers or {})
        answer = connection.getresponse()
        text = answer.read().decode()
        connection.close()
        return answer.status, text

    def get_page(self) -> Tuple[int, str]:
        return self.get("/%s/" % self.token)

    def watch(self) -> None:
        """Takes in what the process says, until it ends."""
        try:
            for name, value in messages("/%s/events?token=%s" % (self.token, self.token), self.port):
                self.learn(name, value)
        except (OSError, ValueError):
            pass

    def learn(self, name: str, value: Dict[str, Any]) -> None:
        with self.changed:
            if name == "wire":
                self.entries += value["entries"]
            if name == "change":
                change_board(self.states["board"], value)
            else:
                self.states[name] = value
            self.changed.notify_all()

    def wait_for(self, is_so: Callable[[Dict[str, Any]], Any], seconds: float = PATIENCE) -> bool:
        """Whether something comes to be so, of the states that the member sends."""
        with self.changed:
            return self.changed.wait_for(lambda: self.holds(is_so), seconds)

    def holds(self, is_so: Callable[[Dict[str, Any]], Any]) -> bool:
        try:
            return bool(is_so(self.states))
        except (KeyError, IndexError):
            return False

    def post(self, path: str, value: Any, headers: Optional[Dict[str, str]] = None) -> Tuple[int, Dict[str, Any]]:
        """The status and the answer of a request, as the page sends it unless other headers are given."""
        body = value if isinstance(value, bytes) else json.dumps(value).encode()
        given = {"Content-Type": "application/json", "X-Wb-Token": self.token}
        given.update(headers or {})
        connection = http.client.HTTPConnection("127.0.0.1", self.port, timeout=PATIENCE)
        try:
            connection.request("POST", "/" + self.token + path, body, {name: text for name, text in given.items() if text})
            answer = connection.getresponse()
            return answer.status, json.loads(answer.read())
        finally:
            connection.close()

    def draw(self, page: str, operation: str) -> Tuple[int, Dict[str, Any]]:
        return self.post("/draw", {"page": page, "op": operation})

    def turn(self, page: str) -> None:
        self.post("/page", {"page": page})
        self.wait_for(lambda states: states["board"]["page"] == page)

    def rows(self, page: str) -> List[str]:
        """What the page shows."""
        self.turn(page)
        return list(self.states["board"]["rows"])

    def shows_all(self, states: Optional[Dict[str, Any]] = None, headers: Optional[Dict[str, str]] = None) -> bool:
        """Whether a view comes to have, piece by piece, the page that the host then tells as a whole: this one, or the one with these states."""
        def is_so() -> bool:
            board = (self.states if states is None else states)["board"]
            try:
                status, text = self.get("/%s/board?page=%s" % (self.token, board["page"]), {**(headers or {}), "X-Wb-Token": self.token})
            except (OSError, http.client.HTTPException):  # a full page may take too long on a machine that does much else
                return False
            return status == 200 and all(board[part] == told for part, told in json.loads(text).items())

        return comes(is_so)

    def counts(self) -> Dict[str, int]:
        return dict(self.states["health"]["counts"])

    def kill(self) -> None:
        """Ends it at once, as a crash would."""
        self.process.kill()
        self.process.wait()
        self.close()

    def end(self) -> int:
        """Ends it as a person does, and gives its status."""
        self.process.send_signal(signal.SIGINT)
        try:
            status = self.process.wait(PATIENCE)
        except subprocess.TimeoutExpired:
            self.process.kill()
            status = self.process.wait()
        self.close()
        return status

    def last_words(self) -> str:
        """What a member that has ended by itself has told of it."""
        try:
            status = self.process.wait(1)
        except subprocess.TimeoutExpired:
            return ""
        return "it ended with %d: %s" % (status, self.process.stderr.read() if self.process.stderr else "")

    def close(self) -> None:
        for stream in (self.process.stdout, self.process.stderr):
            if stream:
                stream.close()
        self.folder.cleanup()


def change_board(board: Dict[str, Any], change: Dict[str, Any]) -> None:
    """What a page does with a change: the drawings that it names go, those that are shown stand where it says, and rows are others."""
    names = {tuple(name) for name in change["names"]}
    for kind in ("drawops", "hidden"):
        board[kind] = [drawop for drawop in board[kind] if (drawop["source"], drawop["seq"]) not in names]
    for at, drawop in change["added"]:
        board["drawops"].insert(at, drawop)
    board["hidden"] += change["hidden"]
    rows = (board["rows"] + [""] * change["height"])[:change["height"]]
    for y, row in change["rows"].items():
        rows[int(y)] = row
    board["rows"] = rows


def frames(stream: BinaryIO) -> Iterator[bytes]:
    """What a server sends by a WebSocket."""
    while True:
        head = stream.read(2)
        if len(head) < 2:
            return
        size = head[1]
        if size >= 126:
            size = int.from_bytes(stream.read(2 if size == 126 else 8), "big")
        data = stream.read(size)
        if head[0] & 15 == 1:
            yield data


def messages(path: str, port: int) -> Iterator[Tuple[str, Any]]:
    """What a WebSocket of this machine tells, until it ends."""
    with socket.create_connection(("127.0.0.1", port), timeout=PATIENCE) as connection:
        connection.sendall(
            b"GET %s HTTP/1.1\r\nHost: 127.0.0.1:%d\r\nUpgrade: websocket\r\nConnection: Upgrade\r\n"
            b"Sec-WebSocket-Version: 13\r\nSec-WebSocket-Key: AAAAAAAAAAAAAAAAAAAAAA==\r\n\r\n" % (path.encode(), port))
        stream = connection.makefile("rb")
        if stream.readline().split()[1:2] != [b"101"]:
            raise ValueError("no WebSocket")
        while stream.readline().strip():
            pass
        for told in map(json.loads, frames(stream)):
            yield told["name"], told["news"]


SLOW_FROM = 0.2


def comes(is_so: Callable[[], Any], seconds: float = PATIENCE) -> bool:
    """Whether something comes to be so."""
    end = time.monotonic() + seconds
    while not is_so():
        if time.monotonic() > end:
            return False
        time.sleep(0.02)
    return True


def is_refused(status: int, answer: Dict[str, Any]) -> bool:
    """Whether a drawing was refused. A member that does much else says that it is busy, and draws all the same."""
    return status != 200 and answer.get("fault") != "busy"


def program() -> str:
    """The program, as ./wb-live finds it."""
    sys.path.insert(0, str(TOP))
    from wbhost import find_program

    found = find_program()
    os.environ["WB_PROGRAM"] = found
    return found


def milliseconds_a_line() -> float:
    """What a line costs round the host's pipes, at best of some hundreds, so that other work on the machine does not count. The
    proved program takes some hundredths, a build that is checked while it runs many times that: then tests are smaller, and say so."""
    from wbhost import Host

    host = Host(os.environ["WB_PROGRAM"])
    taken = []
    for _ in range(400):
        began = time.monotonic()
        host.ask("")
        taken.append(time.monotonic() - began)
    host.end()
    return min(taken) * 1000


def answers(record: str, questions: List[str]) -> str:
    """What a host that is given a record answers to these lines after it."""
    given = Path(record).read_text() + "# questions\n" + "".join(line + "\n" for line in questions)
    told = subprocess.run([os.environ["WB_PROGRAM"], "host"], input=given, stdout=subprocess.PIPE, text=True, check=True).stdout
    rest = told.split("\n")
    return "\n".join(rest[-1 - sum_of_lines(rest, len(questions)):])


def sum_of_lines(lines: List[str], blocks: int) -> int:
    """How many lines the last blocks have together."""
    count = 0
    for line in reversed(lines[:-1]):
        if line.startswith(("ok ", "refused ")):
            blocks -= 1
            if blocks < 0:
                break
        count += 1
    return count
