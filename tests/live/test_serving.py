"""The page at its usual port, over plain HTTP with a warning, and over TLS by the recipe of docs/LIVE.md, in a network of its own."""
from __future__ import annotations

import http.client
import json
import os
import re
import shutil
import socket
import ssl
import subprocess
import tempfile
import time
from pathlib import Path
from typing import Any, Dict, List, Optional, Set, Tuple

import pytest

from live.web import spellings
from ..facts import Facts
from .inside import run_inside, way_inside
from .members import PATIENCE, TOP, Process
from .mosquitto import make_certificate

FIRST_PORT = 27_200
NAME = "board.example.org"


def test_spellings(facts: Facts) -> None:
    """An address of a page is known by the usual port and without it, and by no other."""
    cases: List[Tuple[str, Set[str]]] = [
        ("http://a:80", {"http://a", "http://a:80"}), ("http://a", {"http://a", "http://a:80"}), ("https://a", {"https://a", "https://a:443"}),
        ("http://a:443", {"http://a:443"}), ("https://a:80", {"https://a:80"}), ("http://a:8080", {"http://a:8080"}),
        ("http://[::1]:80", {"http://[::1]", "http://[::1]:80"}), ("http://[::80]", {"http://[::80]", "http://[::80]:80"}),
    ]
    for origin, wanted in cases:
        facts("an address of a page: %s" % origin, spellings([origin]), wanted)


def asked(connection: http.client.HTTPConnection, path: str, body: Optional[Any] = None, headers: Optional[Dict[str, str]] = None) -> Tuple[int, bytes]:
    """What a request is answered, whose host a browser would name as this client does: without the usual port."""
    connection.request("GET" if body is None else "POST", path, None if body is None else json.dumps(body), headers or {})
    answer = connection.getresponse()
    return answer.status, answer.read()


@pytest.mark.inside
def test_usual_port(facts: Facts) -> None:
    """A page at port 80 is opened, looked at and drawn on by who leaves that port out."""
    for words, origin in ((["--web", "80"], "http://127.0.0.1"), (["--web", "8080", "--origin", "http://board.example.org:80"], "http://board.example.org")):
        served = Process(["--ports", str(FIRST_PORT), "--speed", "10", *words])
        try:
            host, key = origin[7:], {"X-Wb-Token": served.token, "Origin": origin}
            for named in ([host, host + ":80"] if "--origin" in words else [host]):
                connection = http.client.HTTPConnection("127.0.0.1", served.port, timeout=PATIENCE)
                status, page = asked(connection, "/%s/" % served.token, headers={"Host": named})
                facts("%s: the page by %s" % (words[1], named), (status, b"<script" in page), (200, True))
                connection.close()
            connection = http.client.HTTPConnection("127.0.0.1", served.port, timeout=PATIENCE)
            status, _ = asked(connection, "/%s/draw" % served.token, {"page": "1/1", "op": "line 0 0 3 0 a"}, {**key, "Host": host})
            facts("%s: a drawing of its own page" % words[1], status, 200)
            status, _ = asked(connection, "/%s/draw" % served.token, {"page": "1/1", "op": "line 0 0 3 0 a"}, {**key, "Host": host, "Origin": "http://example.org"})
            facts("%s: and of another's" % words[1], status, 403)
            connection.close()
        finally:
            facts("%s: it ends with 0" % words[1], served.end(), 0)


@pytest.mark.inside
def test_plain(facts: Facts) -> None:
    """At an address of the network it is said that the page goes by plain HTTP, and at one of this machine it is not."""
    subprocess.run(["ip", "address", "add", "10.66.0.1/24", "dev", "lo"], check=True)
    for address, wanted in (("0.0.0.0:0", True), ("10.66.0.1:0", True), ("127.0.0.1:0", False)):
        served = Process(["--ports", str(FIRST_PORT), "--web", address])
        error = served.process.stderr
        served.process.terminate()
        status, said = served.process.wait(PATIENCE), error.read() if error else ""
        facts("at %s plain HTTP is told" % address, (status, "plain HTTP" in said), (0, wanted))
        served.close()


def recipe() -> str:
    """The file of docs/LIVE.md for caddy."""
    block = re.search("(?m)^    # /etc/caddy/Caddyfile\n((?:    .*\n)+)", (TOP / "docs" / "LIVE.md").read_text())
    return "".join(line[4:] + "\n" for line in (block[1] if block else "").split("\n"))


class Caddy:
    """The proxy of the recipe, with a certificate of ours in the place of one that it would get."""

    def __init__(self, folder: Path) -> None:
        self.own = make_certificate(folder, "own", "DNS:" + NAME)
        file = folder / "Caddyfile"
        text = recipe().replace("{\n", "{\n    tls %s %s\n" % (self.own, folder / "own.key"), 1)
        file.write_text("{\n    admin off\n    auto_https disable_redirects\n}\n" + text)
        environment = {**os.environ, "XDG_DATA_HOME": str(folder), "XDG_CONFIG_HOME": str(folder), "HOME": str(folder)}
        self.process = subprocess.Popen([str(shutil.which("caddy")), "run", "--config", str(file), "--adapter", "caddyfile"], env=environment,
                                        stdin=subprocess.DEVNULL, stdout=subprocess.DEVNULL, stderr=subprocess.DEVNULL)
        end = time.monotonic() + PATIENCE
        while time.monotonic() < end:
            try:
                socket.create_connection(("127.0.0.1", 443), timeout=1).close()
                return
            except OSError:
                time.sleep(0.05)

    def end(self) -> None:
        self.process.terminate()
        self.process.wait(PATIENCE)


class Sealed(http.client.HTTPSConnection):
    """To the proxy on this machine, by the name of the page."""

    def __init__(self, own: Path) -> None:
        self.trusted = ssl.create_default_context(cafile=str(own))
        super().__init__(NAME, 443, timeout=PATIENCE, context=self.trusted)

    def connect(self) -> None:
        self.sock = self.trusted.wrap_socket(socket.create_connection(("127.0.0.1", 443), timeout=PATIENCE), server_hostname=NAME)


@pytest.mark.inside
def test_recipe(facts: Facts) -> None:
    """Over TLS by the recipe: a page, its stream, and a drawing; nobody speaks to the page but by its names."""
    if not shutil.which("caddy"):
        pytest.skip("there is no caddy: apt-get install caddy")
    with tempfile.TemporaryDirectory() as name:
        served = Process(["--ports", str(FIRST_PORT), "--speed", "10", "--web", "127.0.0.1:8040", "--origin", "https://" + NAME])
        caddy = Caddy(Path(name))
        try:
            link = Sealed(caddy.own)
            link.request("GET", "/%s/" % served.token)
            answer = link.getresponse()
            cookie = (answer.getheader("Set-Cookie") or "").split(";")[0]
            facts("over TLS the page is served, with a member", (answer.status, b"<script" in answer.read(), cookie[:3]), (200, True, "wb="))
            key = {"X-Wb-Token": served.token, "Origin": "https://" + NAME, "Cookie": cookie}
            facts("and drawn on", asked(link, "/%s/draw" % served.token, {"page": "1/1", "op": "line 0 0 3 0 a"}, key)[0], 200)
            facts("and by no other site", asked(link, "/%s/draw" % served.token, {"page": "1/1", "op": "line 0 0 3 0 a"}, {**key, "Origin": "http://" + NAME})[0], 403)
            facts("what changes is told", b"hello" in stream(caddy.own, served.token, cookie), True)
            facts("and without the key nothing is", asked(link, "/")[0], 403)
        finally:
            caddy.end()
            facts("behind a proxy it ends with 0", served.end(), 0)


def stream(own: Path, token: str, cookie: str) -> bytes:
    """What a WebSocket over TLS gets first."""
    link = Sealed(own)
    link.connect()
    assert link.sock
    link.sock.sendall(("GET /%s/events?token=%s HTTP/1.1\r\nHost: %s\r\nCookie: %s\r\nOrigin: https://%s\r\nUpgrade: websocket\r\nConnection: Upgrade\r\n"
                       "Sec-WebSocket-Version: 13\r\nSec-WebSocket-Key: AAAAAAAAAAAAAAAAAAAAAA==\r\n\r\n" % (token, token, NAME, cookie, NAME)).encode())
    told = b""
    while b"hello" not in told:
        data = link.sock.recv(4_096)
        if not data:
            break
        told += data
    link.sock.close()
    return told


def test_inside() -> None:
    """The page at port 80 and over TLS."""
    way = way_inside()
    if not way:
        pytest.skip("no network of its own can be had here (unshare)")
    run_inside(__file__, way)
