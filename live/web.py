"""The page for a browser, over HTTP: the page itself, its updates, and what people draw."""
from __future__ import annotations

import hmac
import json
import re
import socket
import threading
import time
from concurrent.futures import TimeoutError as TooLate
from contextlib import ExitStack
from http.server import BaseHTTPRequestHandler, ThreadingHTTPServer
from typing import Any, Callable, Dict, List, Optional, Set, Tuple
from urllib.parse import parse_qs, urlsplit

from .connections import Connections
from .events import Events, Watcher, compact
from .files import HTML, NOTHING, File, page_files, refusal
from .film import SPEEDS
from .following import CannotFollow, Following
from .guests import Guest, Guests, NoPlace
from .kept import ASKED
from .member import Member
from .options import Address, Options
from .people import Refused
from .presence import point_in
from .sockets import PING, TEXT, acceptance, frame, has_ended, is_key
from .views import Page, page_of

# bytes of a body, and of one that has many operations; how many of these; and streams of events
MOST_BODY = 1_024
MOST_DRAWING = 65_536
MOST_OPERATIONS = 128
MOST_STREAMS = 128

# seconds without a byte of a request, or of an answer, and that a drawing may take
PATIENCE = 20
DRAW_PATIENCE = 10

# seconds between two messages of a stream, at least and at most: it takes one part in PART of the time, unless it is long; and until one that says
# nothing else shows that it is there
PAUSE, MOST_PAUSE = 0.01, 0.1
PART = 6
QUIET = 5.0

# ports that the page tries first, so that its address stays
PORTS = range(8040, 8072)

# what a page may change of a film and of a worse network: amounts in their ranges, and switches, which have none
Ranges = Dict[str, Optional[Tuple[float, float]]]
FILM: Ranges = {"at": (0, 2**53), "speed": SPEEDS, "stopped": None}
WORSE: Ranges = {"lose": (0, 1), "twice": (0, 1), "delay": (0, 5000), "mix": None}

# the port that an address of a page has if it names none
USUAL_PORTS = {"http": ":80", "https": ":443"}

# how a browser with a member of its own is known again
COOKIE = "wb"

# no script, style or address but our own: none stands in the page itself
POLICY = (
    "default-src 'none'; script-src 'self'; style-src 'self'; connect-src 'self'; img-src data: blob:; "
    "base-uri 'none'; form-action 'none'; frame-ancestors 'none'"
)

HEADERS = {
    "Content-Security-Policy": POLICY,
    "Referrer-Policy": "no-referrer",
    "X-Content-Type-Options": "nosniff",
    "Cross-Origin-Opener-Policy": "same-origin",
    "Cross-Origin-Resource-Policy": "same-origin",
}


def spellings(origins: List[str]) -> Set[str]:
    """How a browser, or another program, writes these addresses of pages: a browser leaves the usual port out."""
    with_ports = {origin if re.search(":[0-9]+$", origin) else origin + USUAL_PORTS[urlsplit(origin).scheme] for origin in origins}
    return with_ports | {re.sub(USUAL_PORTS[urlsplit(origin).scheme] + "$", "", origin) for origin in with_ports}


class Fault(Exception):
    """A request is refused, by a status of HTTP and a text."""

    def __init__(self, status: int, text: str) -> None:
        super().__init__(text)
        self.status = status


def own_address() -> str:
    """The address of this machine on its network: that of the interface that it would send through. Nothing is sent."""
    with socket.socket(socket.AF_INET, socket.SOCK_DGRAM) as probe:
        try:
            probe.connect(("192.0.2.1", 9))
            return str(probe.getsockname()[0])
        except OSError:
            return "127.0.0.1"


class Web(ThreadingHTTPServer):
    """Serves one member, or each browser its own."""

    daemon_threads = True
    request_queue_size = 256

    def __init__(self, address: Address, options: Options, member: Member, events: Events, guests: Optional[Guests] = None) -> None:
        self.connections = Connections()
        super().__init__(address, Handler)
        host, port = address[0], self.server_address[1]
        self.is_everywhere = host in ("0.0.0.0", "::")
        self.is_of_this_machine = str(self.server_address[0]).startswith("127.")
        names = [host, "localhost"] if host == "127.0.0.1" else [host]
        # what a browser calls this server: by its own address, or by those of the words, as a proxy hands them on
        self.origins = spellings(["http://%s:%d" % (name, port) for name in names] + options.origin)
        self.is_behind = bool(options.origin)  # a proxy
        self.token = member.kept.key
        here = "http://%s:%d" % (own_address() if self.is_everywhere else host, port)
        self.urls = ["%s/%s/" % (origin, self.token) for origin in [here, *options.origin]]
        self.member = member
        self.events = events
        self.guests = guests
        self.following = Following(options, member.telling.is_nearly_full)
        self.streams = threading.Semaphore(MOST_STREAMS)
        self.files = page_files(self.token, self.urls[-1])

    def process_request(self, request: Any, client_address: Any) -> None:
        """Each connection has a thread, while there are not too many."""
        if self.connections.admit(request):
            super().process_request(request, client_address)
        else:
            self.shutdown_request(request)

    def handle_error(self, request: Any, client_address: Any) -> None:
        """A connection that breaks off is nobody's fault."""

    def begin(self) -> None:
        self.connections.begin()
        threading.Thread(target=self.serve_forever, daemon=True).start()


class Handler(BaseHTTPRequestHandler):
    """The requests of a connection, one after another."""

    server: Web
    timeout = PATIENCE
    protocol_version = "HTTP/1.1"
    sys_version = ""

    def log_message(self, format: str, *arguments: Any) -> None:
        pass

    def setup(self) -> None:
        super().setup()
        self.has_asked = False
        self.member, self.events = self.server.member, self.server.events
        self.guest: Optional[Guest] = None

    def finish(self) -> None:
        """The connection ends, and its place is free."""
        try:
            super().finish()
        finally:
            self.server.connections.end(self.connection)

    def heard(self) -> None:
        """The whole request has come: from now on the connection is not idle."""
        self.has_asked = self.server.connections.asked(self.connection, self.address(), cookie_in(self.headers.get("Cookie", "")))
        if not self.has_asked:
            raise ConnectionAbortedError

    def handle_one_request(self) -> None:
        """After a request that was heard whole there may be one more; what was not read of any other is none."""
        super().handle_one_request()
        if not self.has_asked:
            self.close_connection = True
        if not self.close_connection:
            self.has_asked = False
            self.server.connections.rest(self.connection)

    def do_GET(self) -> None:
        self.heard()
        paths: Dict[str, Callable[[], None]] = dict.fromkeys(self.server.files, self.send_file)
        paths.update({"/": self.send_page, "/events": self.send_events, "/board": self.send_board, "/news": self.send_news, "/record": self.send_record})
        self.answer(paths)

    def do_POST(self) -> None:
        paths: Dict[str, Callable[[], None]] = {"/draw": self.draw, "/page": self.turn, "/number": self.renumber, "/point": self.point}
        if self.server.member.options.replay:
            paths["/film"] = self.film
        else:
            paths["/next"] = self.go_on
        if self.server.guests:
            paths["/clearing"] = self.let_clear
        if self.server.member.options.teach:
            paths["/worsen"] = self.worsen
        self.answer(paths)

    def answer(self, paths: Dict[str, Callable[[], None]]) -> None:
        """Serves a path behind the key of the address, or tells why not."""
        try:
            self.check_origin()
            _, key, path = (urlsplit(self.path).path + "//").split("/", 2)
            path = "/" + path[:-2]
            self.check_token(key, "open the address that wb-live printed, which has its key")
            if path not in paths:
                raise Fault(405, "method") if path in ("/", "/events", "/board", "/news", "/record", "/draw", "/page") else Fault(404, "no such path")
            self.file = path
            if self.server.guests and (path == "/" or path not in self.server.files):
                self.admit(self.server.guests, path == "/")
            paths[path]()
        except Fault as fault:
            self.refuse(fault)

    def refuse(self, fault: Fault) -> None:
        """Tells why something is refused: to who looks, as a page."""
        if self.command == "GET" and "text/html" in self.headers.get("Accept", ""):
            self.send_bytes(HTML, refusal(fault.status, str(fault), self.headers.get("Accept-Language", "")), status=fault.status)
        else:
            self.send_json(fault.status, {"ok": False, "fault": str(fault)})

    def check_origin(self) -> None:
        """Only our own page asks, by a name of ours: no page of another site, and none under another name. Where the server is at each
        address of the machine, that at which it was reached is its name too."""
        origins = self.server.origins
        if self.server.is_everywhere:
            origins = origins | spellings(["http://%s:%d" % self.connection.getsockname()[:2]])
        if self.headers.get_all("Host", []) not in [[urlsplit(origin).netloc] for origin in origins]:
            raise Fault(403, "host")
        origin = self.headers.get("Origin")
        if origin is not None and origin not in origins:
            raise Fault(403, "origin")

    def check_token(self, token: Optional[str], fault: str = "token") -> None:
        if not hmac.compare_digest((token or "").encode("latin-1", "replace"), self.server.token.encode()):
            raise Fault(403, fault)

    def admit(self, guests: Guests, may_begin: bool) -> None:
        """Finds the member of this browser by its cookie. Who opens the page gets one."""
        cookie = cookie_in(self.headers.get("Cookie", ""))
        guest = guests.find(cookie)
        if guest is None and (may_begin or guests.knows(cookie)):
            try:
                guest = guests.begin(self.address(), cookie, self.is_here())
            except NoPlace as fault:
                raise Fault(503, str(fault)) from fault
        if guest is None:
            raise Fault(403, "open the page anew: this browser has no member here")
        self.guest, self.member, self.events = guest, guest.member, guest.events

    def address(self) -> str:
        """From where a browser comes: behind a proxy of this machine, from where the proxy says."""
        told: List[str] = self.headers.get_all("X-Forwarded-For") or []
        here = str(self.client_address[0])
        return told[-1].rpartition(",")[2].strip() if told and self.server.is_behind and here.startswith("127.") else here

    def is_here(self) -> bool:
        """Whether a browser is on this machine, and no proxy stands between."""
        return not self.headers.get_all("X-Forwarded-For") and self.client_address[0] == self.connection.getsockname()[0]

    # ---- what is served

    def send_page(self) -> None:
        """The page itself. It is sent whole to whom it gives a cookie."""
        is_known = self.guest is None or self.guest.cookie == cookie_in(self.headers.get("Cookie", ""))
        cookie = "%s=%s; HttpOnly; SameSite=Lax; Path=/%s/" % (COOKIE, self.guest.cookie, self.server.token) if self.guest else ""
        self.send_made(self.server.files["/"], is_known, {"Set-Cookie": cookie} if cookie else {})

    def send_file(self) -> None:
        """A script or a style of the page."""
        self.send_made(self.server.files[self.file], True, {})

    def send_made(self, file: File, may_have: bool, more: Dict[str, str]) -> None:
        """A file, packed if the browser reads that, or that it is the same as the browser has."""
        is_packed = "gzip" in self.headers.get("Accept-Encoding", "")
        more = {"Cache-Control": file.keeping, "ETag": file.tag, "Vary": "Accept-Encoding", **more}
        if may_have and file.tag in self.headers.get("If-None-Match", ""):
            self.send_bytes(file.kind, b"", more, 304)
        else:
            self.send_bytes(file.kind, file.packed if is_packed else file.body, {**more, **({"Content-Encoding": "gzip"} if is_packed else {})})

    def send_bytes(self, kind: str, body: bytes, more: Optional[Dict[str, str]] = None, status: int = 200) -> None:
        self.send_response(status)
        length = {} if status == 304 else {"Content-Type": kind, "Content-Length": str(len(body))}
        told = {"Cache-Control": NOTHING, **HEADERS, **length, **(more or {})}
        if not self.has_asked:  # the body of what is refused is not read
            told["Connection"] = "close"
        for name, value in told.items():
            self.send_header(name, value)
        self.end_headers()
        self.wfile.write(body)

    def send_board(self) -> None:
        """What a page shows that need not be in view."""
        member, page, _ = self.page_asked()
        whole = member.people.call(member.telling.whole_of, page).result(DRAW_PATIENCE)
        self.send_bytes("application/json", whole.text().encode())

    def send_news(self) -> None:
        """What of a page is new since it was asked for last."""
        member, page, last = self.page_asked()
        self.send_bytes("application/json", member.people.call(member.telling.news_of, page, last).result(DRAW_PATIENCE).encode())

    def page_asked(self) -> Tuple[Member, Page, str]:
        """The page that is asked for, and since when."""
        self.check_token(self.headers.get("X-Wb-Token"))
        query = parse_qs(urlsplit(self.path).query)
        try:
            return self.member, page_of(query.get("page", [""])[0]), query.get("since", [""])[0]
        except ValueError:
            raise Fault(400, "page") from None

    def send_record(self) -> None:
        """The record as it is now."""
        self.check_token(self.headers.get("X-Wb-Token"))
        member = self.member
        text = member.people.call(member.board.record.text).result(DRAW_PATIENCE)
        self.send_bytes("text/plain; charset=latin-1", text)

    def send_events(self) -> None:
        """A WebSocket, which tells what changes."""
        self.check_token(parse_qs(urlsplit(self.path).query).get("token", [""])[0])
        key = self.headers.get("Sec-WebSocket-Key")
        if self.headers.get("Upgrade", "").lower() != "websocket" or not is_key(key):
            raise Fault(426, "a WebSocket")
        self.show_page()
        with ExitStack() as held:
            self.take_place(held)
            self.close_connection = True
            self.server.connections.stream(self.connection)
            self.send_response(101)
            for name, value in (("Upgrade", "websocket"), ("Connection", "Upgrade"), ("Sec-WebSocket-Accept", acceptance(key or ""))):
                self.send_header(name, value)
            self.end_headers()
            self.connection.setsockopt(socket.IPPROTO_TCP, socket.TCP_NODELAY, 1)
            self.stream(Watcher(self.events))

    def show_page(self) -> None:
        """A window that has shown a page goes on with that one at a program that was started anew."""
        told = parse_qs(urlsplit(self.path).query).get("page")
        try:
            if told and not self.member.has_turned:
                self.member.people.call(self.member.show, page_of(told[0])).result(DRAW_PATIENCE)
        except ValueError:
            raise Fault(400, "page") from None

    def take_place(self, held: ExitStack) -> None:
        """A place for a stream while it lasts. The first window of a browser with a member has one in any case, so that nobody else's windows
        lock it out."""
        windows = self.guest.look() if self.guest else 2
        if not windows:
            raise Fault(503, "too many windows of one browser")
        if self.guest:
            held.callback(self.guest.look_away)
        if windows > 1:
            if not self.server.streams.acquire(blocking=False):
                raise Fault(503, "too many streams")
            held.callback(self.server.streams.release)

    def stream(self, watcher: Watcher) -> None:
        """Sends updates until the other side or the program ends."""
        said = time.monotonic()
        while not has_ended(self.connection):
            news = watcher.wait(QUIET / 5)
            began = time.monotonic()
            if news is None:
                return
            if news:
                self.wfile.write(b"".join(frame(TEXT, ('{"name":%s,"news":%s}' % (compact(name), text)).encode()) for name, text in news))
            elif time.monotonic() - said < QUIET:
                continue
            else:
                self.wfile.write(frame(PING, b""))
            said = time.monotonic()
            time.sleep(min(MOST_PAUSE, max(PAUSE, (PART - 1) * (said - began))))

    def send_json(self, status: int, value: Dict[str, Any]) -> None:
        self.send_bytes("application/json", json.dumps(value).encode(), status=status)

    # ---- what is drawn

    def body(self, most: int = MOST_BODY) -> Dict[str, Any]:
        """The object that a request brings, from our own page."""
        self.check_token(self.headers.get("X-Wb-Token"))
        length = self.headers.get("Content-Length", "")
        if not re.fullmatch("[0-9]{1,9}", length):
            raise Fault(411, "length")
        if int(length) > most:
            raise Fault(413, "body of over %d bytes" % most)
        data = self.rfile.read(int(length))
        self.heard()
        try:
            value = json.loads(data)
        except (ValueError, RecursionError):
            raise Fault(400, "not JSON") from None
        if not isinstance(value, dict):
            raise Fault(400, "not an object")
        return value

    def give(self, future: Any) -> None:
        """Answers with what the member's thread gives."""
        answer = answer_of(future, time.monotonic() + DRAW_PATIENCE)
        if not answer["ok"]:
            raise Fault(answer["status"], answer["fault"])
        self.send_json(200, answer)

    def draw(self) -> None:
        """Draws an operation, or many: each may have a name, under which it is drawn once."""
        body = self.body(MOST_DRAWING)
        if list(body) != ["many"]:
            self.give(self.member.people.draw(*self.drawing_in(body)))
            return
        if not isinstance(body["many"], list) or len(body["many"]) > MOST_OPERATIONS or not all(isinstance(each, dict) for each in body["many"]):
            raise Fault(400, "fields")
        until = time.monotonic() + DRAW_PATIENCE
        asked = [self.member.people.draw(*drawing) for drawing in [self.drawing_in(each) for each in body["many"]]]
        self.send_json(200, {"ok": True, "answers": [answer_of(future, until) for future in asked]})

    def drawing_in(self, body: Dict[str, Any]) -> Tuple[Page, str, str]:
        """The page, the operation and the name of a drawing that is asked for."""
        page = self.page_in(body, ["id", "op", "page"] if "id" in body else ["op", "page"])
        if not body["op"].isprintable():
            raise Fault(400, "control characters")
        if "id" in body and not ASKED.fullmatch(body["id"]):
            raise Fault(400, "id")
        return page, body["op"], body.get("id", "")

    def turn(self) -> None:
        body, people = self.body(), self.member.people
        if body == {"new": True}:
            self.give(people.call(people.new_page))
        else:
            self.give(people.call(people.turn_to, self.page_in(body, ["page"])))

    def point(self) -> None:
        """Where this member points: others see it, nobody keeps it."""
        body, member = self.body(), self.member
        page = self.page_in({"page": body.pop("page", None)}, ["page"])
        point = point_in(body, member.me, page)
        if point is None:
            raise Fault(400, "fields")
        self.give(member.people.call(member.point, point))

    def film(self) -> None:
        member, changes = self.member, self.changes(FILM)
        self.give(member.people.call(lambda: member.judging.change(**changes)))

    def go_on(self) -> None:
        """Begins or joins the session in which the board goes on, and gives the address of its page."""
        body = self.body()
        if list(body) != ["session"] or not isinstance(body["session"], str):
            raise Fault(400, "fields")
        try:
            address = self.server.following.go_on(body["session"], urlsplit("//" + self.headers.get("Host", "")).hostname or "")
        except CannotFollow as fault:
            raise Fault(422, str(fault)) from None
        self.send_json(200, {"ok": True, "address": address})

    def let_clear(self) -> None:
        """The window of who keeps the board says whether those of others may clear pages."""
        body, guests = self.body(), self.server.guests
        if not (guests and self.guest and self.guest.keeps):
            raise Fault(403, "only the window of who keeps the board decides that")
        if list(body) != ["others"] or not isinstance(body["others"], bool):
            raise Fault(400, "fields")
        self.send_json(200, dict(guests.let_clear(body["others"]), ok=True))

    def renumber(self) -> None:
        body, people = self.body(), self.member.people
        if body != {"new": True}:
            raise Fault(400, "fields")
        self.give(people.call(people.renumber))

    def worsen(self) -> None:
        people = self.member.people
        self.give(people.call(people.worsen, self.changes(WORSE)))

    def changes(self, ranges: Ranges) -> Dict[str, Any]:
        """The object of a request that changes some of these."""
        body = self.body()
        if not all(is_within(ranges, name, value) for name, value in body.items()):
            raise Fault(400, "fields")
        return body

    def page_in(self, body: Dict[str, Any], names: List[str]) -> Page:
        """The page of a body that has fields of these names and no others, all of them texts."""
        if sorted(body) != names or not all(isinstance(value, str) for value in body.values()):
            raise Fault(400, "fields")
        try:
            return page_of(body["page"])
        except ValueError:
            raise Fault(400, "page") from None


def answer_of(future: Any, until: float) -> Dict[str, Any]:
    """What the member's thread gives in time, or why it does not."""
    try:
        return dict(future.result(max(0.0, until - time.monotonic())), ok=True)
    except Refused as fault:
        return {"ok": False, "fault": str(fault), "status": 503 if str(fault) in ("busy", "ended") else 422}
    except TooLate:
        return {"ok": False, "fault": "busy", "status": 503}


def cookie_in(header: str) -> str:
    """The cookie of ours among those that a browser sends."""
    return dict(part.strip().partition("=")[::2] for part in header.split(";")).get(COOKIE, "")


def is_within(ranges: Ranges, name: str, value: Any) -> bool:
    """Whether it can be changed so: an amount in its range, or a switch."""
    limits = ranges.get(name)
    if limits is None:
        return name in ranges and isinstance(value, bool)
    return type(value) in (int, float) and limits[0] <= value <= limits[1]


def open_web(options: Options, member: Member, events: Events, guests: Optional[Guests] = None) -> Web:
    """Serves at the address of the words; where its port is -1, at the first that is free."""
    host, own, _ = options.web or ("127.0.0.1", 0, False)
    ports = list(PORTS) + [0] if own < 0 else [own]
    for port in ports[:-1]:
        try:
            return Web((host, port), options, member, events, guests)
        except OSError:
            continue
    return Web((host, ports[-1]), options, member, events, guests)
