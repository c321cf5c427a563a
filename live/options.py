"""The words of the command line."""
from __future__ import annotations

import argparse
import re
from typing import Any, Callable, Dict, List, Optional, Tuple, Union

from .carriers.mqtt import Broker, Login
from .carriers.udp import PORTS
from .constants import FAR, NEAR
from .invitation import FIRST_NAME, InvitationFault, login_in, read_broker, read_invitation, session_in
from .keys import KeyFault, read_key, secret_text

Address = Tuple[str, int]

GROUP = "239.255.42.99:24299"
FIRST_PORT = 24200

# bytes a second of the reports of all members
RATE = 4_000

# browsers that may have a member each
GUESTS = 64

# hosts of this machine, to which a password may go without TLS
THIS_MACHINE = ("127.0.0.1", "localhost", "::1")


class Options(argparse.Namespace):
    """What the words ask for."""

    me: Optional[int]
    lan: Optional[Address]
    interface: str
    listen: Optional[Address]
    peer: List[Address]
    ports: int
    is_alone: bool  # a class of its own: its browsers alone, and no network
    invitation: Optional[Dict[str, str]]
    broker: Optional[Broker]
    login: Optional[Login]
    ca: Optional[str]
    session: str
    key: Optional[str]  # its text
    is_open: bool  # anybody on the network may draw
    lock: Optional[str] = None  # the text of the key that closes the session, which is given or the user's own
    new_key: Optional[str]
    tag: bool
    invite: bool
    page: Optional[str]
    web: Optional[Tuple[str, int, bool]]  # an address, and whether the words name one; None: serves no page
    guests: int  # the most browsers that have a member of their own; 0: all browsers are one member
    origin: List[str]
    new_address: bool
    terminal: bool
    browser: bool
    record: Optional[str]
    forget: bool
    replay: Optional[str]
    cells: int
    rate: int
    lose: float
    delay: float
    twice: float
    mix: bool
    teach: bool
    speed: float

    def worse(self) -> Dict[str, Union[float, bool]]:
        """How the network is made worse on purpose, where datagrams come in."""
        return {"lose": self.lose, "delay": self.delay, "twice": self.twice, "mix": self.mix}

    def many(self) -> str:
        """The constants of the timers if many are heard."""
        return FAR if self.broker else NEAR


def address(text: str) -> Address:
    """HOST:PORT."""
    host, colon, port = text.rpartition(":")
    if not colon or not host or not re.fullmatch("[0-9]{1,5}", port) or int(port) > 65_535:
        raise argparse.ArgumentTypeError("%r is not HOST:PORT" % text)
    return host, int(port)


def web_address(text: str) -> Tuple[str, int, bool]:
    """PORT of this machine alone, or ADDRESS:PORT, at which each browser has a member of its own."""
    host, port = address(text if ":" in text else "127.0.0.1:" + text)
    return host, port, ":" in text


def login_of(path: str) -> Login:
    """The name and the password in a file."""
    name, colon, password = secret_text(path).partition(":")
    if not colon:
        raise KeyFault("%s does not begin with NAME:PASSWORD" % path)
    return login_in(name, password)


def page_address(text: str) -> str:
    if not re.match("https?://[^#\\s]+$", text):
        raise argparse.ArgumentTypeError("%r is not the address of a page" % text)
    return text


def origin(text: str) -> str:
    """SCHEME://HOST or SCHEME://HOST:PORT, as a browser tells it."""
    if not re.fullmatch(r"https?://[a-z0-9.-]+(:[0-9]{1,5})?", text) and not re.fullmatch(r"https?://\[[0-9a-f:]+\](:[0-9]{1,5})?", text):
        raise argparse.ArgumentTypeError("%r is not http://HOST or https://HOST, with :PORT if it is not the usual one" % text)
    return text


def within(least: float, most: float, kind: Callable[[str], Any]) -> Callable[[str], Any]:
    """Reads a number of a kind, in its range."""

    def read(text: str) -> Any:
        try:
            value = kind(text)
        except ValueError:
            value = least - 1
        if not least <= value <= most:
            raise argparse.ArgumentTypeError("%r is not a number from %d to %d" % (text, least, most))
        return value

    return read


def parser() -> argparse.ArgumentParser:
    made = argparse.ArgumentParser(
        prog="wb-live",
        description="Holds a session of wb: people draw together, in a browser or a terminal. With no words it is for "
        "you on this machine alone. The host that keeps the board is proved; until its first proof is done, a build serves that is "
        "only checked while it runs. The network, the clock and the page are tested, and not proved.",
        epilog="Records stand in $XDG_STATE_HOME/wb, or else in ~/.local/state/wb, in a folder for each session. All checkouts and "
        "installations of one user share them, so a start of any goes on with the same boards. XDG_STATE_HOME=FOLDER "
        "before the command chooses another place, --record a file, and --forget a new board.",
    )
    net = made.add_argument_group("whom to draw with").add_argument
    net("--lan", nargs="?", const=address(GROUP), type=address, metavar="ADDRESS:PORT", help="a multicast group, %s if none is given" % GROUP)
    net("--broker", metavar="URL", help="a session at a broker of MQTT 5: mqtts://HOST[:PORT]/SESSION, or wss://HOST[:PORT]/PATH with --session")
    net("--password-file", dest="login", type=login_of, metavar="FILE", help="has NAME:PASSWORD for the broker in its first line")
    net("--ca", metavar="FILE", help="the certificate authority of the broker, if the system does not trust it already")
    net("--interface", default="0.0.0.0", metavar="A", help="the address of the interface on which the group is joined")
    net("--listen", type=address, metavar="HOST:PORT", help="listens here, and sends to each --peer")
    net("--peer", type=address, action="append", metavar="HOST:PORT", help="another member, which listens there; may be repeated")
    net("--ports", type=within(1, 65_535 - PORTS, int), metavar="FIRST", help="the first of the %d ports of this machine, else %d" % (PORTS, FIRST_PORT))
    net("--me", type=within(0, 2**32 - 1, int), metavar="N", help="the number of this member, which no other may have; else that of its record, or a random one")
    net("--rate", type=within(1, 10**6, int), default=RATE, metavar="BYTES", help="what the reports of all members may take together, in bytes a second, else %d; 400 for slow links" % RATE)
    shut = made.add_argument_group("who may read").add_argument
    shut("invitation", nargs="?", type=read_invitation, metavar="INVITATION", help="a line that --invite printed: joins that session")
    shut("--session", type=session_in, default=FIRST_NAME, metavar="NAME", help="the name of the session, else %s" % FIRST_NAME)
    shut("--key", type=read_key, metavar="FILE", help="the key in this file: nobody else reads or draws. On this machine it is one of your own, unless it is given")
    shut("--open", dest="is_open", action="store_true", help="no key: anybody on the network reads and draws")
    shut("--new-key", metavar="FILE", help="makes a file with a new key, which only its owner can read, and ends")
    shut("--tag", action="store_true", help="the new key tags, and does not seal: nobody else draws, but all can read. It takes no package, as it is where there is none")
    shut("--invite", action="store_true", help="prints a line for others to join this session, with its key, and ends")
    shut("--page", type=page_address, metavar="URL", help="the line of --invite begins with the address of this page, which wb --page built")
    seen = made.add_argument_group("where it is seen").add_argument
    seen("--web", type=web_address, default=("127.0.0.1", -1, False), metavar="PORT", help="serves the page on this port of 127.0.0.1; with ADDRESS:PORT it is served there, each browser is a member of its own, and nobody else joins unless --ports, --lan, --peer or --broker is given")
    seen("--guests", type=within(1, GUESTS, int), metavar="N", help="the most browsers that have a member of their own, else %d" % GUESTS)
    seen("--origin", type=origin, action="append", default=[], metavar="URL", help="another address of the page, as https://board.example.org, behind a proxy; may be repeated")
    seen("--new-address", action="store_true", help="the page gets another address; else it keeps the one that it had with this record, and whoever had that comes back")
    seen("--no-web", dest="web", action="store_const", const=None, help="serves no page, and paints it in the terminal")
    seen("--terminal", action="store_true", default=None, help="paints the page in the terminal")
    seen("--no-terminal", dest="terminal", action="store_false", help="paints nothing in the terminal")
    seen("--browser", action="store_true", help="opens the page in a browser")
    kept = made.add_argument_group("what is kept").add_argument
    kept("--record", metavar="FILE", help="keeps the board in this file, and goes on from its lines; else in a file of the session's folder, see below")
    kept("--forget", action="store_true", help="forgets the record, and starts anew with another number")
    kept("--replay", metavar="FILE", help="shows a record as it went, and sends nothing")
    kept("--cells", type=within(1, 65_535, int), default=65_535, metavar="N", help="room for N drawops, else 65535")
    worse = made.add_argument_group("a worse network, on purpose").add_argument
    worse("--lose", type=within(0, 1, float), default=0.0, metavar="P", help="loses this share of what comes in, 0 to 1")
    worse("--delay", type=within(0, 5000, float), default=0.0, metavar="MS", help="delays what comes in, up to 5000 milliseconds")
    worse("--twice", type=within(0, 1, float), default=0.0, metavar="P", help="lets this share come in twice")
    worse("--mix", action="store_true", help="delays at random, so that order is lost")
    worse("--teach", action="store_true", help="lets the page change these four")
    made.add_argument_group("for tests").add_argument(
        "--speed", type=within(0.01, 1000, float), default=1.0, metavar="X", help="the session's clock runs X times as fast",
    )
    return made


def take_invitation(options: Options) -> None:
    """The words of an invitation, in the place of those that name a network."""
    words = options.invitation or {}
    if options.broker or options.lan or options.listen:
        raise InvitationFault("an invitation names the network: --broker, --lan and --listen go without one")
    options.session = words["session"]
    options.key = words.get("key") or options.key
    options.is_open = options.is_open or "open" in words
    options.broker = words.get("broker")  # type: ignore[assignment]
    try:
        options.lan = address(words["lan"]) if "lan" in words else None
        options.ports = within(1, 65_535 - PORTS, int)(words.get("ports", "%d" % (options.ports or FIRST_PORT)))
    except argparse.ArgumentTypeError as fault:
        raise InvitationFault("the invitation names no network: %s" % fault) from fault


def take_broker(options: Options) -> None:
    """The broker of an address, with what else the address says."""
    broker, session, login = read_broker(str(options.broker))
    if session:
        options.session = session_in(session)
    elif not broker.scheme.startswith("ws") and not options.invitation:
        raise InvitationFault("--broker names a session too: %s/SESSION" % broker.text)
    options.login = options.login or login
    if options.login and not broker.is_safe and broker.host not in THIS_MACHINE:
        raise InvitationFault("a password goes by TLS alone: mqtts:// or wss://")
    options.broker = broker


def read_options(words: List[str]) -> Options:
    """The options that the words ask for. Wrong words end this process with status 2."""
    made = parser()
    options = made.parse_args(words, Options())
    try:
        if options.invitation:
            take_invitation(options)
        if options.broker:
            take_broker(options)
    except InvitationFault as fault:
        made.error(str(fault))
    if options.broker and (options.lan or options.listen):
        made.error("--broker, --lan and --listen exclude each other")
    if options.is_open and options.key:
        made.error("--open and a key exclude each other")
    if (options.login or options.ca) and not options.broker:
        made.error("--password-file and --ca go with --broker")
    options.guests = (options.guests or GUESTS) if options.web and options.web[2] and not options.replay else 0
    options.is_alone = bool(options.guests) and not (options.ports or options.lan or options.listen or options.broker)
    options.ports = options.ports or FIRST_PORT
    if (options.listen is None) != (not options.peer):
        made.error("--listen and --peer go together")
    if options.lan and options.listen:
        made.error("--lan and --listen exclude each other")
    if options.replay and (options.record or options.lan or options.listen or options.broker or options.forget):
        made.error("--replay goes without a network, --record and --forget")
    if options.terminal is None:
        options.terminal = options.web is None
    return options
