"""A line that brings somebody into a session. Behind a `#`, which no server sees, it says what the address of a page in a browser says
(`web/member/invitation.js`): the session, the broker and the key; and, of sessions that no browser reaches by itself, the group or the ports."""
from __future__ import annotations

import re
import shutil
import subprocess
from argparse import ArgumentTypeError
from typing import TYPE_CHECKING, Dict, Optional, Tuple
from urllib.parse import parse_qsl, unquote, urlencode, urlsplit

from .carriers.mqtt import MOST_NAME, PORTS, Broker, Login, is_name
from .keys import key_bytes

if TYPE_CHECKING:
    from .options import Options

# characters of a session's name: what may stand in a topic without meaning something else there
NAME = re.compile("[A-Za-z0-9._~-]{1,64}")
FIRST_NAME = "board"

# characters that a topic or a login has a use for
NO_NAME = re.compile("[/+#:\x00-\x1f]")

# how a line begins that is for no page
START = "wb:"

# what an invitation may say of a carrier
CARRIERS = ("broker", "lan", "ports")


class InvitationFault(ArgumentTypeError):
    """It is no invitation, or no broker's address."""


def session_in(text: str) -> str:
    if not NAME.fullmatch(text):
        raise InvitationFault("%r is no name of a session: up to 64 letters, digits, dots, dashes, underscores and tildes" % text)
    return text


def login_in(name: str, password: str) -> Login:
    if not is_name(name) or NO_NAME.search(name):
        raise InvitationFault("the name for a broker has 1 to %d letters that can be shown, and no slash, plus, hash or colon" % MOST_NAME)
    return Login(name, password)


def read_broker(text: str) -> Tuple[Broker, str, Optional[Login]]:
    """The broker of an address, the path after it, and the name and the password that stand in it."""
    try:
        url = urlsplit(text)
        scheme, host, port = url.scheme, url.hostname or "", url.port
    except ValueError:
        scheme, host, port = "", "", None
    if scheme not in PORTS or not host or url.query or url.fragment:
        raise InvitationFault("%r is no broker's address: mqtts://HOST[:PORT], or wss://HOST[:PORT]/PATH" % text)
    login = login_in(unquote(url.username), unquote(url.password or "")) if url.username else None
    is_web = scheme in ("ws", "wss")
    return Broker(scheme, host, port or PORTS[scheme], url.path if is_web else ""), "" if is_web else unquote(url.path).strip("/"), login


def read_invitation(text: str) -> Dict[str, str]:
    """What an invitation says, word by word. Whatever stands before the fragment is a page's address, and says nothing here."""
    _, sign, fragment = text.partition("#")
    words = dict(parse_qsl(fragment))
    if not sign or not words:
        raise InvitationFault("%r is no invitation: it has no words behind a #" % text)
    session_in(words.setdefault("session", FIRST_NAME))
    if sum(name in words for name in CARRIERS) != 1:
        raise InvitationFault("the invitation names no broker, group or ports: it is one for the tabs of a browser")
    if words.get("key"):
        key_bytes(words["key"])
    return words


def write_invitation(options: Options) -> str:
    """The line for others. Of a name and a password it tells nothing: each has his own."""
    words = {"session": options.session}
    if options.broker:
        words["broker"] = options.broker.text
    elif options.lan:
        words["lan"] = "%s:%d" % options.lan
    elif options.listen:
        raise InvitationFault("peers are named one by one: nobody joins them by an invitation")
    elif options.is_alone:
        raise InvitationFault("others join a class by the address of its page: an invitation takes a network, as --ports names one")
    else:
        words["ports"] = "%d" % options.ports
    if options.lock:
        words["key"] = options.lock
    else:
        words["open"] = "yes"
    return "%s#%s" % (options.page or START, urlencode(words))


def code_of(line: str) -> str:
    """The line as a QR code of letters, where `qrencode` is there."""
    if not shutil.which("qrencode"):
        return ""
    command = ["qrencode", "-t", "UTF8", "-o", "-"]
    made = subprocess.run(command, input=line.encode(), stdout=subprocess.PIPE, stderr=subprocess.DEVNULL, check=False)
    return made.stdout.decode("utf-8", "replace") if made.returncode == 0 else ""
