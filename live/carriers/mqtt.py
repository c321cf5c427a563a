"""Datagrams by a broker of MQTT 5, which passes them on at most once (QoS 0), as a datagram goes. A member publishes under
`wb/SESSION/NAME`, where NAME is that by which the broker knows it, or else its number, and hears `wb/SESSION/+`."""
from __future__ import annotations

import random
import secrets
import ssl
import sys
import threading
from types import ModuleType
from typing import Any, NamedTuple, Optional

from ..packages import module_of
from ..unseen import is_seen
from .carrier import MOST_BYTES, SEALED, NetworkFault, Origin, Taker

# seconds between two signs of life, from a loss to the next try at most, and that the first connection may take
KEEP_ALIVE = 30
MOST_PAUSE = 5
PATIENCE = 20
FAREWELL = 1.0

# bytes of a packet that the broker may send, and of a frame of its WebSocket; and datagrams that wait for the network
MOST_PACKET = 1 << 17
MOST_FRAME = 4 * MOST_PACKET
MOST_WAITING = 1_024

# letters of a name at a broker, which people see
MOST_NAME = 128

# the ports of the ways to a broker
PORTS = {"mqtt": 1883, "mqtts": 8883, "ws": 80, "wss": 443}

# how the datagram begins that tells of a member that it is gone, which the broker publishes as its last will; its name follows
GONE = b"WG\x01\x00"

# why a broker refuses, by the number that it gives
REFUSALS = {
    132: "it knows no MQTT 5", 133: "it does not take this name", 134: "the name or the password is wrong",
    135: "the name or the password is wrong, or it does not allow it", 136: "it is not available", 137: "it is busy",
    138: "this name is banned",
}


def is_name(text: str) -> bool:
    """Whether people may be shown it: each letter shows something, and it is not long."""
    return 0 < len(text) <= MOST_NAME and is_seen(text)


class Login(NamedTuple):
    """By which a broker knows who connects."""

    name: str
    password: str


class Broker(NamedTuple):
    """Where a broker is: the way to it, its host, its port, and the path of its WebSocket."""

    scheme: str
    host: str
    port: int
    path: str

    @property
    def is_safe(self) -> bool:
        return self.scheme in ("mqtts", "wss")

    @property
    def text(self) -> str:
        host = "[%s]" % self.host if ":" in self.host else self.host
        return "%s://%s%s%s" % (self.scheme, host, "" if self.port == PORTS[self.scheme] else ":%d" % self.port, self.path)


class BrokerSession(NamedTuple):
    """A session at a broker: by what name we speak there, and what else it takes to come in."""

    broker: Broker
    session: str
    name: str
    login: Optional[Login]
    ca: Optional[str]  # a file of the certificates that vouch for the broker, where they are not those of the system


class MqttCarrier:
    def __init__(self, at: BrokerSession, will: bytes) -> None:
        """Connects, and hears the session from now on. `will` is published when this member is gone. NetworkFault where the broker
        does not answer, refuses, or is not the one that its certificate should tell."""
        self.at = at
        self.mqtt = module_of("paho.mqtt.client", "python3-paho-mqtt", "--broker")
        self.topic = "wb/%s/%s" % (at.session, at.name)
        self.inbox: Optional[Taker] = None
        self.trouble = "connecting"
        self.settled, self.ended = threading.Event(), threading.Event()
        self.counting = threading.Lock()
        self.waiting = 0
        self.client = self.made(will)
        self.connect()

    @property
    def where(self) -> str:
        at = self.at
        return "the broker %s, session %s%s" % (at.broker.host, at.session, ", as %s" % at.login.name if at.login else "")

    # ---- how it connects

    def made(self, will: bytes) -> Any:
        broker, login = self.at.broker, self.at.login
        is_web = broker.scheme in ("ws", "wss")
        client = lasting(self.mqtt)("wb-" + secrets.token_hex(8), protocol=self.mqtt.MQTTv5, transport="websockets" if is_web else "tcp")
        client.suppress_exceptions = True
        client.will_set(self.topic, will)
        client.reconnect_delay_set(random.uniform(0.5, 1.5), MOST_PAUSE)
        if is_web:
            client.ws_set_options(broker.path or "/")
        if login:
            client.username_pw_set(login.name, login.password)
        if broker.is_safe:
            client.tls_set_context(self.context())
        client.on_connect, client.on_connect_fail, client.on_disconnect = self.connected, self.failed, self.disconnected
        client.on_subscribe, client.on_message, client.on_publish = self.subscribed, self.heard, self.published
        return client

    def context(self) -> ssl.SSLContext:
        """Only a broker is spoken to whose certificate is valid for its name."""
        try:
            return ssl.create_default_context(cafile=self.at.ca)
        except (OSError, ValueError) as fault:
            raise NetworkFault("--ca %s is no file of certificates" % self.at.ca) from fault

    def connect(self) -> None:
        broker = self.at.broker
        properties = module_of("paho.mqtt.properties", "python3-paho-mqtt", "--broker").Properties(self.mqtt.CONNECT >> 4)
        properties.MaximumPacketSize = MOST_PACKET
        self.client.connect_async(broker.host, broker.port, KEEP_ALIVE, clean_start=True, properties=properties)
        self.client.loop_start()
        self.settled.wait(PATIENCE)
        if self.trouble:
            self.client.disconnect()
            raise NetworkFault("the broker %s %s" % (broker.host, "does not answer" if self.trouble == "connecting" else self.trouble))

    # ---- on the client's thread

    def connected(self, client: Any, _data: Any, _flags: Any, reason: Any, _properties: Any = None) -> None:
        number = getattr(reason, "value", reason)
        with self.counting:
            self.waiting = 0
        if number:
            self.tell("refuses: %s" % REFUSALS.get(number, reason))
            return
        options = self.mqtt.SubscribeOptions(qos=0, noLocal=True, retainHandling=self.mqtt.SubscribeOptions.RETAIN_DO_NOT_SEND)
        client.subscribe("wb/%s/+" % self.at.session, options=options)

    def subscribed(self, _client: Any, _data: Any, _number: int, reasons: Any, _properties: Any = None) -> None:
        is_refused = any(getattr(reason, "value", reason) >= 128 for reason in reasons)
        self.tell("refuses: it does not let us hear this session" if is_refused else "")

    def failed(self, _client: Any, _data: Any) -> None:
        """A connection could not be made: this is called where the fault is handled."""
        self.tell(words_of(sys.exc_info()[1]))

    def disconnected(self, _client: Any, _data: Any, _reason: Any, _properties: Any = None) -> None:
        if not self.trouble:
            self.tell("does not answer")
        self.ended.set()

    def tell(self, trouble: str) -> None:
        self.trouble = trouble
        self.settled.set()
        if self.inbox:
            self.inbox.tell("the broker %s %s" % (self.at.broker.host, trouble) if trouble else "")

    def heard(self, _client: Any, _data: Any, message: Any) -> None:
        if not self.inbox:
            return
        name = message.topic.rpartition("/")[2]
        if is_name(name) and len(message.payload) <= MOST_BYTES + SEALED:
            self.inbox.arrive(bytes(message.payload), Origin(name, is_kept=self.at.login is not None))
        else:
            self.inbox.miss()

    def published(self, _client: Any, _data: Any, _number: int) -> None:
        with self.counting:
            self.waiting -= 1

    # ---- the carrier

    def begin(self, inbox: Taker) -> None:
        self.inbox = inbox

    def send(self, data: bytes) -> bool:
        """Whether the network takes it. What can't go at once is lost, as a datagram is."""
        with self.counting:
            if self.trouble or self.waiting >= MOST_WAITING:
                return False
            self.waiting += 1
        if self.client.publish(self.topic, data).rc:
            self.published(None, None, 0)
            return False
        return True

    def end(self) -> None:
        """Ends the connection, and has the broker publish the last will."""
        self.inbox = None
        self.ended.clear()
        codes = module_of("paho.mqtt.reasoncodes", "python3-paho-mqtt", "--broker")
        if not self.client.disconnect(codes.ReasonCodes(self.mqtt.DISCONNECT >> 4, "Disconnect with will message")):
            self.ended.wait(FAREWELL)


def lasting(mqtt: ModuleType) -> Any:
    """A client whose thread goes on whatever befalls its connection. That of the package ends by each fault but a connection that was
    reset: by one of TLS, a network that can't be reached, a time that ran out, or a packet that can't be read."""

    class Lasting(mqtt.Client):  # type: ignore[name-defined, misc]
        def loop_forever(self, *words: Any, **named: Any) -> int:
            while True:
                try:
                    return int(super().loop_forever(*words, **named))
                except Exception:
                    self.lose()

        def _sock_recv(self, size: int) -> bytes:
            """What comes next. Of a packet that is longer than we agreed to nothing is read, nor more of a frame of a WebSocket than some
            packets have: the connection counts as lost."""
            if size > MOST_PACKET or len(getattr(self.socket(), "_readbuffer", b"")) > MOST_FRAME:
                raise ConnectionAbortedError("too long a packet")
            return bytes(super()._sock_recv(size))

        def lose(self) -> None:
            """What is closed counts as lost, and the next turn connects again, after the pause of one that failed."""
            self.on_disconnect(self, None, mqtt.MQTT_ERR_CONN_LOST)
            if self.socket():
                self.socket().close()

    return Lasting


def words_of(fault: Any) -> str:
    """Why a connection could not be made, behind the broker's name."""
    if isinstance(fault, ssl.SSLCertVerificationError):
        return "has no certificate that is taken: %s (--ca FILE names who vouches for it)" % fault.verify_message.rstrip(".")
    if isinstance(fault, ssl.SSLError):
        return "does not speak TLS there: %s" % (fault.reason or fault)
    return "does not answer: %s" % (getattr(fault, "strerror", None) or fault or "no reason is told")
