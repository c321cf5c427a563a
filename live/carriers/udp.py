"""Datagrams by UDP: the ports of this machine, a multicast group, or peers one by one."""
from __future__ import annotations

import socket
import threading
import time
from typing import TYPE_CHECKING, Dict, List, Optional, Tuple

from .carrier import MOST_BYTES, SEALED, NetworkFault, Origin, Taker

if TYPE_CHECKING:
    from ..options import Address

# ports of this machine at which members are
PORTS = 32

# bytes that the system keeps for us
WAITING_BYTES = 1 << 20

# datagrams of ours that are told apart when a group brings them back
MOST_RECENT = 64

# origins that are made once, since most datagrams come from few places
MOST_ORIGINS = 1_024

# hosts of a group that are remembered, since a stream is given to those alone that were heard; of more, the one heard least lately goes
MOST_HOSTS = 1_024


def udp() -> socket.socket:
    return socket.socket(socket.AF_INET, socket.SOCK_DGRAM)


class UdpCarrier:
    """A socket that a thread reads, one that sends, and to whom."""

    # how far streams go, in hops, if not everywhere; and how many one host may have at a time
    hops: Optional[int] = None
    streams_of_host = 1

    def __init__(self, where: str, bound: socket.socket, sender: socket.socket, targets: List[Address]) -> None:
        self.where = where
        self.socket = bound
        self.sender = sender
        self.targets = targets
        self.origins: Dict[Address, Origin] = {}
        self.is_open = True

    def begin(self, inbox: Taker) -> None:
        self.socket.setsockopt(socket.SOL_SOCKET, socket.SO_RCVBUF, WAITING_BYTES)
        threading.Thread(target=self.read, args=(inbox,), daemon=True).start()

    def read(self, inbox: Taker) -> None:
        while self.is_open:
            try:
                data, address = self.socket.recvfrom(MOST_BYTES + SEALED)
            except OSError:
                if self.is_open:
                    time.sleep(0.05)
                continue
            if self.takes(data, address):
                inbox.arrive(data, self.origins.get(address) or self.origin_of(address))

    def origin_of(self, address: Address) -> Origin:
        if len(self.origins) >= MOST_ORIGINS:
            self.origins.clear()
        self.origins[address] = origin = Origin("%s:%d" % address, address=address)
        return origin

    def takes(self, data: bytes, address: Address) -> bool:
        """Whether a datagram from there is for us."""
        return True

    def send(self, data: bytes) -> bool:
        done = True
        for target in self.targets:
            try:
                self.sender.sendto(data, target)
            except OSError:
                done = False
        return done

    def end(self) -> None:
        self.is_open = False
        self.socket.close()
        self.sender.close()

    # ---- streams beside it

    def place(self) -> Address:
        """Where a stream is asked for: the address that datagrams of ours come from."""
        place: Address = self.sender.getsockname()
        return place

    def tcp(self) -> socket.socket:
        made = socket.socket(socket.AF_INET, socket.SOCK_STREAM)
        if self.hops is not None:
            made.setsockopt(socket.IPPROTO_IP, socket.IP_TTL, self.hops)
        return made

    def listen_beside(self, waiting: int) -> socket.socket:
        """A socket that listens where a stream is asked for. OSError if another has that port."""
        listening = self.tcp()
        try:
            listening.setsockopt(socket.SOL_SOCKET, socket.SO_REUSEADDR, 1)
            listening.bind(self.place())
            listening.listen(waiting)
        except OSError:
            listening.close()
            raise
        return listening

    def stream_to(self, address: Address, seconds: float) -> socket.socket:
        """A stream to the member there, from where it hears us. OSError if there is none within the seconds given."""
        stream = self.tcp()
        try:
            stream.settimeout(seconds)
            stream.bind((self.place()[0], 0))
            stream.connect(address)
        except OSError:
            stream.close()
            raise
        return stream

    def is_there(self, address: Address) -> bool:
        """Whether a member may be at an address: where it is known who there can be, nobody else is spoken to."""
        return address in self.targets

    def may_ask(self, address: Address) -> bool:
        """Whether a stream may be asked for from an address."""
        return address[0] in {host for host, _ in self.targets}


class Ports(UdpCarrier):
    """The first port of this machine that is free, and to all others. Its number is nobody's: a member's number is not that of its port."""

    streams_of_host = PORTS  # all members are at one host

    def __init__(self, first: int) -> None:
        ports = list(range(first, first + PORTS))
        bound, own = self.first_free(ports)
        where = "this machine, port %d of %d to %d" % (own, first, ports[-1])
        super().__init__(where, bound, bound, [("127.0.0.1", port) for port in ports if port != own])

    def first_free(self, ports: List[int]) -> Tuple[socket.socket, int]:
        for port in ports:
            bound = udp()
            try:
                bound.bind(("127.0.0.1", port))
                return bound, port
            except OSError:
                bound.close()
        raise NetworkFault("no port of %d to %d is free" % (ports[0], ports[-1]))


class Group(UdpCarrier):
    """A multicast group, one hop wide, on an interface. It brings back what is sent, which is known again. Streams go no farther, and to
    hosts alone that were heard in the group."""

    hops = 1

    def __init__(self, group: Address, interface: str) -> None:
        bound, sender = udp(), udp()
        try:
            bound.setsockopt(socket.SOL_SOCKET, socket.SO_REUSEADDR, 1)
            bound.setsockopt(socket.SOL_SOCKET, socket.SO_REUSEPORT, 1)
            bound.bind(group)
            bound.setsockopt(socket.IPPROTO_IP, socket.IP_ADD_MEMBERSHIP, socket.inet_aton(group[0]) + socket.inet_aton(interface))
            sender.setsockopt(socket.IPPROTO_IP, socket.IP_MULTICAST_TTL, 1)
            sender.setsockopt(socket.IPPROTO_IP, socket.IP_MULTICAST_LOOP, 1)
            if interface != "0.0.0.0":
                sender.setsockopt(socket.IPPROTO_IP, socket.IP_MULTICAST_IF, socket.inet_aton(interface))
            sender.bind((interface, 0))
        except OSError as fault:
            raise NetworkFault("the group %s:%d can't be joined: %s" % (group[0], group[1], fault)) from fault
        super().__init__("the group %s:%d" % group, bound, sender, [group])
        self.recent: Dict[bytes, None] = {}
        self.own_port = sender.getsockname()[1]
        self.hosts: Dict[str, None] = {}  # the one heard last at the end

    def takes(self, data: bytes, address: Address) -> bool:
        """It is none of ours that the group brings back."""
        if data in self.recent and address[1] == self.own_port:
            return False
        self.hosts.pop(address[0], None)
        self.hosts[address[0]] = None
        if len(self.hosts) > MOST_HOSTS:
            del self.hosts[next(iter(self.hosts))]
        return True

    def send(self, data: bytes) -> bool:
        self.recent[data] = None
        if len(self.recent) > MOST_RECENT:
            del self.recent[next(iter(self.recent))]
        return super().send(data)

    def is_there(self, address: Address) -> bool:
        """Anyone may be in a group."""
        return True

    def may_ask(self, address: Address) -> bool:
        return address[0] in self.hosts


class Peers(UdpCarrier):
    """Listens at one address, and sends to each peer; from others nothing is taken."""

    def __init__(self, listen: Address, peers: List[Address]) -> None:
        bound = udp()
        try:
            bound.bind(listen)
            targets = [(socket.gethostbyname(host), port) for host, port in peers]
        except OSError as fault:
            raise NetworkFault("%s:%d or a peer can't be used: %s" % (listen[0], listen[1], fault)) from fault
        super().__init__("%s:%d, with %d peers" % (listen + (len(peers),)), bound, bound, targets)

    def takes(self, data: bytes, address: Address) -> bool:
        return address in self.targets
