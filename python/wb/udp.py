"""Datagrams by UDP, in asyncio: to a multicast group, or from an address of one's own to those of others."""
from __future__ import annotations

import asyncio
import ipaddress
import socket
import struct
from typing import Any, Callable, Iterable, List, Optional, Tuple, cast

Address = Tuple[str, int]

# hops of a datagram to a group: this network alone
HOPS = 1


def group_socket(group: Address, interface: str) -> socket.socket:
    """A socket that hears a multicast group. It hears what it sends itself, too, which does no harm."""
    made = socket.socket(socket.AF_INET, socket.SOCK_DGRAM)
    try:
        made.setsockopt(socket.SOL_SOCKET, socket.SO_REUSEADDR, 1)
        made.bind(group)
        made.setsockopt(socket.IPPROTO_IP, socket.IP_ADD_MEMBERSHIP, struct.pack("=4s4s", socket.inet_aton(group[0]), socket.inet_aton(interface)))
        made.setsockopt(socket.IPPROTO_IP, socket.IP_MULTICAST_IF, socket.inet_aton(interface))
        made.setsockopt(socket.IPPROTO_IP, socket.IP_MULTICAST_TTL, HOPS)
        made.setblocking(False)
    except BaseException:
        made.close()
        raise
    return made


class Udp(asyncio.DatagramProtocol):
    """A transport of a member. `take` is given each datagram that comes, and the number of the place it came from."""

    def __init__(self, take: Callable[[bytes, int], None], to: Iterable[Address]) -> None:
        self.take = take
        self.to: List[Address] = list(to)
        self.socket: Optional[asyncio.DatagramTransport] = None

    @classmethod
    async def open(cls, take: Callable[[bytes, int], None], *, group: Optional[Address] = None, interface: str = "0.0.0.0", bind: Address = ("0.0.0.0", 0),
                   to: Iterable[Address] = ()) -> Udp:
        """Joins a group, as ("239.192.17.1", 8017), or takes an address of its own, which nobody else has. OSError where neither can be had."""
        loop = asyncio.get_running_loop()
        if group:
            _, made = await loop.create_datagram_endpoint(lambda: cls(take, [group] if group else []), sock=group_socket(group, interface))
        else:
            _, made = await loop.create_datagram_endpoint(lambda: cls(take, to), local_addr=bind)
        return made

    def address(self) -> Address:
        """Where this hears."""
        assert self.socket
        host, port = self.socket.get_extra_info("sockname")[:2]
        return host, port

    # ---- what a member calls

    def send(self, datagram: bytes) -> None:
        """To all others."""
        if self.socket and not self.socket.is_closing():
            for address in self.to:
                self.socket.sendto(datagram, address)

    def end(self) -> None:
        if self.socket:
            self.socket.close()

    # ---- what the loop calls

    def connection_made(self, transport: asyncio.BaseTransport) -> None:
        self.socket = cast(asyncio.DatagramTransport, transport)

    def datagram_received(self, data: bytes, addr: Any) -> None:
        self.take(data, place_of(addr))

    def error_received(self, exc: Exception) -> None:
        """A datagram that does not arrive is lost, as any may be."""


def place_of(address: Any) -> int:
    """The number of a place in 64 bits: the address, of which one of IPv6 gives its last part, and the port."""
    return ((int(ipaddress.ip_address(address[0].partition("%")[0])) << 16) + int(address[1])) % 2**64


def addresses(many: Iterable[str]) -> List[Address]:
    """The addresses of texts such as 127.0.0.1:8017."""
    return [(host, int(port)) for host, _, port in (each.rpartition(":") for each in many)]


def is_here(group: Optional[Address] = None, bind: Address = ("0.0.0.0", 0), to: Iterable[Address] = (), **_: Any) -> bool:
    """Whether nobody beyond this machine can hear, or be heard."""
    return group is None and all(host == "localhost" or host.startswith("127.") for host, _ in [bind, *to])
