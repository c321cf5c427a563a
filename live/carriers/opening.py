"""The carrier that the words ask for, and what else a member needs of its network."""
from __future__ import annotations

from typing import TYPE_CHECKING, Optional, Tuple

from .carrier import Carrier, Nobody
from .mqtt import GONE, BrokerSession, MqttCarrier
from .sealed import Seal, Sealed
from .udp import Group, Peers, Ports, UdpCarrier

if TYPE_CHECKING:
    from ..options import Options


def open_udp(options: Options) -> UdpCarrier:
    if options.lan:
        return Group(options.lan, options.interface)
    if options.listen:
        return Peers(options.listen, options.peer)
    return Ports(options.ports)


def open_broker(options: Options, me: int, seal: Optional[Seal]) -> MqttCarrier:
    """A member speaks under its name at the broker; if the broker asks for none, under its number."""
    assert options.broker is not None
    name = options.login.name if options.login else "%d" % me
    will = seal.will() if seal else GONE + name.encode()
    return MqttCarrier(BrokerSession(options.broker, options.session, name, options.login, options.ca), will)


def open_network(options: Options, me: int) -> Tuple[Carrier, Optional[UdpCarrier], Optional[Seal]]:
    """The network of the words, for the member of this number; the carrier by UDP beside which streams can be had; and the key that seals both."""
    if options.is_alone:
        return Nobody("a class of its own"), None, None
    seal = Seal(options.lock, options.session) if options.lock else None
    udp = None if options.broker else open_udp(options)
    carrier: Carrier = udp or open_broker(options, me, seal)
    return Sealed(carrier, seal) if seal else carrier, udp, seal
