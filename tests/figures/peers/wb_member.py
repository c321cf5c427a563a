"""A member of wb in a session of the comparison, by the package of python/: wb_member.py NUMBER PORT [CONSTANTS]

PORT is its place at the hub; the constants are those of the timers, as 2,8,1,6. Without them the member takes those that a member of wb-live takes
on a LAN, by how many others it hears. group.py tells what it reads and prints.
"""

from __future__ import annotations

import asyncio
import struct
import sys
import time

import wb
from live.constants import FEW, NEAR, constants_for

PAGE = "1/1"
SESSION = b"WB\x01\x02"  # how a session message begins; its sender stands at NAME_AT
NAME = struct.Struct(">I8xI")  # in a datagram: the source, and the number of its drawop
NAME_AT = 8


class Watched(wb.Host):
    """A host that tells which drawops came in that are new. `constants` are those that it has for good, if there are any."""

    constants = ""

    def begin(self, constants: str) -> None:
        self.heard: set[bytes] = set()
        self.now, self.constants = constants or FEW, constants
        self.have(self.now)

    def have(self, constants: str) -> None:
        c1, c2, d1, d2 = map(int, constants.split(","))
        self.tune(c1, c2, d1, d2)

    def came(self, now: int, datagram: bytes, place: int = 0) -> wb.Answer:
        answer = super().came(now, datagram, place)
        if answer.became is wb.Became.NEW:
            print("has", *NAME.unpack_from(datagram, NAME_AT), time.monotonic_ns(), flush=True)
        if datagram.startswith(SESSION) and not self.constants:
            self.hear(datagram[NAME_AT:NAME_AT + 4])
        return answer

    def hear(self, sender: bytes) -> None:
        """The constants go by how many are heard."""
        self.heard.add(sender)
        before, self.now = self.now, constants_for(len(self.heard), self.now, NEAR)
        if self.now != before:
            self.have(self.now)


async def draw(member: wb.Member, number: int) -> None:
    """Draws once for each line of its input."""
    lines = asyncio.StreamReader()
    await asyncio.get_running_loop().connect_read_pipe(lambda: asyncio.StreamReaderProtocol(lines), sys.stdin)
    drawn = 0
    async for _ in lines:
        drawn, now = drawn + 1, time.monotonic_ns()
        member.draw(PAGE, f"line {drawn % 80} 0 {drawn % 80} 24 *")
        print("drew", number, drawn, now, flush=True)


async def main(number: int, port: int, constants: str) -> None:
    host = Watched(number, seed=number, listen=0)
    host.begin(constants)
    async with await wb.Member.open(host, bind=("127.0.0.1", 0), to=[("127.0.0.1", port)]) as member:
        print("hears", member.address()[1], flush=True)
        await draw(member, number)


if __name__ == "__main__":
    asyncio.run(main(int(sys.argv[1]), int(sys.argv[2]), sys.argv[3] if len(sys.argv) > 3 else ""))
