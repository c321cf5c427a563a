"""Hosts that are spoken to line by line, and a session in which a drawing was lost."""

from __future__ import annotations

from ..host.program import Dialog

PAGE, PLACE = "7/1", "7 1"
ASKING_WAIT, ANSWERING_WAIT, QUIET_WAIT = 2**45, 2**29, 2**26
MOST_DIGITS = 65_526  # of `datagram HEX`, whose line has 65,536 bytes at most


class Host:
    """A host that is spoken to by one line at a time; it keeps what it last printed, and when a timer is due."""

    def __init__(self, member: int, cells: int = 100) -> None:
        self.member = member
        self.now = 0
        self.due: str = "never"
        self.dialog = Dialog()
        self.tell(f"board {member} {cells} 1 {member * 1_000 + 7}")

    def tell(self, line: str) -> list[str]:
        """Its block without the line that closes it. A refused line has that line alone."""
        block = self.dialog.ask(line).splitlines()
        if block[-1].startswith("ok "):
            self.due = block.pop().removeprefix("ok ")
        return block

    def tick(self, now: int) -> list[str]:
        self.now = now
        return self.tell(f"tick {now}")

    def sends(self, line: str) -> list[str]:
        """The datagrams that it sends for a line."""
        return [told.removeprefix("send ") for told in self.tell(line) if told.startswith("send ")]

    def draw(self, number: int) -> str:
        """A drawing of its own, as it is sent."""
        return self.sends(f"say draw {self.member} {PAGE} {number} {number} line 0 {number} 4 {number} *")[0]

    def shows(self) -> tuple[list[str], list[str], str]:
        """Its report and its gaps of the page, and its canvas, whose rows may look like any line."""
        report, gaps = self.tell(f"report {PLACE}"), self.tell(f"gaps {PLACE}")
        self.dialog.give(f"show {PLACE} 8 5\n".encode())
        canvas = b"".join(self.dialog.line() for _ in range(5))
        self.dialog.block()
        return report, gaps, canvas.decode()


def request(asker: int, number: int) -> str:
    return f"request {asker} 7 {PAGE} {number}"


def lost_to_the_first() -> tuple[Host, Host, Host, list[str]]:
    """Members 1 and 8, and member 7, which drew three: the second was lost on its way to 1, and came to 8 twice."""
    first, source, holder = Host(1), Host(7), Host(8)
    drawn = [source.draw(number) for number in (1, 2, 3)]
    for number in (0, 2):
        first.tell(f"datagram {drawn[number]}")
    for number in (0, 1, 1, 2):
        holder.tell(f"datagram {drawn[number]}")
    return first, source, holder, drawn


def answers(holder: Host) -> None:
    """A request comes to the holder at its moment, and is answered; what it answers is lost."""
    holder.tell(request(9, 2))
    holder.tick(int(holder.due))


class Kept(Host):
    """A self-managing host."""

    def __init__(self, member: int) -> None:
        super().__init__(member)
        self.tell("keep 4000 0")

    def came(self, now: int, datagram: str) -> list[str]:
        self.now = now
        return self.tell(f"came {now} {datagram}")

    def adds(self, number: int) -> str:
        """Its next drawing, as it is sent: the last of what the line sends."""
        return self.sends(f"add {self.now} {number} {PAGE} line 0 {number} 4 {number} *")[-1]

    def ticks(self, now: int) -> list[str]:
        """The datagrams that it sends as time goes on."""
        return [told.removeprefix("send ") for told in self.tick(now) if told.startswith("send ")]


class Judged(Host):
    """A judged host, told the moment in each line."""

    def __init__(self, member: int) -> None:
        super().__init__(member, 4_096)
        self.tell("judge 1 4096 0 1764000000000000 - -")
