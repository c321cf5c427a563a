"""A record shown as it went: the same lines to a host, at the pace of their ticks, and nothing is sent. It can be stopped, go faster,
and jump to any moment."""
from __future__ import annotations

from typing import TYPE_CHECKING, Any, Callable, Dict, Iterator, List, Optional, Tuple

from .carriers.carrier import Origin
from .clock import SECOND
from .board import said
from .drawn import Drawn
from .film import Film, scenes_of
from .held import words_in
from .inbox import Arrival
from .record import DIGITS
from .views import Drawop, name_of

if TYPE_CHECKING:
    from .member import Member

# lines that are played before views can look on
MOST_LINES = 100

# microseconds between two tellings of where the film is
TELL_PAUSE = SECOND // 5


class Playing:
    """Stands in the place of a member's judgement: what is done is what the record says, and nothing is drawn."""

    def __init__(self, member: Member, lines: Iterator[str]) -> None:
        self.member = member
        self.film = Film(list(lines), member.board.clock.now)
        self.tell_at = 0
        self.has_twin = False
        member.telling.events.tell("scenes", scenes_of(self.film, member.words))

    def plan(self) -> List[Tuple[int, Callable[[], Any]]]:
        plan: List[Tuple[int, Callable[[], Any]]] = [(self.tell_at, self.tell)]
        due = self.film.due()
        if due is not None:
            plan.append((due, self.play_due))
        return plan if self.member.is_ready else [(0, self.member.people.begin), *plan]

    def tell(self) -> None:
        """Tells where the film is, and how many drawops are missing there."""
        film, drawn = self.film, self.member.drawn
        missing = sum(map(drawn.missing, drawn.pages))
        self.member.telling.events.tell("film", {
            "at": film.at() // 1000, "last": film.last // 1000, "speed": film.speed, "stopped": film.is_stopped, "missing": missing,
        })
        self.tell_at = self.member.board.clock.now() + TELL_PAUSE

    def change(self, at: Optional[float] = None, speed: Optional[float] = None, stopped: Optional[bool] = None) -> Dict[str, Any]:
        """Jumps to the end of a millisecond, so that the last has all; goes faster or slower; stops or goes on."""
        self.film.change(speed, stopped)
        if at is not None:
            self.jump(int(at) * 1000 + 999)
        self.tell()
        return {"at": self.film.at() // 1000}

    def jump(self, moment: int) -> None:
        """A jump back gives a new host the lines from the first on."""
        member = self.member
        if moment < self.film.at():
            member.board.host.end()
            member.board.moment = 0
            member.board.start()
            member.drawn = Drawn()
            member.telling.is_changed = True
            self.film.next = 0
        self.film.begin_at(moment)
        while self.play_due():
            pass

    def play_due(self) -> int:
        """Plays lines that are due, some at a time, and gives how many."""
        lines = self.film.take(MOST_LINES)
        for line in lines:
            self.play(line)
        return len(lines)

    def play(self, line: str) -> None:
        """A drawop of the record comes in or goes out once more. Other lines change nothing that is shown."""
        member, words = self.member, words_in(line)
        if DIGITS.fullmatch(line):
            self.arrive(line.split(" ")[1])
        elif words.startswith("draw "):
            block = member.board.tell("held " + line)
            if said(block, "drew"):
                member.hold(Drawop(words))
            if line != words and block.fault is None:
                member.wire.went(words)

    def arrive(self, digits: str) -> None:
        """A report of an older record is shown as it went by; nothing is done about it."""
        member, told = self.member, self.member.words.of(digits)
        block = member.board.tell("held datagram " + digits)
        if told.words is not None and said(block, "drew"):
            member.hold(Drawop(told.words, digits))
        entry = member.wire.came(Arrival(bytes.fromhex(digits), Origin("record")), told.words)
        member.wire.tell({**entry, "refused": block.fault if name_of(digits) else told.fault})

    def fault_of_drawing(self) -> Optional[str]:
        return "a replay draws nothing"

    def present(self) -> Dict[int, Any]:
        """Nobody is there."""
        return {}

    def is_known(self, origin: Origin) -> bool:
        return True

    def end(self) -> None:
        """There is nothing to end."""
