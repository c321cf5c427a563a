"""A judged host, with its record: what it says is to be recorded is in the record before its datagrams leave, and a host that ended starts
from it."""
from __future__ import annotations

import contextlib
import secrets
import time
from typing import Any, Callable, Dict, Iterable, Iterator, List, Optional, Sequence, Set, Tuple

from wbhost import LINES, Block, Host, HostEnded

from .carriers.carrier import Origin, owner_number
from .clock import SECOND, Clock, wall
from .constants import FEW
from .held import Held, held_of
from .options import Options
from .record import FIRST_LINE, MOST_MOMENT, OWNER, Act, NoRoom, Record, RecordFault, comment, write_record
from .showing import Since
from .views import Drawop, Name, Page, name_in, name_of, name_on
from .waiting import Waiting
from .words import Words

# gets each drawop that the host took in
Listener = Callable[[Drawop], None]

# the part of a page that is painted: the greatest canvas that a host gives
COLUMNS, ROWS = 200, 100

# A number that may have drawn before listens for so long, since someone may hold drawings of it that its record lacks. Any other
# listens to its record alone, which may have a mark of its own.
LISTENING = 6 * SECOND
LEAST_LISTENING = 1

# The clock of each start begins above the record, anywhere in one part in so many of the moments that are left, at one that nobody
# guesses: who echoes a moment of ours has heard it. However often a record is started, moments are left.
LEAD_PART = 512

# a host that is started so often within a minute is not started again
MOST_STARTS = 4

# the lines that tell a host a moment, as the word after their first
MOMENTS = ("judge ", "tick ", "came ", "add ", "wall ", "gone ")

# by how much the time of day may be another than the host reckons
SLACK = SECOND


def nothing(*_: Any) -> None:
    """Nothing is to be done."""


class BoardFault(Exception):
    """The host can't be started again."""


def said(block: Block, kind: str) -> List[str]:
    """What the lines of this kind say that a host printed for a line that acts."""
    return [line[len(kind) + 1:] for line in block.lines if line.startswith(kind + " ")]


class Board:
    """The lines that go to the host, the moment of the last, and the moment at which it has something to do."""

    def __init__(self, program: str, options: Options, record: Record, words: Words, listener: Listener) -> None:
        self.program = program
        self.options = options
        self.record = record
        self.words = words
        self.listener = listener
        self.tuning = FEW  # the constants of the timers, also of the next host
        self.moment = 0
        self.ready_at = 0  # from then on it may draw
        self.begun_at = 0  # the moment of the present host's first
        self.wall_at = self.wall = 0  # a moment, and the time of day that the host was told for it
        self.due: Optional[int] = None
        self.ends: List[float] = []
        self.unkept: List[str] = []  # lines that the record has no room for yet
        self.unsynced: List[str] = []  # lines that it has, and maybe not on the disk
        self.drawn: List[Drawop] = []  # what of these we drew: nothing of it is sent yet
        self.is_broken = False  # the record could not be written
        self.sync_kept: Callable[[], None] = nothing  # puts what is kept elsewhere on the disk, for a record that does not last
        self.strange: Set[Name] = set()  # what of the drawops no member gave, by the lines of the record
        self.owners: Dict[str, str] = {}  # the line of the record that gives a number its owner: the first of each number holds

    def open(self, me: int) -> None:
        """Starts the host: with what the record has, or with a new board. It listens where the number may have drawn what the record lacks."""
        may_have_drawn = not self.record.is_ended() if self.record.size else me == self.options.me
        if self.record.size == 0:
            self.record.add(FIRST_LINE, "board %d %d 1 %d" % (me, self.options.cells, secrets.randbits(64)))
        waiting = Waiting("takes in what its record has")
        given = self.start(LISTENING if may_have_drawn else 0, waiting, 0.0 if self.options.replay else secrets.SystemRandom().random() / LEAD_PART)
        try:
            self.tell_held(given, waiting)
            self.record.add(comment("started"))
            self.record.sync()
        except BaseException:
            self.close()
            raise
        waiting.end()
        self.clock = Clock(self.moment + 1, self.options.speed)

    def start(self, listening: int = 0, waiting: Optional[Waiting] = None, lead: float = 0.0) -> List[Tuple[str, Block]]:
        """Starts a judged host, after this part of the moments that the record leaves, and gives it the lines of the record: each datagram
        with its block."""
        held = held_of(self.program, [*self.record.acts(), *map(Act, self.unkept)])
        self.me, self.cells = map(int, held.board.split()[1:3])
        self.host = Host(self.program, "--tuning", self.tuning)
        try:
            self.begin(held, listening, lead)
            for some in self.parts(held.owners, None, 0):
                self.check_taken(some, self.ask(["held " + line for line in some]))
            blocks = [block for some in self.parts(held.lines, waiting, 0) for block in self.ask(["held " + line for line in some])]
            self.check_taken(held.lines, blocks)
            return list(zip(held.datagrams, blocks))
        except BaseException:
            self.host.end()
            raise

    def begin(self, held: Held, listening: int, lead: float) -> None:
        """Gives a new host its board. RecordFault if it can't have that one."""
        self.begun_at = self.moment = 1 + max(self.moment, held.moment + int(lead * (MOST_MOMENT - held.moment)))
        self.ready_at = self.moment + max(LEAST_LISTENING, listening)
        self.strange, self.owners = held.strange, owners_in(held.owners)
        begun = self.ask([held.board, self.line_to_judge()])
        if any(block.fault is not None for block in begun):
            raise RecordFault("%s: no host can have its board: %s" % (self.record.path, held.board))

    def check_taken(self, lines: List[str], blocks: List[Block]) -> None:
        """RecordFault where the host refused a line of the record: a number would be used twice without it."""
        for line, block in zip(lines, blocks):
            if block.fault is not None:
                raise RecordFault("%s: no host takes a line of it (%s): %s" % (self.record.path, block.fault, line[:60]))

    def line_to_judge(self) -> str:
        """The line that makes a host judge. Under a key nobody is a stranger for long, and what came before is replayed from outside."""
        self.wall, self.wall_at = wall(), self.moment
        here = owner_number(self.options.login.name) if self.options.login else "-"
        return "judge %d %d %d %d %s %s" % (self.moment, self.options.rate, self.ready_at - self.moment, self.wall, here, "0" if self.options.lock else "-")

    def parts(self, many: List[str], waiting: Optional[Waiting], half: int) -> Iterator[List[str]]:
        """Some at a time, and how far the first or the second half of a start is with them."""
        for at in range(0, len(many), LINES):
            if waiting:
                waiting.tell(half * len(many) + at, 2 * len(many))
            yield many[at:at + LINES]

    def ask(self, lines: Sequence[str]) -> List[Block]:
        """The blocks of lines. HostEnded where the host ended."""
        blocks = self.host.ask_all(lines)
        for line, block in zip(lines, blocks):
            if block.fault is None:
                self.due = block.due
                self.moment = int(line.split(" ", 2)[1]) if line.startswith(MOMENTS) else self.moment
        return blocks

    def now(self) -> int:
        """The present moment, above that of each line so far."""
        return max(self.clock.now(), self.moment + 1)

    def tell_held(self, given: List[Tuple[str, Block]], waiting: Waiting) -> None:
        """Tells the drawops that a host was given at its start."""
        for some in self.parts([each for each, block in given if said(block, "drew")], waiting, 1):
            for each, told in zip(some, self.words.all(some)):
                if told.words is not None:
                    self.listener(Drawop(told.words, each))

    def start_again(self) -> None:
        """Starts a host in the place of one that ended or said nothing for too long."""
        now = time.monotonic()
        self.ends.append(now)
        self.host.end()
        if sum(now - end < 60 for end in self.ends) >= MOST_STARTS:
            raise BoardFault("the host ended %d times within a minute" % MOST_STARTS)
        self.start(self.ready_at - self.moment)

    def begin_again(self) -> None:
        """Goes on by a new host, which has what the record has, and asks at once, without the waits that have grown."""
        self.host.end()
        try:
            self.start(self.ready_at - self.moment)
        except HostEnded:
            self.start_again()

    def change_over(self, program: str) -> None:
        """Goes on by a new host, of this program, from the record. HostEnded if that one ended, and the program before goes on."""
        before, self.program = self.program, program
        self.host.end()
        try:
            self.start(self.ready_at - self.moment)
        except HostEnded:
            self.program = before
            self.start_again()
            raise

    # ---- lines

    def tell(self, line: str) -> Block:
        """The block of a line. HostEnded where the host ended and was started again."""
        return self.tell_all([line])[0]

    def tell_all(self, lines: Sequence[str]) -> List[Block]:
        try:
            return self.ask(lines)
        except HostEnded:
            self.start_again()
            raise

    def tune(self, constants: str) -> None:
        """Gives the timers other constants. What is set already keeps its moment."""
        self.tuning = constants
        self.tell("tuning " + constants.replace(",", " "))

    def act(self, lines: Sequence[str], without: Tuple[str, ...] = ()) -> List[Block]:
        """The blocks of lines of others and of the clock. What they record is recorded, but for lines that begin so."""
        blocks = self.tell_all(lines)
        self.keep([line for block in blocks for line in said(block, "record") if not line.startswith(without)])
        return blocks

    def came(self, many: Sequence[str], origin: Origin) -> List[Block]:
        """Gives the host datagrams that came in from there. An owner whose name does not last is none at the next start."""
        now = self.now()
        return self.act(["came %d %s %s" % (now, origin.word, digits) for digits in many], () if origin.lasts else (OWNER,))

    def take(self, drawops: Sequence[Drawop], origin: Origin) -> List[Block]:
        """Gives the host drawops that came in from there. The listener gets those that are new."""
        blocks = self.came([drawop.digits for drawop in drawops], origin)
        for drawop, block in zip(drawops, blocks):
            if said(block, "drew"):
                self.listener(drawop)
        return blocks

    def take_over(self, drawops: List[Drawop], strange: Set[Name]) -> None:
        """Takes in what another member of this program holds, and what of it no member gave."""
        lines = [line_of(drawop, strange) for drawop in drawops]
        blocks = self.tell_all(["held " + line for line in lines])
        new = [(drawop, line) for drawop, line, block in zip(drawops, lines, blocks) if said(block, "drew")]
        self.keep([line for _, line in new])
        for drawop, _ in new:
            self.listener(drawop)

    def begin_with(self, lines: List[str], told: bytes, strange: Set[Name]) -> None:
        """Takes in what another member of this program holds, as at a start from a record, before all else: lines, and the same after `held`."""
        self.strange, self.owners, self.record.given = set(strange), owners_in(lines), lines
        try:
            printed = self.host.take_all(told)
        except HostEnded:
            return self.start_again()
        if [line[:5] for line in printed].count(b"drew ") < len(lines) - len(self.owners):
            raise BoardFault("the host did not take what another holds")
        self.due = self.host.due

    def line_of_time(self, now: int, time_of_day: int) -> str:
        """The line that gives the host the time of day at a moment."""
        self.wall, self.wall_at = time_of_day, now
        return "wall %d %d" % (now, time_of_day)

    def is_wrong(self) -> bool:
        """Whether the host reckons with another time of day than this machine's."""
        return abs(self.wall + self.now() - self.wall_at - wall()) > SLACK

    def draw(self, page: Page, time_of_day: int, operation: str, keep: Listener = nothing) -> Tuple[Block, Optional[Drawop]]:
        """Has the host draw, which gives a drawing its number and its time, has it kept elsewhere, and puts it into the record. NoRoom where either
        can't have it: then a host starts that has not drawn it, and its number is free. Nothing of the block is sent before `settle`."""
        self.find_room()
        now = self.now()
        before, block = self.tell_all([self.line_of_time(now, time_of_day), "add %d %d/%d %s" % (now, *page, operation)])
        block = block._replace(lines=before.lines + block.lines)
        lines = said(block, "record")
        drawop = next((Drawop(line[4:]) for line in lines if line.startswith("say ")), None)
        try:
            if drawop:
                drawop.digits = next(each for each in block.sent() if name_of(each) == drawop.name)
                self.is_broken = True
                keep(drawop)
            self.write(lines)
        except NoRoom:
            self.is_broken = True
            self.begin_again()
            raise
        self.drawn += [drawop] if drawop else []
        return block, drawop

    def settle(self) -> None:
        """Puts what was drawn on the disk, all by one sync; then it may be sent. NoRoom where the disk does not take it: then it is as if it was
        never drawn, also to the host, and nobody was told of its numbers."""
        drawn, self.drawn = self.drawn, []
        try:
            self.flush()
        except NoRoom:
            self.begin_again()
            raise
        for drawop in drawn:
            self.listener(drawop)

    def find_room(self) -> None:
        """NoRoom where the record can't be written, also for what came before."""
        self.keep([])
        if self.unkept:
            raise NoRoom("no room")
        if self.is_broken:
            self.write([comment("there is room again")])
            if not self.drawn:
                self.flush()

    def keep(self, lines: List[str]) -> None:
        """Puts lines into the record, and those before them for which there was no room."""
        for line in lines:
            self.note_giver(line)
        for number, line in owners_in(lines).items():
            self.owners.setdefault(number, line)
        self.unkept += lines
        try:
            self.write(self.unkept)
            self.unkept = []
        except NoRoom:
            pass

    def note_giver(self, line: str) -> None:
        """What others gave stands in the record in words if no member gave it."""
        name = name_in(line) if line.startswith("draw ") else None
        if name:
            self.strange.add(name)
        elif line.startswith("datagram "):
            self.strange.difference_update([name_of(line[9:])])

    def write(self, lines: List[str]) -> None:
        if lines:
            self.is_broken = True
            self.record.add(*lines)
            self.unsynced += lines
            self.is_broken = False

    def flush(self) -> None:
        """Puts what is written on the disk. Where that takes nothing, what others gave is written again later, and what we drew is not."""
        unsynced, self.unsynced = self.unsynced, []
        try:
            self.sync_kept()
            self.record.sync()
        except NoRoom:
            self.is_broken = True
            self.record.cut(self.record.synced)
            self.unkept = [line for line in unsynced if not line.startswith("say ")] + self.unkept
            raise

    def sync(self) -> None:
        """Puts what is kept on the disk, and tries again what could not be kept."""
        self.keep([])
        with contextlib.suppress(NoRoom):
            self.flush()

    def renumber(self, me: int, path: Optional[str], held: List[Drawop]) -> None:
        """Goes on under another number, with a record of its own and with all that was held. NoRoom, RecordFault or OSError if there is no
        room for that record: then all stays as it is."""
        head = [FIRST_LINE, "board %d %d 1 %d" % (me, self.cells, secrets.randbits(64))]
        lines = [*head, *self.owners.values(), "tick %d" % self.moment, *(line_of(drawop, self.strange) for drawop in held)]
        before, self.record = self.record, write_record(path, lines)
        self.unkept, self.unsynced, self.ready_at = [], [], self.moment
        if path == before.path:
            before.close()
        else:
            with contextlib.suppress(OSError):  # a folder that lets nothing go keeps a record that nobody has
                before.remove()
        self.begin_again()

    def end(self) -> None:
        """The member ends as it should. Unless a line found no room, nothing is lost."""
        self.keep([])
        if not self.unkept:
            self.record.end()
        self.close()

    def close(self) -> None:
        """Nothing of it stays behind."""
        self.host.end()
        self.record.close()

    # ---- questions

    def view(self, page: Page) -> List[Name]:
        """The names of the drawings that a page shows, in the order of display."""
        return [name for name in map(name_in, self.tell("view %d %d" % page).lines[1:]) if name]

    def since(self, page: Page, held: int) -> Since:
        """What a page shows otherwise than when the host held `held` drawops."""
        head, *lines = self.tell("since %d %d %d" % (*page, held)).lines
        told = [line.split(" ", 2) for line in lines]
        gone = {(int(source), page, int(seq)) for word, source, seq in told if word == "hidden"}
        return Since(int(head.split(" ")[1]), gone, [(int(place), name_on(page, words), words) for word, place, words in told if word == "shown"])

    def digest(self, page: Page) -> bytes:
        """The digest of what is held of a page."""
        return bytes.fromhex(self.tell("digest %d %d" % page).lines[0][7:])

    def pages(self, most: int) -> List[Page]:
        """The first `most` of the pages that are drawn on: first those of ours, then those of members, and of each kind first those drawn on last."""
        return [(int(creator), int(number)) for creator, number, _ in (line.split(" ") for line in self.tell("list %d" % most).lines[1:])]

    def canvas(self, page: Page) -> List[str]:
        """The rows of a page, without what is empty at their right and at the end."""
        rows = [row[1:].rstrip(" ") for row in self.tell("paint %d %d %d %d" % (page + (COLUMNS, ROWS))).lines[1:]]
        while rows and not rows[-1]:
            rows.pop()
        return rows


def owners_in(lines: Iterable[str]) -> Dict[str, str]:
    """The lines of a record that give numbers their owners, by the number: of each the first."""
    owners: Dict[str, str] = {}
    for line in lines:
        if line.startswith(OWNER):
            owners.setdefault(line.split(" ")[1], line)
    return owners


def line_of(drawop: Drawop, strange: Set[Name]) -> str:
    """The line of a record for what others gave: in words if no member did."""
    return drawop.words if drawop.name in strange else "datagram " + drawop.digits
