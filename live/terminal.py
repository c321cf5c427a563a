"""The page in a terminal, painted as it changes, and a line at its foot that is typed into."""
from __future__ import annotations

import json
import os
import shutil
import sys
import threading
from concurrent.futures import TimeoutError as TooLate
from typing import Any, Callable, Dict, Iterable, List, Tuple

from .digests import ANOTHER, NOT_YET, SAME
from .events import Events, Watcher
from .ink import FIRST_ROW, read
from .letters import fitting, letter_rows
from .member import Member
from .people import OPERATIONS, Refused
from .telling import notice_of
from .views import Drawop, page_of

HELP = 'line X0 Y0 X1 Y1 GLYPH | frame .. | text X Y "TEXT" | delete SOURCE SEQ | restore .. | undo | page C/N | new | number | who | wire | inks | quit'

# what others hold of the page
HOLDS = {SAME: "same page", NOT_YET: "not yet the same page", ANOTHER: "another page"}

# rows at the foot: the state, what was last said, and the line that is typed
FOOT = 3

# seconds that a line may take
PATIENCE = 10


class Terminal:
    """One thread paints and one reads lines; a lock parts what they write. The member ends with its terminal."""

    def __init__(self, member: Member, events: Events) -> None:
        self.member = member
        self.watcher = Watcher(events)
        self.state: Dict[str, Any] = {"board": {"rows": []}, "health": {}, "members": {"members": []}}
        self.said = notice_of(member)
        self.shows_wire = False
        self.shows_inks = False
        self.inks: Dict[Tuple[int, int], Drawop] = {}  # the ink that the page shows, by source and number
        self.lock = threading.Lock()

    def begin(self) -> None:
        foot = shutil.get_terminal_size().lines
        self.write("\x1b[2J\x1b[%d;%dr\x1b[%d;1H> " % (foot, foot, foot))
        for work in (self.watch, self.read):
            threading.Thread(target=self.until_gone, args=(work,), daemon=True).start()

    def until_gone(self, work: Callable[[], None]) -> None:
        try:
            work()
        except OSError:
            pass  # the terminal is gone
        finally:
            self.member.end()

    def write(self, text: str) -> None:
        with self.lock:
            sys.stdout.write(text.encode(sys.stdout.encoding, "replace").decode(sys.stdout.encoding))
            sys.stdout.flush()

    def end(self) -> None:
        """Gives the terminal back. If it is gone, what was not painted yet goes nowhere, or Python would end with a status for it."""
        try:
            self.write("\x1b[r\x1b[%d;1H\n" % shutil.get_terminal_size().lines)
        except OSError:
            os.dup2(os.open(os.devnull, os.O_WRONLY), sys.stdout.fileno())

    # ---- painting

    def watch(self) -> None:
        while True:
            news = self.watcher.wait(3600)
            if news is None:
                return
            for name, text in news:
                self.take_in(name, json.loads(text))
            if self.shows_wire and "wire" in dict(news):
                self.said = self.state["wire"]["entries"][-1]["words"] or "no datagram"
            self.paint()

    def take_in(self, name: str, value: Dict[str, Any]) -> None:
        """A state, or what changed of the page's rows."""
        if name == "hello" and value["proof"]["text"] != self.state.get("hello", value)["proof"]["text"]:
            self.said = value["proof"]["text"]
        if name == "board":
            self.inks = {}
            self.take_inks(value["drawops"])
        if name != "change":
            self.state[name] = value
            return
        for source, seq in value["names"]:
            self.inks.pop((source, seq), None)
        self.take_inks(drawing for _, drawing in value["added"])
        rows = (self.state["board"]["rows"] + [""] * value["height"])[:value["height"]]
        for y, row in value["rows"].items():
            rows[int(y)] = row
        self.state["board"]["rows"] = rows

    def take_inks(self, drawings: Iterable[Dict[str, Any]]) -> None:
        """Takes note of those that are ink."""
        for drawing in drawings:
            if drawing["op"] == "text" and drawing["y"] >= FIRST_ROW and read(drawing["text"]):
                self.inks[drawing["source"], drawing["seq"]] = Drawop(drawing["words"])

    def rows(self) -> List[str]:
        """The page, or the letters of its ink."""
        rows: List[str] = letter_rows(list(self.inks.values())) if self.shows_inks else self.state["board"]["rows"]
        return rows

    def paint(self) -> None:
        """Paints all rows above the line that is typed, and leaves the cursor where it is."""
        columns, lines = shutil.get_terminal_size()
        height = max(0, lines - FOOT)
        rows = self.rows()[:height]
        rows = rows + [""] * (height - len(rows)) + [self.status(), self.said]
        painted = ["\x1b[%d;1H%s\x1b[K" % (y + 1, fitting(row, columns)) for y, row in enumerate(rows)]
        painted[-2] = "\x1b[%d;1H\x1b[7m%s\x1b[0m\x1b[K" % (height + 1, rows[-2][:columns])
        self.write("\x1b7" + "".join(painted) + "\x1b8")

    def status(self) -> str:
        health, others = self.state["health"], len(self.state["members"]["members"])
        there = "member %d and %d other%s" % (self.member.me, others, "" if others == 1 else "s")
        proof = self.state.get("hello", {}).get("proof", {}).get("progress")
        told = ["page " + health.get("page", ""), health.get("phrase", ""), there, *self.below(), *self.differing(), *health.get("warnings", [])[-1:]]
        return " | ".join((["NOT PROVED YET, " + proof] if proof else []) + told)

    def differing(self) -> List[str]:
        """The members that hold another page than we, and what people can do."""
        others = [str(other["member"]) for other in self.state["members"]["members"] if other["holds"] == ANOTHER]
        return ["ANOTHER PAGE AT %s: somebody drew twice under one name; keep both records, and go on in a new session" % ", ".join(others)] if others else []

    def below(self) -> List[str]:
        """What the rows of the page do not show, if there is any."""
        count = len(self.inks)
        return ["%d ink%s below row %d" % (count, "" if count == 1 else "s", FIRST_ROW)] if count else []

    # ---- what is typed

    def read(self) -> None:
        with open(sys.stdin.fileno(), encoding="utf-8", errors="replace", closefd=False) as typed:
            for line in typed:
                self.said = self.answer(line.strip())
                self.paint()
                self.write("\r\x1b[K> ")

    def answer(self, line: str) -> str:
        """Does what a line says, and gives what to say of it."""
        people, word = self.member.people, line.split(" ", 1)[0]
        commands: Dict[str, Callable[[], str]] = {
            "undo": lambda: str(people.undo().result(PATIENCE)["words"]),
            "page": lambda: "page %s" % people.call(people.turn_to, page_of(line[5:])).result(PATIENCE)["page"],
            "new": lambda: "page %s" % people.call(people.new_page).result(PATIENCE)["page"],
            "number": lambda: "you are member %d now" % people.call(people.renumber).result(PATIENCE)["me"],
            "who": self.who, "wire": self.turn_wire, "inks": self.turn_inks, "quit": self.quit,
        }
        try:
            if word in OPERATIONS:
                return str(people.draw(self.member.page, line).result(PATIENCE)["words"])
            return commands.get(word, lambda: HELP)()
        except (Refused, ValueError, TooLate) as fault:
            return "refused: %s" % (str(fault) or "busy")

    def who(self) -> str:
        def beside(other: Dict[str, Any]) -> List[str]:
            return ([] if other["delay"] is None else ["%.1f ms" % other["delay"]]) + ([HOLDS[other["holds"]]] if other["holds"] else [])

        told = ["%d%s" % (m["member"], " (%s)" % ", ".join(beside(m)) if beside(m) else "") for m in self.state["members"]["members"]]
        return ", ".join(told) or "nobody else is heard"

    def turn_wire(self) -> str:
        self.shows_wire = not self.shows_wire
        return "datagrams are %sshown here" % ("" if self.shows_wire else "not ")

    def turn_inks(self) -> str:
        self.shows_inks = not self.shows_inks
        return "letters of the ink: inks shows the page again" if self.shows_inks else "the page is shown again"

    def quit(self) -> str:
        self.member.end()
        return "ended"
