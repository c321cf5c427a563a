"""The recipes of docs/LIVE.md, as they stand there, in a network of the test's own."""
from __future__ import annotations

import os
import re
import shlex
import subprocess
import sys
import tempfile
from pathlib import Path
from typing import Dict, List

from ..facts import Facts
from .members import TOP, Process
from .mosquitto import BrokerFiles

# the heading of each recipe, and the broker of the last
RECIPES = ("## On one computer", "## On a LAN, with a key", "## Across the Internet, with a broker")
HOST = "broker.example.org"

# seconds, far fewer than those after which a member that is not heard is forgotten
SOON = 25


def recipe(start: str) -> List[str]:
    """The lines of a recipe: the first commands below its heading."""
    _, _, rest = (TOP / "docs" / "LIVE.md").read_text().partition(start + "\n")
    block = re.search("(?m)(?:^    .*\n)+", rest)
    return [line.strip() for line in block[0].splitlines()] if block else []


def names_of(text: str) -> None:
    """The names of this network alone."""
    with tempfile.NamedTemporaryFile("w", prefix="wb-hosts-", delete=False) as hosts:
        hosts.write(text)
    os.chmod(hosts.name, 0o644)
    subprocess.run(["mount", "--bind", hosts.name, "/etc/hosts"], check=True)
    os.unlink(hosts.name)


def follow(lines: List[str], environment: Dict[str, str]) -> List[Process]:
    """Does what the lines say, one after another; what an invitation leaves out is taken from the one that was printed."""
    members: List[Process] = []
    invitation = ""
    for line in lines:
        words = shlex.split(line, comments=True)
        if words[0] != "./wb-live":
            raise ValueError("%s is no start of wb-live" % line)
        words = [invitation if word.endswith("key=..") and invitation.startswith(word[:-2]) else word for word in words[1:]]
        if "--new-key" in words or "--invite" in words:
            ran = subprocess.run([sys.executable, str(TOP / "wb-live"), *words], stdin=subprocess.DEVNULL, stdout=subprocess.PIPE, text=True, check=True)
            invitation = ran.stdout.split("\n")[0]
        else:
            members.append(Process(words, environment=environment, closed=True))
    return members


def check_recipe(facts: Facts, start: str, environment: Dict[str, str]) -> None:
    lines = recipe(start)
    facts.holds("%s at most five lines" % start, 0 < len(lines) <= 5, lines)
    members = follow(lines, environment)
    try:
        facts("%s two members" % start, len(members), 2)
        facts("%s one draws" % start, members[0].draw("1/1", "line 0 0 3 0 r")[0], 200)
        facts("%s the other shows it" % start, members[1].wait_for(lambda states: states["board"]["rows"] == ["rrrr"]), True)
        if "--broker" in lines[1]:
            members[0].wait_for(lambda states: states["members"]["members"])
            facts("%s the other ends with 0" % start, members.pop().end(), 0)
            facts("%s and its last will is heard" % start, members[0].wait_for(lambda states: not states["members"]["members"], SOON), True)
    finally:
        facts("%s each ends with 0" % start, [member.end() for member in members], [0] * len(members))


def check_recipes(facts: Facts, room: BrokerFiles) -> None:
    """This needs a network with mounts of its own: names, routes and who is trusted are those of the recipes."""
    names_of("127.0.0.1 localhost %s\n" % HOST)
    for words in ("ip link set lo multicast on", "ip route add 239.0.0.0/8 dev lo"):
        subprocess.run(words.split(), check=True)
    here = os.getcwd()
    with tempfile.TemporaryDirectory() as folder:
        for number, start in enumerate(RECIPES):
            place = Path(folder) / str(number)
            place.mkdir()
            os.chdir(place)
            login = place / "me.txt"
            login.touch(0o600)
            login.write_text((room.path / "m1.login").read_text())
            try:
                check_recipe(facts, start, {"SSL_CERT_FILE": str(room.path / "own.pem"), "XDG_STATE_HOME": str(place)})
            finally:
                os.chdir(here)
