"""Runs cases on the reference. README.md says what a step is."""

from __future__ import annotations

import json
from typing import Any, Dict, Iterator

from .reference import Facts, Judge
from .words import datagram_of, name_of, origin_of

FACTS = ("held", "listens", "holds", "above", "top", "lacking")

Step = Dict[str, Any]


def each_of(step: Step) -> Iterator[Step]:
    """The steps that a step with `for` stands for: in each text `{}` is the number, and each is a pause after the one before."""
    if "for" not in step:
        yield step
        return
    first, last, pause = step["for"]
    for number in range(first, last + 1):
        one = {key: value.replace("{}", str(number)) if isinstance(value, str) else value for key, value in step.items() if key != "for"}
        yield {**one, "now": step["now"] + (number - first) * pause}


class Player:
    """One judge, as a case begins it."""

    def __init__(self, start: Dict[str, Any]) -> None:
        self.judge = Judge(start["me"], start["cells"], start["now"], start["wall"], start.get("here"), start.get("strangers"))

    def answer(self, step: Step) -> Any:
        """What a step gives, or None if it only tells something."""
        judge, now = self.judge, step["now"]
        if "came" in step:
            return self.came(step)
        if "add" in step:
            return judge.fault_of_adding(step["add"] == "drawing", step.get("held", 0)) or "ok"
        if "echo" in step:
            echo = judge.own_echo(now)
            return "none" if echo is None else "%d@%d+%d" % (judge.me, *echo)
        if "time" in step:
            return judge.time_of_day(now)
        if "known" in step:
            return judge.is_known(origin_of(step["known"]), now)
        if "heard" in step:
            return step["heard"] in judge.others
        if "strange" in step:
            return len(judge.strange)
        if "pages" in step:
            return judge.order_of([name_of(name) for name in step["pages"]])
        return self.tell(step)

    def came(self, step: Step) -> str:
        """What became of a datagram, in one text."""
        now, origin, datagram = step["now"], origin_of(step["from"]), datagram_of(step["came"])
        verdict = self.judge.judge(origin, datagram, Facts(now, **{key: step[key] for key in FACTS if key in step}))
        if verdict.why is None and datagram.kind == "draw" and datagram.name is not None and not step.get("holds"):
            self.judge.took(origin, datagram.name, now)
        told = ["in" if verdict.why is None else "dropped " + verdict.why]
        told += ["warn " + verdict.warn] if verdict.warn else []
        told += ["fetch %s %d" % (step["from"], step["lacking"])] if verdict.fetch else []
        return ", ".join(told)

    def tell(self, step: Step) -> None:
        judge, now = self.judge, step["now"]
        if "sent" in step:
            judge.reported(now)
        elif "wall" in step:
            judge.tell_time(now, step["wall"])
        elif "gone" in step:
            judge.leave(origin_of(step["gone"]))
        elif "record" in step:
            judge.remember(name_of(step["record"]))
        elif "owner" in step:
            judge.recall(int(step["owner"]), origin_of(step["from"]))
        else:
            raise ValueError(step)


def faults_of(case: Dict[str, Any]) -> Iterator[str]:
    """The steps of a case that give something else."""
    player = Player(case["judge"])
    for step in case["steps"]:
        for one in each_of(step):
            given = player.answer(one)
            if given != one.get("want"):
                yield "%s: %s gives %r" % (case["name"], json.dumps(one), given)
