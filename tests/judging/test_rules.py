"""Each rule of the judgement is held by cases of the table that were written by hand: the reference without it gives something else there. What
each rule answers docs/SECURITY.md tells."""

from __future__ import annotations

import types
from pathlib import Path
from typing import Any, Dict, NamedTuple

import pytest

from . import attacks, numbers, reference, table
from .cases import cases

SOURCE = Path(reference.__file__).read_text()


class Rule(NamedTuple):
    """What the rule is for, its text in the reference, what stands there without it, and a case that fails then."""

    what: str
    text: str
    without: str
    case: str


RULES = [
    # nobody moves our time
    Rule("a stranger's drawop is a minute ahead at most", "(AHEAD_KNOWN if is_known else AHEAD_STRANGER)", "AHEAD_KNOWN", "time is moved by nobody"),
    Rule("a member's is a day ahead at most", "datagram.time > self.time_of_day(facts.now) +", "not is_known and datagram.time > self.time_of_day(facts.now) +", "a late clock sees what members draw"),
    Rule("no drawop sets the time of day", "    def judge_drawop(self, origin: Origin, datagram: Datagram, facts: Facts) -> Verdict:\n",
         "    def judge_drawop(self, origin: Origin, datagram: Datagram, facts: Facts) -> Verdict:\n        self.tell_time(facts.now, max(datagram.time, self.time_of_day(facts.now)))\n", "time is moved by nobody"),
    Rule("a stranger draws under no member's number", "origin.owner is None and self.is_bound_elsewhere(", "False and self.is_bound_elsewhere(", "time is moved by nobody"),
    # streams are for members alone
    Rule("no stream is taken of who has not answered", "if other.answered is None or facts.lacking", "if facts.lacking", "a stream is taken of members alone"),
    Rule("nor from where a forged report came", "if not is_answer and self.is_bound_elsewhere(", "if False and self.is_bound_elsewhere(", "a stream is taken of members alone"),
    # members and strangers
    Rule("reports vouch for nobody", "        self.put(number, other)\n",
         "        self.put(number, other)\n        self.strange = {} if self.is_known(origin, now) else self.strange\n", "a stranger is not vouched for"),
    Rule("an echo is held no longer than it is ago", " and held <= ago + ago // DRIFT", "", "an echo was held no longer than it is ago, and one part in 4,096 of that"),
    Rule("but for what a clock gains", "ago + ago // DRIFT", "ago", "who holds an echo for 96 s by a clock that gains 20 ms meanwhile answers, a millisecond away"),
    Rule("an answer makes known", "        self.known[origin] = now\n        if len", "        if len", "two members alone"),
    Rule("what a member gave before it answered is a member's", "if each != origin}", "}", "two members alone"),
    Rule("what a member gives of who has left is no stranger's", "        if not self.is_known(origin, now):\n            self.strange", "        if origin:\n            self.strange", "who has left is no stranger"),
    Rule("who answers has no share", "if not is_known and self.is_over(origin)", "if self.is_over(origin)", "strangers together have their share"),
    Rule("strangers have a share", "if not is_known and self.is_over(origin)", "if False", "a stranger is not vouched for"),
    Rule("all strangers together have one", "len(given) >= self.most_strange or ", "", "strangers together have their share"),
    Rule("and none under a key", "if strangers is None else strangers", "if not strangers else strangers", "a replay fills no board of a key"),
    # twins
    Rule("a replay of an earlier start is no twin", "if self.answers(datagram, now) and not self.has_twin:", "if not self.has_twin:", "a replay is no twin"),
    Rule("nor is one of this start", "datagram.kind == \"session-message\" and datagram.sent not in self.own", "datagram.kind == \"session-message\"", "a replay is no twin"),
    Rule("nor who echoes an old moment", "ago <= FRESH and held", "held", "an old echo shows no twin"),
    Rule("a twin is told of itself", "            self.aliens[origin] = sent, now\n", "            pass\n", "twins see each other"),
    Rule("also beside noise", "list(self.aliens.values())[now % len(self.aliens)]", "list(self.aliens.values())[-1]", "twins see each other beside noise"),
    Rule("and nobody hides it", "        if len(self.aliens) < MOST_ALIENS:\n", "        if True:\n", "a ninth origin under our number pushes out no other"),
    Rule("who has one draws nothing", "        if self.has_twin:\n            return \"twin\"\n", "", "twins see each other"),
    # pages
    Rule("ours are listed first", "rank = 0 if name.source == self.me else 2", "rank = 2", "pages are not pushed out"),
    Rule("strangers' are listed last", "2 if name in self.strange else 1", "1", "pages are not pushed out"),
    Rule("strangers open few pages", "and self.is_wide(datagram.name)", "and False", "strangers open few pages"),
    # holes below strangers' drawops
    Rule("strangers leave no holes", "and datagram.name.number > facts.top + 1", "and False", "a stranger's great number has nobody ask for those below"),
    Rule("or a member told of it", "and not self.is_told(datagram.name):\n            return Verdict(\"holes\")", "and datagram.name:\n            return Verdict(\"holes\")", "or up to a mark that a member told"),
    Rule("and no stranger", "        if self.is_known(origin, facts.now):\n            self.hear_marks(datagram)\n", "        self.hear_marks(datagram)\n",
         "a stranger's great number has nobody ask for those below"),
    # what is hushed and put off
    Rule("a stranger's copy ends no repair", "not self.hushes(origin, datagram.name, facts.now) else None)", "False else None)", "repairs are not hushed"),
    Rule("nor a member's, if the name is firm", "return self.is_known(origin, now) and not self.is_firm(name, now)", "return self.is_known(origin, now)", "repairs are not hushed"),
    Rule("a stranger's request puts nothing off", "return self.is_known(origin, now) and not self.is_firm(name, now)", "return not self.is_firm(name, now) or not self.is_known(origin, now)", "requests are not put off"),
    Rule("nor a member's, if the name is firm, once more", "Verdict(None if self.hushes(origin, name, facts.now) else \"again\" if is_known", "Verdict(None if is_known", "requests are not put off"),
    # floods
    Rule("strangers' requests are few", "Verdict(None if self.asked.takes(facts.now) else \"flood\")", "Verdict()", "a request storm"),
    Rule("members' too", "        if not self.repairs.takes(now, REPAIRS_OF_ONE if origin == self.served else MOST_REPAIRS):\n            return False\n", "", "requests of one member that floods leave half to others"),
    Rule("and one member leaves half to the others", "REPAIRS_OF_ONE if origin == self.served else MOST_REPAIRS", "MOST_REPAIRS", "requests of one member that floods leave half to others"),
    Rule("new numbers are few", "if not has_room and not (self.answering if is_answer else self.new)", "if not has_room and is_answer and not self.answering", "crowds"),
    Rule("there is room beside one that names many", "NEW_OF_ONE if self.has_number(origin) else None", "None", "a newcomer comes in beside one that names ever more numbers"),
    Rule("who answers finds room beside them", "(self.answering if is_answer else self.new)", "self.new", "who answers finds room"),
    # drawops under our own number
    Rule("a drawop raises no number of ours", "or facts.above or", "or", "a liar stops nobody by drawops"),
    Rule("what a crash lost comes back of a member", "or facts.listens or not is_known", "or facts.listens or is_known", "what a crash lost of ours comes back of a member, once we listen no more"),
    Rule("but of nobody while we listen", "or facts.listens or not is_known", "or not is_known", "what a crash lost of ours comes back of a member, once we listen no more"),
    # names that a network keeps
    Rule("a number is its owner's", "return None not in (owner, origin.owner) and owner != origin.owner", "return False", "names at a broker"),
    Rule("ours is ours", "return self.here if number == self.me else", "return None if number == self.me else", "names at a broker"),
    Rule("who claims a number does not own it", "if other is not None and other.answered is not None else None", "if other is not None else None", "whoever claims a number at a broker keeps it from nobody"),
    Rule("an owner that was silent keeps its number", " or other.origin.owner is not None)", ")", "an owner that was silent keeps its number, also while it claims that from elsewhere"),
    Rule("an owner outlives a start", "            self.put(number, Other(origin, 0, answered=0))\n", "            pass\n", "an owner that the record names is not forgotten over a start"),
    Rule("unless somebody has answered since", "and (other is None or other.answered is None):", "and number:", "whoever answers keeps a number against what the record says later, and who only claims it does not"),
    Rule("a claim is no answer", "and (other is None or other.answered is None):", "and other is None:", "whoever answers keeps a number against what the record says later, and who only claims it does not"),
    Rule("and a record gives nobody ours", "if number != self.me and (other", "if (other", "a record gives nobody our number, and of too many owners the first goes"),
    Rule("and drawops are repairs there", "not is_known and origin.owner is None and self", "not is_known and self", "no drawing is dropped at a broker since another owner answered under its number"),
    Rule("who has gone leaves its numbers", "for number, other in self.others.items() if other.origin != origin}", "for number, other in self.others.items()}", "a name that has gone leaves its numbers"),
]


def judge_without(rule: Rule) -> Any:
    """The reference's judge without a rule."""
    assert SOURCE.count(rule.text) == 1, f"the reference has this text {SOURCE.count(rule.text)} times: {rule.text}"
    module = types.ModuleType(reference.__name__)
    module.__dict__["__package__"] = reference.__package__
    exec(compile(SOURCE.replace(rule.text, rule.without), reference.__file__, "exec"), module.__dict__)
    return module.Judge


def test_table() -> None:
    """Each case has a name of its own, and passes the reference."""
    assert len({case["name"] for case in cases()}) == len(cases()) > 80
    assert [fault for case in cases() for fault in table.faults_of(case)] == []


CASES: Dict[str, Any] = {case["name"]: case for case in [*attacks.cases(), *numbers.cases()]}


@pytest.mark.parametrize("rule", RULES, ids=[rule.what for rule in RULES])
def test_without(rule: Rule, monkeypatch: pytest.MonkeyPatch) -> None:
    """A case passes with the rule, and fails without it."""
    case = CASES[rule.case]
    assert list(table.faults_of(case)) == []
    monkeypatch.setattr(table, "Judge", judge_without(rule))
    assert next(table.faults_of(case), None)
