"""The launcher ./wb by a build that is not proved: --try, sessions before the proof is done, --now and --help."""

from __future__ import annotations

import shutil
import time

from .checkout import TOP, Checkout, End, wait_until

BUILDING = "wb: building a program that is not proved yet, which takes a minute or so\n"
NOT_PROVED = "wb: this answer is not of the proved program: it is of a build that is checked while it runs, and not proved\n"


def test_try_answers_without_a_proof_and_says_so(checkout: Checkout) -> None:
    """It is built once, and again where a source has changed."""
    assert checkout.wb("--try", "run", "--workers", "2") == End(3, "slow one run --workers 2\n", BUILDING + NOT_PROVED)
    assert checkout.begun() == ["unproved"]
    checkout.forget()
    assert (checkout.wb("--try", "a").printed, checkout.begun()) == ("slow one a\n", [])
    checkout.main("two")
    assert checkout.wb("--try").printed == "slow two\n"


def test_try_of_a_library_takes_a_folder_and_proves_nothing(checkout: Checkout) -> None:
    assert checkout.wb("--try", "--library") == End(2, "", "wb: --try --library takes a folder, as /usr/local or $HOME/.local\n")
    for part in ("src", "specs", "proofs"):
        checkout.write(f"crates/wb_c/{part}/lib.rt", "stands in")
    shutil.copytree(TOP / "web", checkout.top / "web", ignore=shutil.ignore_patterns("__pycache__"))
    ended = checkout.wb("--try", "--library", str(checkout.room / "made"))
    assert ended.status == 5 and ended.told.startswith("wb: building a library that is not proved, which takes two minutes or so\n")
    assert checkout.begun() == ["unproved --library"]


def test_now_names_what_is_there_at_once(checkout: Checkout) -> None:
    checkout.wb("--try")
    assert checkout.wb("--now").printed == "unproved /tree/out/unproved/wb\n"
    assert "meanwhile, ./wb --try WORDS answers" in checkout.wb().told
    assert checkout.wb("--now").printed == "proved /tree/out/wb\n"


def test_session_is_served_before_anything_is_proved(checkout: Checkout) -> None:
    """It says so; the build is made fast and the proof goes on beside it; and the next session has the proved program."""
    child = checkout.start("host", is_open=True)
    wait_until(lambda: "is proved: the next start" in checkout.told())
    assert "NOT PROVED YET" in checkout.told()
    assert sorted(checkout.begun()) == ["check low", "check middle", "run wb", "unproved", "unproved --fast"]
    assert [f"is proved, {number} of 3 crates" in checkout.told() for number in (1, 2, 3)] == [True] * 3
    assert child.communicate()[0] == "slow one host\n"
    assert checkout.wb("host") == End(4, "one host\n", "")


def test_proof_ends_with_its_session(checkout: Checkout) -> None:
    """How far it is stands in a file. The next start goes on."""
    child = checkout.start("host", is_open=True, SLOW="4")
    progress = checkout.top / "out/progress"
    wait_until(lambda: progress.exists() and progress.read_text() == "0 3 0 low 1 of 2\n")
    child.communicate()
    time.sleep(4.5)
    assert checkout.ended() == []
    checkout.forget()
    assert (checkout.wb().printed, len(checkout.begun())) == ("one\n", 3)


def test_session_waits_for_the_proof_where_the_quick_build_fails(checkout: Checkout) -> None:
    end = checkout.wb("host", BREAKS="yes")
    assert end.printed == "one host\n" and "a reason" in end.told


WORDS = ["./wb --help", "./wb --where", "./wb --now", "./wb --page", "./wb --version", "./wb --install DIR", "./wb --try --library DIR, ./wb --try --page DIR"]


def test_help_tells_the_launchers_words(checkout: Checkout) -> None:
    """It proves and builds nothing."""
    end = checkout.wb("--help")
    assert all(f"    {word}  " in end.printed for word in WORDS) and "WB_JOBS says" in end.printed
    assert end.printed.endswith("./wb --try --help\n") and end.told == "" and checkout.begun() == []


def test_help_begins_with_the_programs_own(checkout: Checkout) -> None:
    """By the build that is not proved, and by the proved one once it is there."""
    checkout.wb("--try")
    told = checkout.wb("--help").printed
    assert told.startswith("slow one --help\n") and all(f"    {word}  " in told for word in WORDS)
    checkout.wb()
    checkout.forget()
    end = checkout.wb("--help")
    assert (end.status, end.printed.splitlines()[0], checkout.begun()) == (0, "one --help", [])
