"""The launcher ./wb: when it proves and builds, what it says, and how it ends."""

from __future__ import annotations

import os
import shutil
import signal
import subprocess
import time
from pathlib import Path

import pytest

from .checkout import Checkout, End, wait_until

ALL = ["check low", "check middle", "run wb"]


def test_first_start_builds_and_runs(checkout: Checkout) -> None:
    end = checkout.wb("a", "b c")
    assert (end.status, end.printed) == (4, "one a b c\n")
    assert checkout.begun() == ALL, "lowest first, and only what the program stands on"


def test_second_start_only_runs(built: Checkout) -> None:
    assert built.wb() == End(4, "one\n", "")
    built.touch("crates/low/src/lib.rt")
    assert built.wb() == End(4, "one\n", ""), "a source was only touched"
    built.append("crates/other/src/lib.rt")
    assert built.wb() == End(4, "one\n", ""), "it does not stand on that crate"
    assert built.begun() == []


def test_changed_source_is_proved_again(built: Checkout) -> None:
    built.append("crates/low/src/lib.rt")
    assert " min" not in built.wb().told
    assert built.begun() == ALL


def test_source_that_is_older_than_the_program_is_noticed(built: Checkout) -> None:
    """As after the checkout of an earlier commit."""
    built.main("old")
    built.touch("crates/wb/src/main.rt", 978_307_200)
    assert built.wb().printed == "old\n"


def test_source_with_another_name_is_noticed(built: Checkout) -> None:
    source = built.top / "crates/low/src/lib.rt"
    source.rename(source.with_name("other.rt"))
    built.touch("crates/low/src/other.rt", 978_307_200)
    assert built.wb().printed == "one\n"
    assert built.begun() == ALL


def test_another_toolchain_is_noticed_and_named(built: Checkout) -> None:
    built.kit("kit two")
    assert "kit two, and it was kit one" in built.wb().told
    assert built.begun() == ALL


@pytest.fixture
def few_commands(tmp_path: Path) -> str:
    """A PATH without the toolchain."""
    folder = tmp_path / "fewer"
    folder.mkdir()
    for command in "bash sh awk basename cat cut dirname find grep head mkdir readlink sed sha256sum sort tail xargs flock date".split():
        path = shutil.which(command, path="/usr/bin:/bin")
        assert path, command
        (folder / command).symlink_to(path)
    return str(folder)


def test_built_program_starts_without_a_toolchain(built: Checkout, few_commands: str) -> None:
    assert built.wb(PATH=few_commands) == End(4, "one\n", "")


def test_what_was_not_built_needs_the_toolchain(checkout: Checkout, few_commands: str) -> None:
    assert checkout.wb(PATH=few_commands) == End(5, "", "wb: the program has to be built first, and there is no command rt of the toolchain\n")


def test_edit_made_while_it_builds_is_seen_at_the_next_start(checkout: Checkout) -> None:
    """It is made after the source was read, and before the end."""
    assert checkout.wb(EDITS="yes").printed == "one\n"
    assert checkout.wb().printed == "late\n"


def test_edit_that_is_taken_back_while_it_builds(checkout: Checkout) -> None:
    """It is no reason to start the other program."""
    checkout.main("edited")
    child = checkout.start(SLOW="0.5")
    checkout.wait_for_call("run wb")
    time.sleep(0.2)
    checkout.main("one")
    child.communicate()
    assert checkout.wb().printed == "one\n"


def test_symbolic_link_starts_it(checkout: Checkout, tmp_path: Path) -> None:
    link = tmp_path / "elsewhere" / "wb"
    link.parent.mkdir()
    link.symlink_to(checkout.top / "wb")
    assert checkout.wb(by=link).printed == "one\n"
    assert list(link.parent.iterdir()) == [link]


def test_checkout_that_can_not_be_written(checkout: Checkout) -> None:
    checkout.write("out", "in the way")
    assert checkout.wb() == End(5, "", "wb: the program has to be built first, and /tree/out can't be written\n")


def test_two_starts_at_once_build_once(checkout: Checkout) -> None:
    children = [checkout.start(SLOW="0.3") for _ in range(2)]
    assert [child.communicate()[0] for child in children] == ["one\n", "one\n"]
    assert checkout.begun() == ALL


def test_crate_that_is_not_proved_stops_it(checkout: Checkout) -> None:
    """With its log; and it is tried again."""
    checkout.write("crates/middle/src/lib.rt", "wrong")
    end = checkout.wb()
    assert end.status == 5 and "error: middle is wrong" in end.told and "middle is not proved" in end.told
    checkout.write("crates/middle/src/lib.rt", "right")
    assert checkout.wb().printed == "one\n"


def test_two_starts_in_one_pipe_prove_a_failing_crate_once(checkout: Checkout) -> None:
    """One says what it waits for, and what came of it."""
    checkout.write("crates/middle/src/lib.rt", "wrong")
    command = ["bash", "-c", './wb a 2>"$0/first" | ./wb b 2>"$0/second"; echo "${PIPESTATUS[*]}"', str(checkout.room)]
    ran = subprocess.run(command, cwd=checkout.top, env=checkout.environment(SLOW="0.3"), stdin=subprocess.DEVNULL, stdout=subprocess.PIPE, text=True, check=True)
    assert (ran.stdout, checkout.begun().count("check middle")) == ("5 5\n", 1)
    told = (checkout.room / "first").read_text() + (checkout.room / "second").read_text()
    assert "another start, process " in told and "proves the program: waiting" in told and "another start found that middle is not proved" in told


@pytest.mark.parametrize("number", [signal.SIGINT, signal.SIGTERM, signal.SIGHUP, signal.SIGKILL])
def test_signal_ends_it_and_its_provers(checkout: Checkout, number: signal.Signals) -> None:
    """Ctrl-C reaches the group of a terminal's foreground, and the others the launcher alone. The next start builds."""
    child = checkout.start(own_group=True, SLOW="1")
    checkout.wait_for_call("check low")
    if number == signal.SIGINT:
        os.killpg(child.pid, number)
    else:
        child.send_signal(number)
    assert child.wait() == -number
    time.sleep(1.3)
    assert (checkout.begun(), checkout.ended()) == (["check low"], []), "a prover is left at work"
    checkout.forget()
    assert (checkout.wb().printed, checkout.begun()) == ("one\n", ALL)


def test_end_of_an_earlier_prover_is_not_taken_for_this_ones(checkout: Checkout) -> None:
    """A start that is interrupted, an edit that is wrong, and a start while what was left of the first could still end."""
    child = checkout.start(SLOW="0.6")
    checkout.wait_for_call("check low")
    child.kill()
    child.wait()
    checkout.write("crates/low/src/lib.rt", "wrong")
    assert checkout.wb(SLOW="1").status == 5


def test_where_prints_a_program_that_runs_by_itself(checkout: Checkout) -> None:
    path = checkout.wb("--where").printed
    assert path == "/tree/out/wb\n"
    alone = shutil.copy(checkout.top / "out/wb", checkout.room / "alone")
    assert subprocess.run([alone, "x"], stdout=subprocess.PIPE, text=True, check=False).stdout == "one x\n"


def test_crates_are_told_on_a_pipe(checkout: Checkout) -> None:
    told = [line for line in checkout.wb().told.splitlines() if "is proved" in line]
    assert told == ["wb: low is proved, 1 of 3 crates", "wb: middle is proved, 2 of 3 crates", "wb: wb is proved, 3 of 3 crates"]


def test_minutes_of_the_first_time_are_told_when_it_is_built_anew(built: Checkout) -> None:
    assert (built.top / "out/minutes").read_text() == "1\n"
    (built.top / "out/wb").unlink()
    assert "which took 1 min from nothing" in built.wb().told


@pytest.mark.parametrize("memory, jobs", [(9_300_000, 3), (90_000_000, 8), (2_000_000, 1)])
def test_proof_takes_as_many_processors_as_memory_is_for(checkout: Checkout, memory: int, jobs: int) -> None:
    """And at most eight of sixteen."""
    set_memory(checkout, memory)
    checkout.wb()
    assert set((checkout.room / "jobs").read_text().splitlines()) == {f"--jobs {jobs}"}


def set_memory(checkout: Checkout, kilobytes: int) -> None:
    (checkout.room / "memory").write_text(f"MemAvailable:    {kilobytes} kB\n")
    (checkout.bin / "nproc").write_text("#!/bin/sh\necho 16\n")
    (checkout.bin / "nproc").chmod(0o755)
    for script in (checkout.top / "tools").glob("*.bash"):
        text = script.read_text()
        script.write_text(text.replace("/proc/meminfo", str(checkout.room / "memory")).replace("/sys/fs/cgroup/memory.max", str(checkout.room / "none")))


def test_number_of_processors_goes_before_memory(checkout: Checkout) -> None:
    set_memory(checkout, 2_000_000)
    checkout.wb(WB_JOBS="2")
    assert set((checkout.room / "jobs").read_text().splitlines()) == {"--jobs 2"}
    shutil.rmtree(checkout.top / "out")
    assert checkout.wb(WB_JOBS="many") == End(5, "", "wb: WB_JOBS is a number from 1 to 99\n")


def test_start_while_the_gate_runs_takes_the_program_from_before(built: Checkout) -> None:
    """./test holds the lock of a crate's folder, and sets aside what was built, as the toolchain's gate does."""
    (built.top / "crates/wb/out").rename(built.room / "aside")
    ran = subprocess.run(["flock", "crates/low", "./wb"], cwd=built.top, env=built.environment(), capture_output=True, text=True, timeout=30, check=False)
    assert (ran.stdout, ran.stderr, built.begun()) == ("one\n", "", [])


def test_start_with_a_changed_source_waits_for_the_gate(built: Checkout) -> None:
    built.main("two")
    gate = built.start(command=["flock", "crates/low", "sh", "-c", 'touch "$0/held"; until [ -e "$0/free" ]; do sleep 0.1; done; echo gate >>"$CALLS"', str(built.room)])
    wait_until((built.room / "held").exists)
    child = built.start()
    wait_until(lambda: "at work in crates/low, ./test perhaps: waiting" in built.told())
    (built.room / "free").touch()
    assert child.communicate()[0] == "two\n"
    gate.wait()
    assert built.begun()[0] == "gate"
