"""The library libwb: the same blocks as `wb host`, and what its calls owe."""

from __future__ import annotations

import random
import re
import shutil
import subprocess
from pathlib import Path

import pytest

from ..host.program import program
from ..host.sessions import Session
from ..host.test_kept import KeptSession
from ..transcripts import parted, read
from .calls import CALLS, Host
from .conftest import TOP, linked, run

DONE, WAITS, NOT_DONE, CLOSED, MEMORY, OPEN = range(6)
CONVERSATIONS = 60


@pytest.fixture
def host(library: Path) -> Host:
    return Host(library)


# how the header names what the crate warns of, as the words of the line do
WARNED = {"Impostor": "SPEAKS", "ForgedMark": "MARK", "Twin": "TWIN", "NoCell": "FULL", "NoShare": "SHARE"}

# ---- the calls


def test_a_block_is_written_at_the_front(host: Host) -> None:
    assert host.open() == DONE
    assert host.line(b"board 1 100 1 42", 12) == (DONE, 9, b"ok never\n...")
    assert host.line(b"x", 16) == (DONE, 16, b"refused unknown\n")
    host.close()


def test_a_block_without_room_is_kept_until_it_is_fetched(host: Host) -> None:
    host.open()
    assert host.line(b"board 1 100 1 42", 8) == (WAITS, 9, b"........")
    assert host.line(b"board 2 100 1 42", 99)[:2] == (NOT_DONE, 9), "no line is taken before it"
    assert host.block(8) == (WAITS, 9, b"........")
    assert host.block(10) == (DONE, 9, b"ok never\n.")
    assert host.block(10) == (DONE, 0, b".........."), "it is told once"
    assert host.line(b"board 2 100 1 42", 40)[2].startswith(b"refused "), "the first board is open"
    host.close()


def test_a_closed_host_does_nothing(host: Host) -> None:
    assert (host.line(b"known", 4), host.block(4)) == ((CLOSED, 0, b"...."), (CLOSED, 0, b"...."))
    host.close()
    assert (host.open(), host.open()) == (DONE, OPEN)
    host.line(b"board 1 100 1 42", 2)
    host.close()
    assert host.block(20)[0] == CLOSED, "what waited is gone"
    assert (host.open(), host.line(b"board 1 100 1 42", 9)) == (DONE, (DONE, 9, b"ok never\n"))
    host.close()


def test_hosts_know_nothing_of_one_another(library: Path) -> None:
    hosts = [Host(library) for _ in range(20)]
    for number, host in enumerate(hosts):
        assert (host.open(), host.line(b"board %d 100 1 42" % (number + 1), 9)[0]) == (DONE, DONE)
    sent = [host.line(b"say draw %d 1/1 1 0 line 0 0 4 0 *" % (number + 1), 400)[2] for number, host in enumerate(hosts)]
    assert len({it.split(b"\n")[0] for it in sent}) == len(hosts)
    for host in hosts:
        assert host.line(b"show 1 1 5 1", 6)[0] == WAITS
        host.close()


def test_closing_gives_memory_back(host: Host) -> None:
    """Hosts are opened, fed and closed many times, and the process grows by no more than the first ones took."""

    def grown(times: int) -> int:
        for _ in range(times):
            host.open()
            host.line(b"board 1 20000 1 42", 20)
            host.line(b"say draw 1 1/1 1 0 line 0 0 4 0 *", 4)
            host.close()
        return int(re.findall(r"VmRSS:\s+(\d+)", Path("/proc/self/status").read_text())[0])

    first = grown(20)
    assert grown(400) - first < 4000


def test_a_line_too_long_is_refused(host: Host) -> None:
    host.open()
    assert host.line(b" " * 65_536, 16)[2] == b"ok never\n......."
    assert host.line(b" " * 65_537, 16)[2] == b"refused endless\n"
    host.close()


# ---- the same bytes


def by_program(given: bytes) -> bytes:
    return subprocess.run([program(), "host"], input=given, stdout=subprocess.PIPE, timeout=120, check=True).stdout


def by_library(host_in_c: Path, given: bytes) -> bytes:
    return subprocess.run([host_in_c], input=given, stdout=subprocess.PIPE, timeout=120, check=True).stdout


def conversations() -> list[bytes]:
    """Those of the documents, and those that the tests of the host make up."""
    found = [parted(it.text)[0].encode() for page in ("HOST.md", "HOST-LINES.md", "KEEPING.md") for it in read(TOP / "docs" / page)]
    for seed in range(CONVERSATIONS):
        numbers = random.Random(seed)
        found += [session.conversation(80)[0].encode() for session in (Session(numbers), KeptSession(numbers))]
    return found


def test_the_same_blocks_as_the_program(host_in_c: Path) -> None:
    many = 0
    for given in conversations():
        wanted = by_program(given)
        many += wanted.count(b"\n")
        assert by_library(host_in_c, given) == wanted
    assert many > 5000


# ---- what is built over it


PRINTED = {"board": "*****     \ndrawn in C\n", "bytes": "2 drawings came, and a tick is due later\n--|--\n  |  \n  |  \n"}


@pytest.mark.parametrize("example", PRINTED)
def test_examples_in_c(library: Path, compiler: str, tmp_path: Path, example: str) -> None:
    words: list[str | Path] = ["-std=c11", "-D_POSIX_C_SOURCE=200809L", "-Wall", "-Wextra", "-Werror", f"-I{library}/include", TOP / f"examples/c/{example}.c"]
    for name, way in linked(library).items():
        run([compiler, *words, *way, "-o", tmp_path / name])
        assert run([tmp_path / name]) == PRINTED[example]


# each is one misuse of a call, in a function that has a host and a room for 16 bytes
MISUSES = [
    "wb_open(0)",
    "wb_line(&host, 0, 5, room, 16, &size)",
    'wb_line(&host, "pages", 5, 0, 16, &size)',
    'wb_line(&host, "pages", 5, room, 16, 0)',
    'wb_line(&host, "pages", 9, room, 16, &size)',
    'wb_line(&host, "pages", 5, room, 17, &size)',
    "wb_came(&host, 1, room, 42)",
    "wb_event(&host, 0, room, 16, &size)",
    "wb_event(&host, &kind, room, 400, &size)",
]


def warned(words: list[str], call: str) -> str:
    """What the compiler says of a call."""
    given = '#include "wb.h"\nvoid f(void);\nvoid f(void) { wb_host host = WB_HOST_CLOSED; char room[16] = {0}; size_t size = 0; uint32_t kind = 0;'
    made = f"{given} (void)size; (void)kind; (void)room; (void)host; {call}; }}\n"
    ran = subprocess.run([*words, "-Wall", f"-I{TOP}/include", "-xc", "-c", "-o/dev/null", "-"], input=made, stdout=subprocess.PIPE, stderr=subprocess.STDOUT, text=True, check=False)
    return ran.stdout


def test_compilers_warn_of_misuses() -> None:
    compiler = shutil.which("gcc")
    if not compiler:
        pytest.skip("there is no gcc here (apt-get install gcc)")
    words = [compiler, "-std=c11", "-O1"]
    assert [call for call in MISUSES if "warning" not in warned(words, call)] == []
    assert warned(words, 'wb_line(&host, "pages", 5, room, 16, &size)') == ""


def test_version_of_the_header() -> None:
    header = (TOP / "include/wb.h").read_text()
    version = re.findall(r"^## ([0-9.]+)$", (TOP / "CHANGELOG.md").read_text(), re.MULTILINE)[0]
    first, second, third = map(int, version.split("."))
    assert re.findall(r"^#define (WB_VERSION\w*) (.*)$", header, re.MULTILINE) == [
        ("WB_VERSION", f'"{version}"'), ("WB_VERSION_NUMBER", str(10_000 * first + 100 * second + third))]


def test_pkg_config(library: Path) -> None:
    if not shutil.which("pkg-config"):
        pytest.skip("there is no pkg-config here (apt-get install pkg-config)")
    told = run(["env", f"PKG_CONFIG_PATH={library}/lib/pkgconfig", "pkg-config", "--cflags", "--libs", "wb"]).split()
    assert [Path(word[2:]).resolve() if word[:2] in ("-I", "-L") else word for word in told] == [library / "include", library / "lib", "-lwb"]


def test_only_the_calls_are_offered(library: Path, compiler: str) -> None:
    del compiler  # with it comes nm
    told = run(["nm", "-D", "--defined-only", library / "lib/libwb.so.0"])
    assert sorted(line.split()[-1] for line in told.splitlines()) == CALLS
    needed = run(["readelf", "-d", library / "lib/libwb.so.0"])
    assert re.findall(r"(NEEDED|SONAME).*\[(.*)\]", needed) == [("NEEDED", "libc.so.6"), ("SONAME", "libwb.so.0")]
    # of glibc no later version, as the package for Python says
    versions = re.findall(rb"GLIBC_(\d+)\.(\d+)", (library / "lib/libwb.so.0").read_bytes())
    assert max((int(first), int(second)) for first, second in versions) <= (2, 17) and "glibc 2.17 or later" in (TOP / "python/README.md").read_text()


def test_header_is_that_of_the_calls() -> None:
    """The header declares what the crate exports, with as many parameters as C sees: a slice is two, and the allocator none."""
    header, folder = (TOP / "include/wb.h").read_text(), TOP / "crates/wb_c/src"
    declared = {name: len(rest.split(",")) for name, rest in re.findall(r"^(?:uint32_t|uint64_t|void) (wb_\w+)\(([^)]*)\);", header, re.MULTILINE)}
    exported = {}
    for source in ("calls.rt", "by_bytes.rt"):
        for name, rest in re.findall(r'extern "C" fn (\w+)\(([^)]*)\)', (folder / source).read_text()):
            words = [word.split(":")[1] for word in rest.split(",") if ":" in word]
            exported[name] = sum(0 if "Global" in word else 2 if "[u8]" in word else 1 for word in words)
    assert declared == exported and sorted([*exported, "wb_version"]) == CALLS  # which the build writes
    statuses = dict(re.findall(r"^    WB_(\w+) = (\d+)", header.split("enum {")[1], re.MULTILINE))
    assert statuses == dict(re.findall(r"const (\w+): u32 = (\d+);", (folder / "status.rt").read_text()))


def test_header_has_each_event_and_question() -> None:
    header, folder = (TOP / "include/wb.h").read_text(), TOP / "crates/wb_c/src"
    kinds = dict(re.findall(r"^    WB_(\w+) = (\d+)", header.split("enum {")[2], re.MULTILINE))
    judged = (folder / "judged_event.rt").read_text()
    events = re.findall(r"Event::(\w+)(?:\(_\))? => (\d+),", (folder / "event.rt").read_text())
    events += [(name, number) for name, number in re.findall(r"Event::(\w+)(?:\(_\)| \{ \.\. \}) => (\d+),", judged) if name != "Send"]
    assert kinds == {name.upper(): number for name, number in events} and len(kinds) == 17
    asked = re.findall(r"^    WB_ASK_(\w+) = (\d+)", header.split("enum {")[3], re.MULTILINE)
    questions = re.findall(r"question == (\d) \{\s*return (?:Some\(Query::)?(\w+)", (folder / "query.rt").read_text())
    assert asked == [(name.upper(), number) for number, name in questions] and len(asked) == 8


def test_header_has_each_reason_and_warning() -> None:
    header, judged = (TOP / "include/wb.h").read_text(), (TOP / "crates/wb_c/src/judged_event.rt").read_text()
    drops = dict(re.findall(r"^    WB_DROP_(\w+) = (\d+)", header, re.MULTILINE))
    assert drops == {"DATAGRAM": "1", **{name.upper(): number for name, number in re.findall(r"Why::(\w+) => (\d+),", judged)}} and len(drops) == 13
    warned = [WARNED[name] + number for name, number in re.findall(r"Warning::(\w+)(?:\(_\))? => (\d+),", judged)]
    assert warned == [name + number for name, number in re.findall(r"^    WB_WARN_(\w+) = (\d+)", header, re.MULTILINE)] and len(warned) == 5
