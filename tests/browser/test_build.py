"""What the build refuses, and the folder that it makes."""
from __future__ import annotations

import json
import re
from functools import partial
from pathlib import Path
from typing import Callable

from web.building import folder, module, narrow, retarget, wasm

from ..facts import Facts
from ..host.program import TOP

HEAD = retarget.FROM_LAYOUT + "\n" + retarget.FROM + "\n"


def fault(act: Callable[[], object]) -> str:
    try:
        act()
    except (retarget.Unknown, wasm.Fault) as told:
        return str(told)
    return "none"


def test_retarget(facts: Facts) -> None:
    """A later toolchain that writes something else is refused by name."""
    attributes = 'attributes #0 = { cold nounwind "probe-stack"="inline-asm" "target-cpu"="x86-64-v2" }\nattributes #1 = { "target-cpu"="x86-64" }\n'
    turned = retarget.retarget(HEAD + attributes)
    facts.holds("a module is for wasm64 then", retarget.TO in turned and retarget.TO_LAYOUT in turned and "x86" not in turned, turned)
    facts.holds("what is not of x86-64 stays", "attributes #0 = { cold nounwind }\nattributes #1 = { nounwind }\n" in turned, turned)
    for name, text in {
        "another triple": HEAD.replace("linux", "other"), "another layout": HEAD.replace("i128:128", "i128:64"),
        "an attribute": HEAD + 'attributes #0 = { "new"="1" }\n', "an instruction": HEAD + "  call void @llvm.x86.rdtsc()\n",
        "assembly": HEAD + '  call void asm sideeffect "nop", ""()\n',
    }.items():
        facts("%s that is not known is refused" % name, fault(partial(retarget.retarget, text)) != "none")
    bound = '  call void asm sideeffect "", "~{memory}"()\n'
    facts("a bound for the compiler stays", retarget.retarget(HEAD + bound).endswith(bound))
    facts("a hint to wait is left out", "pause" in retarget.retarget(HEAD + "  call void @llvm.x86.sse2.pause()\n"), False)


def test_wasm(facts: Facts) -> None:
    for value, spelled in ((0, "00"), (127, "7f"), (128, "8001"), (624485, "e58e26")):
        facts("a number is spelled", wasm.spelled(value).hex(), spelled)
        facts("a number is read", wasm.number(wasm.spelled(value), 0), (value, len(wasm.spelled(value))))
    # a call by a table between a constant of the same byte and a branch by a table
    body = bytes.fromhex("00" "4111" "1a" "110000" "0e020001 00" "0b".replace(" ", ""))
    facts("an indirect call is wrapped, and nothing else", narrow.function(body).hex(), "0041111aa711000" "00e020001000b")
    facts("an instruction of vectors is refused", fault(lambda: narrow.function(bytes.fromhex("00fd0c0b"))) != "none")
    facts("what is no module is refused", fault(lambda: list(wasm.sections(b"no"))), "no module of WebAssembly")


def test_calls_of_tests() -> None:
    """The calls that a module of tests hides get the names that C has for them, and nothing else is shown."""
    hidden = 'define internal i32 @"wb_c::calls::wb_open"(ptr %a) #0 {\n  %b = call i64 @"wb_c::by_bytes::wb_due"(ptr %a)\n}\n'
    other = 'define internal i32 @"wb_c::room::wb_open"(ptr %a) #0 {\n}\n'
    shown = "define i32 @wb_open(ptr %a) #0 {\n  %b = call i64 @wb_due(ptr %a)\n}\n"
    assert module.with_calls(hidden + other) == shown + other


def test_numbers_of_the_library() -> None:
    """The page's script knows the statuses, the events and the fields by the numbers of include/wb.h."""
    script, header = (TOP / "web/member/host.js").read_text(), (TOP / "include/wb.h").read_text()
    known = dict(re.findall(r"WB_(\w+) = (\d+)", header))
    named = dict(re.findall(r"\b([A-Z_]+) = (\d+)[,;]", next(line for line in script.splitlines() if line.startswith("const DONE = "))))
    assert named == {name: known[name] for name in named} and len(named) == 7
    told = re.findall(r"^ +case (\d+): answer\.", script, re.MULTILINE)
    assert told == [known[name] for name in ("SENT", "NEW", "AGAIN", "CLASH", "LEFT", "DROPPED", "RECORD", "DREW", "FETCH", "WARN")]
    for words, kind in (("DROPS", "DROP_"), ("WARNINGS", "WARN_")):
        listed = re.findall(r"'(\w+)'", script.split(f"const {words} = [")[1].split("]")[0])
        assert {kind + word.upper(): str(number) for number, word in enumerate(listed, 1)} == {name: number for name, number in known.items() if name.startswith(kind)}
    refusals = re.findall(r"(\d+): '([\w ]+)'", script.split("const REFUSALS")[1].split(");")[0])
    names = ("NOT_KEPT", "NO_MOMENT", "BACK_IN_TIME", "LISTENING", "OURS", "NUMBERS", "NO_DRAWOP", "NO_QUESTION", "JUDGED", "NOT_JUDGED", "TWIN", "FULL", "NO_TIME")
    assert [number for number, _ in refusals] == [known[name] for name in names]
    assert sorted(re.findall(r"@property \{.*\} (wb_\w+)", script)) == module.CALLS


def check_folder(facts: Facts, page: Path) -> None:
    kept = json.loads((page / "files.js").read_text().split("=", 1)[1].rstrip().rstrip(";"))
    there = {str(path.relative_to(page)) for path in page.rglob("*") if path.is_file()}
    facts("the list has each file", set(kept["files"]) - {"./"}, there - {"files.js", "service.js"})
    index = (page / "index.html").read_text()
    facts.holds("a policy without inline script", "script-src 'self' 'wasm-unsafe-eval';" in index and "unsafe-inline" not in index, index[:400])
    facts("no script and no style stands in the page", re.findall(r"<style|<script(?! type=\"module\" src=)| on\w+=| style=", index), [])
    links = [link for path in page.rglob("*.*") if path.suffix in (".js", ".html", ".css") for link in re.findall(r"(?:src|href|from|import)[=\s(]+['\"](https?:[^'\"]*|/[^'\"]*)", path.read_text())]
    facts("nothing is fetched from elsewhere, and nothing from the root", links, [])
    facts("the modules ask for no functions", [wasm.imported((page / name).read_bytes()) for name in ("wb.wasm", "wb-any.wasm")], [[], []])
    facts("the policy is in the folder's build", folder.POLICY in index, True)


def test_folder_of_the_page(facts: Facts, page: Path) -> None:
    check_folder(facts, page)
