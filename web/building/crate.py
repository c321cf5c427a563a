"""How `rattle build` is called for the program and for the library: what the toolchain's command rt says to it, but for its folder."""
from __future__ import annotations

from pathlib import Path

from .needs import Missing

TOP = Path(__file__).resolve().parent.parent.parent
PROGRAM, LIBRARY = "wb", "wb_c"

# what tells the two apart: the words for a program, and for a library that C can link
ROOTS = {PROGRAM: ["src/main.rt"], LIBRARY: ["--crate-type", "staticlib", "src/lib.rt"]}


def below() -> dict[str, list[str]]:
    """What each crate stands on, by crates.txt."""
    lines = [line.split(":") for line in (TOP / "crates.txt").read_text().splitlines() if ":" in line and not line.startswith("#")]
    return {crate.split()[0]: names.split() for crate, names in lines}


def folder_of(crate: str) -> Path:
    return TOP / "crates" / crate


def libraries(crates: dict[str, list[str]], crate: str) -> list[str]:
    """The repository's libraries below a crate, each once."""
    found: list[str] = []
    for name in crates[crate]:
        if name in crates:
            found += [it for it in [*libraries(crates, name), name] if it not in found]
    return found


def build_words(kit: Path, crate: str) -> list[str]:
    """The words of `rattle build` for one of the two, to be called in its folder. Missing where a crate below it is not built."""
    crates, words = below(), ["--crate-name", crate, *ROOTS[crate]]
    for name in dict.fromkeys(["std", *(name for name in crates[crate] if name not in crates)]):
        words += ["--extern", "%s=%s/rlibs/%s.rlib" % (name, kit, name)]
    words += ["-L", "dependency=%s/rlibs" % kit]
    for name in libraries(crates, crate):
        rlib = folder_of(name) / "out" / "rlib" / (name + ".rlib")
        if not rlib.exists():
            raise Missing("the crate %s has no %s" % (name, rlib.relative_to(TOP)))
        words += ["--extern", "%s=%s" % (name, rlib)] if name in crates[crate] else []
        words += ["-L", "dependency=%s" % rlib.parent]
    return [*words, "--antt-project", "%s/rattle/logic/antt-project.json" % kit, "--logic-built", "%s/logic_built" % kit, "--jobs", "2",
            "--links", crate + "=", "--backend", "llvm", "--incremental", "out/incremental"]
