"""What the build takes, looked for before anything is begun."""
from __future__ import annotations

import os
import re
import shutil
import subprocess
from dataclasses import dataclass
from pathlib import Path

# the tools of the toolchain's folder; the compiler goes under a third name as the linker of WebAssembly
TOOLS = ("clang", "ld.lld", "llvm-ar")

# the first Binaryen that has the passes and the names of them that are used here
LEAST_BINARYEN = 108


class Missing(Exception):
    """Something that the build takes is not there, and how to get it."""


@dataclass(frozen=True)
class Needs:
    """The toolchain's folder, and Binaryen's program."""

    kit: Path
    wasm_opt: str
    binaryen: int

    @property
    def clang(self) -> Path:
        return self.kit / "toolchain" / "bin" / "clang"


def find_kit() -> Path:
    """The folder of the toolchain whose command rt is there."""
    rt = shutil.which("rt")
    if not rt:
        raise Missing("there is no command rt of the toolchain")
    kit = Path(os.path.realpath(rt)).parent.parent
    wanted = [kit / "bin" / "rattle", kit / "rlibs", kit / "logic_built", *(kit / "toolchain" / "bin" / tool for tool in TOOLS)]
    for path in wanted:
        if not path.exists():
            raise Missing("the toolchain has no %s: it is another one than this was written for" % path.relative_to(kit))
    return kit


def find_binaryen() -> tuple[str, int]:
    """Binaryen's program and its version."""
    program = shutil.which("wasm-opt")
    if not program:
        raise Missing("Binaryen's wasm-opt makes the module for every browser: apt-get install binaryen")
    told = subprocess.run([program, "--version"], stdout=subprocess.PIPE, text=True, check=True).stdout
    found = re.search(r"version (\d+)", told)
    if not found or int(found[1]) < LEAST_BINARYEN:
        raise Missing("%s is %r, and version %d or a later one is needed" % (program, told.strip(), LEAST_BINARYEN))
    return program, int(found[1])


def find_needs() -> Needs:
    """All that the build takes. Missing names the first thing that is not there."""
    kit = find_kit()
    return Needs(kit, *find_binaryen())
