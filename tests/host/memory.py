"""What refuses one growth of memory, or one start of a thread, of a program that it is loaded before."""

from __future__ import annotations

import shutil
import subprocess
from pathlib import Path


def library(room: Path) -> Path | None:
    """Is built by the toolchain's compiler of C; nothing where there is no toolchain."""
    if not shutil.which("rt"):
        return None
    page = subprocess.run(["rt", "doc"], stdout=subprocess.PIPE, text=True, check=True).stdout.strip()
    compiler = Path(page).parent / "toolchain" / "bin" / "clang"
    built = room / "refusing.so"
    options = ["-O1", "-fPIC", "-shared", "-nostdlib", "-fuse-ld=lld"]
    subprocess.run([compiler, *options, "-o", built, Path(__file__).with_name("refusing.c")], check=True)
    return built
