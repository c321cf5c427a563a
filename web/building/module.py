"""From the proved library of a host to modules of WebAssembly: what each step takes and makes."""
from __future__ import annotations

import re
import shutil
import subprocess
from pathlib import Path

from . import version
from .narrow import narrow
from .needs import Needs
from .retarget import retarget
from .wasm import exported, imported

HERE = Path(__file__).resolve().parent

# what the page calls, as `include/wb.h` declares it, and what it has of the module beside that. A module asks the page for nothing
CALLS = ["wb_add", "wb_ask", "wb_block", "wb_came", "wb_came_from", "wb_close", "wb_due", "wb_event", "wb_gone", "wb_line", "wb_open", "wb_tick",
         "wb_version", "wb_wall"]
EXPORTS = ["memory", "page_room", *CALLS]

# how a call is named in a module of tests, which shows it to nothing outside
HIDDEN = re.compile(r'@"wb_c::(?:calls|by_bytes)::(wb_[a-z_]+)"')
HIDDEN_CALL = re.compile(r"^define internal ([^@\n]*@wb_[a-z_]+\()", re.MULTILINE)

STACK_BYTES = 1 << 20

# The least of WebAssembly, and copies of memory and conversions that each engine has had for years. As in the build for x86-64,
# where the compiler knows that no control comes, it puts a trap.
FLAGS = ["--target=wasm64-unknown-unknown", "-mcpu=mvp", "-mbulk-memory", "-mnontrapping-fptoint", "-msign-ext", "-mmutable-globals",
         "-mllvm", "-trap-unreachable", "-mllvm", "-no-trap-after-noreturn", "-ffunction-sections", "-fdata-sections", "-Wno-override-module"]
C_FLAGS = ["-ffreestanding", "-fno-builtin", "-nostdinc", "-std=c17", "-x", "c"]
FEATURES = ["--enable-bulk-memory", "--enable-nontrapping-float-to-int", "--enable-sign-ext", "--enable-mutable-globals"]


class Failed(Exception):
    """A step failed, with what it told."""


def run(words: list[str | Path], folder: Path) -> None:
    """Runs a step in a folder. Failed where it does not end with 0."""
    ran = subprocess.run([str(word) for word in words], cwd=folder, stdin=subprocess.DEVNULL, stdout=subprocess.PIPE, stderr=subprocess.STDOUT,
                         errors="replace", check=False)
    if ran.returncode:
        raise Failed("%s ended with %d:\n%s" % (Path(str(words[0])).name, ran.returncode, ran.stdout[-4000:]))


def lay_toolchain(needs: Needs, folder: Path) -> None:
    """A folder like the toolchain's, whose clang keeps the module that it is given."""
    shutil.rmtree(folder, ignore_errors=True)
    (folder / "bin").mkdir(parents=True)
    theirs = needs.kit / "toolchain"
    for path in [*theirs.iterdir(), *(theirs / "bin").iterdir()]:
        if path.name not in ("bin", "clang"):
            (folder / path.relative_to(theirs)).symlink_to(path)
    (folder / "bin" / "clang").symlink_to(HERE / "clang")
    (folder / "bin" / "true-clang").symlink_to(needs.clang)


def write_bitcode(needs: Needs, build_words: list[str], crate: Path, room: Path) -> Path:
    """The LLVM module of a crate, which `rattle build` makes of what it proves and of nothing else."""
    kept = room / "toolchain" / "kept.bc"
    lay_toolchain(needs, room / "toolchain")
    (crate / "out" / "incremental").mkdir(parents=True, exist_ok=True)
    run([needs.kit / "bin" / "rattle", "build", *build_words, "--toolchain", room / "toolchain", "-o", room / "library.x86.a"], crate)
    if not kept.exists():
        raise Failed("this toolchain gave its clang no LLVM module: it is another one than this was written for")
    return kept


def with_calls(text: str) -> str:
    """The text of a module of tests, in which the calls of the library have the names that C has for them, and are seen from outside."""
    return HIDDEN_CALL.sub(r"define \1", HIDDEN.sub(r"@\1", text))


def compile_wasm(needs: Needs, bitcode: Path, room: Path, said: str, is_of_tests: bool = False) -> Path:
    """A module with a 64-bit memory, of an LLVM module for x86-64: of the library, or of tests that make its calls, which is there sooner. It says
    what it is."""
    text, wasm, clang, flags = room / "library.ll", room / "wb.wasm", needs.clang, [*FLAGS, "-O1" if is_of_tests else "-O3"]
    run([clang, "--target=x86_64-unknown-linux-gnu", "-x", "ir", bitcode, "-S", "-emit-llvm", "-Xclang", "-disable-llvm-passes", "-o", text], room)
    wide = retarget(text.read_text())
    text.write_text(with_calls(wide) if is_of_tests else wide)
    run([clang, *flags, "-x", "ir", "-c", text, "-o", room / "library.o"], room)
    objects = [room / "library.o"]
    (room / "version.c").write_text(version.source(said))
    for source in [*sorted(HERE.glob("*.c")), room / "version.c"]:
        objects.append(room / (source.stem + ".o"))
        run([clang, *flags, *C_FLAGS, "-c", source, "-o", objects[-1]], room)
    # the toolchain's programs are one, which goes by the name that it is called by
    linker = room / "wasm-ld"
    linker.unlink(missing_ok=True)
    linker.symlink_to(clang)
    run([linker, "-mwasm64", "--no-entry", "--stack-first", "-z", "stack-size=%d" % STACK_BYTES, "--gc-sections", "--strip-all",
         "--allow-undefined", "--export-memory", *("--export=%s" % call for call in CALLS), "-o", wasm, *objects], room)
    check_ends(wasm.read_bytes())
    return wasm


def widen(needs: Needs, wasm: Path, room: Path, level: str = "-O2") -> Path:
    """The same for every engine: a 32-bit memory and a 32-bit table."""
    narrowed, lowered, anywhere = room / "narrow.wasm", room / "lowered.wasm", room / "wb-any.wasm"
    narrowed.write_bytes(narrow(wasm.read_bytes()))
    run([needs.wasm_opt, "--enable-memory64", *FEATURES, "--memory64-lowering", narrowed, "-o", lowered], room)
    run([needs.wasm_opt, *FEATURES, level, lowered, "-o", anywhere], room)
    check_ends(anywhere.read_bytes())
    return anywhere


def check_ends(module: bytes) -> None:
    """Failed where a module asks for functions, which no page gives, or lacks one that the page calls."""
    asked, lacks = imported(module), sorted(set(EXPORTS) - set(exported(module)))
    if asked:
        raise Failed("the library asks for %s, which no page gives: a later toolchain's library, perhaps (web/building/system.c)" % ", ".join(asked))
    if lacks:
        raise Failed("the module lacks %s" % ", ".join(lacks))
