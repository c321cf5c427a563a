"""An LLVM module that was written for x86-64, as one for WebAssembly with a 64-bit memory.

Both have pointers and sizes of 64 bits, little-endian, and lay out their types alike. So the target's name and layout change, and
what is for x86-64 alone is taken off. What is not known here is refused, and not guessed."""
from __future__ import annotations

import re

FROM = 'target triple = "x86_64-unknown-linux-gnu"'
TO = 'target triple = "wasm64-unknown-unknown"'
FROM_LAYOUT = 'target datalayout = "e-m:e-p270:32:32-p271:32:32-p272:64:64-i64:64-i128:128-f80:128-n8:16:32:64-S128"'
TO_LAYOUT = 'target datalayout = "e-m:e-p:64:64-p10:8:8-p20:8:8-i64:64-i128:128-n32:64-S128-ni:1:10:20"'

# attributes of functions that say how x86-64 does something, and nothing of what is done
OF_X86 = ("frame-pointer", "probe-stack", "rattle-sig", "stack-probe-size", "target-cpu", "target-features")

# a hint to a processor that waits; there is nothing to wait for where there is one thread
PAUSE = re.compile(r"^  (?:tail )?call void @llvm\.x86\.sse2\.pause\(\).*\n|^declare void @llvm\.x86\.sse2\.pause\(\).*\n", re.MULTILINE)

# A bound for the compiler alone, over which it moves no access to memory: it has no instruction. Other assembly is of a processor.
BOUND = 'asm sideeffect "", "~{memory}"()'

ATTRIBUTES = re.compile(r"^(attributes #\d+ = )\{ (.*) \}$", re.MULTILINE)
WORD = re.compile(r'"([^"]+)"(?:="[^"]*")?')


class Unknown(Exception):
    """The module has something that is not known here: a later toolchain may write it otherwise."""


def retarget(text: str) -> str:
    """The text of a module for x86-64, as one for wasm64. Unknown where it has what this does not know."""
    for line in (FROM, FROM_LAYOUT):
        if text.count(line + "\n") != 1:
            raise Unknown("the line %r of its target" % line.split(" = ")[0])
    text = text.replace(FROM_LAYOUT, TO_LAYOUT).replace(FROM, TO)
    text = PAUSE.sub("", text)
    for line in text.splitlines():
        refuse_other(line)
    return ATTRIBUTES.sub(without_x86, text)


def refuse_other(line: str) -> None:
    """Unknown where a line has assembly, or an instruction of x86-64."""
    if "@llvm.x86." in line:
        raise Unknown("an instruction of x86-64, %s" % line.strip())
    if line.startswith("module asm") or (" asm " in line and line.lstrip().startswith(("%", "call", "tail call")) and not line.endswith(BOUND)):
        raise Unknown("assembly, %s" % line.strip())


def without_x86(found: re.Match[str]) -> str:
    """A line of attributes without those of x86-64. Unknown where one has a name that stands in quotes and is none of them."""
    unknown = [name for name in WORD.findall(found[2]) if name not in OF_X86]
    if unknown:
        raise Unknown("the attribute %s" % unknown[0])
    words = re.sub(r"\bsanitize_address\b", "", WORD.sub("", found[2])).split()
    return "%s{ %s }" % (found[1], " ".join(words) or "nounwind")
