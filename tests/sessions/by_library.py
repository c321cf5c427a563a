"""A host of the library in this process, whose lines that act and whose questions are calls by bytes."""

from __future__ import annotations

from pathlib import Path

from wb.blocks import block_of
from wbhost import Block

from ..library.by_bytes import ByBytes, JudgedByBytes, drafts, judged_drafts


class HostByBytes:
    def __init__(self, library: Path, is_judged: bool) -> None:
        self.calls = JudgedByBytes(library) if is_judged else ByBytes(library)
        self.drafts_of = judged_drafts if is_judged else drafts
        self.due: int | None = None  # behind the last line
        self.manages_itself = False
        assert self.calls.open() == 0

    def ask_all(self, lines: list[str]) -> list[Block]:
        self.calls.drafts.update(self.drafts_of(lines))
        return [self.ask(line) for line in lines]

    def ask(self, line: str) -> Block:
        told = self.calls.block_of(line) if self.manages_itself else self.calls.text(line)
        self.manages_itself = self.manages_itself or line.startswith(("keep ", "judge "))
        block = block_of(told.splitlines(), self.due)
        self.due = block.due
        return block

    def end(self) -> None:
        self.calls.close()
