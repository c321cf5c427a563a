"""What a host prints for a line: a block, which its last line closes."""
from __future__ import annotations

from typing import List, NamedTuple, Optional, Sequence


class Block(NamedTuple):
    """What a line printed, why it was refused, and the next moment that is due: behind a refused line that is what it was."""

    lines: List[str]
    due: Optional[int]
    fault: Optional[str]

    def said(self, word: str) -> List[str]:
        """What its lines say that begin with this word."""
        return [line[len(word) + 1:] for line in self.lines if line.startswith(word + " ")]

    def sent(self) -> List[str]:
        """The datagrams to send, in hexadecimal."""
        return self.said("send")


def block_of(lines: Sequence[str], due: Optional[int]) -> Block:
    """The block of lines, the closing one at the end, of a host at which something was due before."""
    last = lines[-1]
    if last.startswith("refused "):
        return Block(list(lines[:-1]), due, last[8:])
    return Block(list(lines[:-1]), None if last == "ok never" else int(last[3:]), None)


def bytes_of(line: str) -> bytes:
    """The bytes of a line, in Latin-1. No drawing has a letter beyond that: such a line goes in UTF-8, and the host refuses it."""
    try:
        return line.encode("latin-1")
    except UnicodeEncodeError:
        return line.encode("utf-8", "surrogatepass")


def is_closing(line: bytes) -> bool:
    """Whether a line closes a block, unless it is a row of a canvas."""
    return line.startswith((b"ok ", b"refused "))


def rows_of(line: bytes) -> int:
    """How many rows of a canvas a host with a board prints first for a line. A row may look like anything, so they are counted;
    a `show` that a host refuses has none."""
    if not line.lstrip(b" ").startswith(b"show"):
        return 0
    words = [word for word in (line[:-1] if line.endswith(b"\r") else line).split(b" ") if word]
    if words[:1] != [b"show"] or len(words) != 5:
        return 0
    creator, number, width, height = map(number_of, words[1:])
    is_canvas = 0 <= min(creator, number) and max(creator, number) < 2**32 and 1 <= width <= 200 and 1 <= height <= 100
    return height if is_canvas else 0


def number_of(word: bytes) -> int:
    """The number of a word, as a host reads it; -1 if it is none, or one of over ten digits."""
    digits = word.lstrip(b"0") or b"0"
    return int(digits) if word.isdigit() and len(digits) <= 10 else -1
