"""Letters that show nothing: in a name they would make it look like another's."""
from __future__ import annotations

# from a code point to another: fillers, blanks, and marks that join, choose or turn other letters; live/ui/unseen.js has the same
UNSEEN = (
    (0xad, 0xad), (0x34f, 0x34f), (0x61c, 0x61c), (0x115f, 0x1160), (0x17b4, 0x17b5), (0x180b, 0x180f), (0x200b, 0x200f), (0x2028, 0x202e), (0x2060, 0x206f),
    (0x2800, 0x2800), (0x3164, 0x3164), (0xfe00, 0xfe0f), (0xfeff, 0xfeff), (0xffa0, 0xffa0), (0xfff0, 0xfffb), (0x16fe4, 0x16fe4), (0x1bca0, 0x1bca3),
    (0x1d159, 0x1d159), (0x1d173, 0x1d17a), (0xe0000, 0xe0fff),
)


def is_seen(text: str) -> bool:
    """Whether each letter shows something, or is a space: none moves a cursor, turns the writing round, or is nothing to the eye."""
    return text.isprintable() and not any(first <= ord(letter) <= last for letter in text if letter > "~" for first, last in UNSEEN)
