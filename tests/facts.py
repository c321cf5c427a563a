"""Facts that one flow shows, gathered for its test."""

from __future__ import annotations

LONGEST = 600  # characters of a value that are printed


def cut(text: str) -> str:
    return text if len(text) <= LONGEST else f"{text[:LONGEST]}.. of {len(text)}"


def told(value: object) -> str:
    return cut(repr(value))


def told_apart(found: object, wanted: object) -> str:
    """Both values; texts, and what is too long for one line, from a little before the place at which they part."""
    are_texts = isinstance(found, str) and isinstance(wanted, str)
    one, other = (str(found), str(wanted)) if are_texts else (repr(found), repr(wanted))
    if not are_texts and max(len(one), len(other)) <= LONGEST:
        return f"{one}, not {other}"
    same = next((at for at, (a, b) in enumerate(zip(one, other)) if a != b), min(len(one), len(other)))
    start, tell = max(0, same - 100), told if are_texts else cut
    return f"at {same}: {tell(one[start:])}, not {tell(other[start:])}"


class Facts:
    """Gathers what one flow shows. Its test fails at its end, with each fact that was another than wanted."""

    def __init__(self) -> None:
        self.wrong: list[str] = []
        self.count = 0

    def __call__(self, name: str, found: object, wanted: object = True) -> None:
        """A fact: its name, what was found and what was wanted."""
        self.count += 1
        if found != wanted:
            self.wrong.append(f"{name}: {told_apart(found, wanted)}")

    def holds(self, name: str, found: object, *there: object) -> None:
        """What has to be so; if it is not, the fault says what there was."""
        self.count += 1
        if not found:
            self.wrong.append(f"{name}: not so, with {', '.join(map(told, there or [found]))}")

    def status(self) -> int:
        """Tells what was wrong, and gives the status of a command."""
        print("\n".join(self.wrong) or f"{self.count} facts, as wanted")
        return 1 if self.wrong else 0
