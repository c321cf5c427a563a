"""The first words of the lines that scripts for browsers and Node say to a host, by their sources.

As in said_in_python, and by patterns: a line is written where it is told, or has a name there, or a function gives it. Other forms are faults.
"""

from __future__ import annotations

import re

from .said_in_python import NotUnderstood, first_word

# who takes a line: a host, a board that has one, and `this` in the files of these classes
HOLDER = r"(?:\b(?:host|board)|\bthis\.live\(\))"
HOLDERS = "extends Host|class Host|class Board"
METHOD = r"^  (?:static )?(?:async )?(\w+)\(([^)]*)\) \{$"
BRACKETS = {"(": ")", "[": "]", "{": "}"}


def parts(text: str, start: int) -> list[str]:
    """The expressions from there on, with commas between them, up to what ends their list."""
    found, at, open_ones, quote = [start], start, 0, ""
    while open_ones or quote or text[at] not in ")];":
        letter = text[at]
        if quote:
            quote = "" if letter == quote else quote
        elif letter in "'`":
            quote = letter
        elif letter in BRACKETS.values():
            open_ones -= 1
        elif letter in BRACKETS:
            open_ones += 1
        elif letter == "," and not open_ones:
            found.append(at + 1)
        at += 1
    return [text[begins:ends].strip().rstrip(",") for begins, ends in zip(found, [*found[1:], at])]


class SaidInScripts:
    """What the scripts of these files say. `kept` has the lines that are read from a record, by file and name."""

    def __init__(self, files: dict[str, str], kept: dict[tuple[str, str], str]) -> None:
        self.files, self.kept = files, kept
        self.used: set[tuple[str, str]] = set()
        self.words: set[str] = set()
        self.tellers = [("ask", 0)]
        for name, place in self.tellers:  # grows while it is gone through
            for file, text in files.items():
                holder = rf"(?:{HOLDER}|\bthis)" if re.search(HOLDERS, text) else HOLDER
                for call in re.finditer(rf"{holder}\.{name}\(", text):
                    # a host may stand before the line that it is asked
                    given = [each for each in parts(text, call.end()) if each != "host"]
                    if len(given) <= place:
                        raise NotUnderstood(f"{file}: no line in {call[0]}")
                    self.words |= self.texts(file, call.start(), given[place])

    def texts(self, file: str, at: int, expression: str) -> set[str]:
        """The first words of the lines that an expression at some place has."""
        if (file, expression) in self.kept:
            self.used.add((file, expression))
            return {self.kept[file, expression]}
        if expression[0] in "'`":
            text = re.split(r"\$\{", expression[1:-1])[0]
            return {first_word(text, is_whole=text == expression[1:-1])}
        if called := re.match(r"(?:this\.)?(\w+)\(", expression):
            return self.given_by(called[1])
        if re.fullmatch(r"\w+", expression):
            return self.named(file, at, expression)
        raise NotUnderstood(f"{file}: {expression}")

    def given_by(self, name: str) -> set[str]:
        """What a function gives."""
        found = set()
        for file, text in self.files.items():
            for body in re.finditer(rf"^  {name}\([^)]*\) {{\n(.*?)^  }}|^const {name} = \([^)]*\) => (.*?);\n", text, re.MULTILINE | re.DOTALL):
                answers = [body[2]] if body[2] else re.findall(r"\breturn (.*?);\n", body[1], re.DOTALL)
                found |= {word for each in answers for word in self.texts(file, body.start(), each)}
        if not found:
            raise NotUnderstood(f"{name} gives no line")
        return found

    def named(self, file: str, at: int, name: str) -> set[str]:
        """What a name stands for, by the last place before that binds it."""
        text = self.files[file][:at]
        bound = [*re.finditer(rf"\bfor \(const {name} of (\[)?|(?:const |let |, ){name} = ", text), *re.finditer(METHOD, text, re.MULTILINE)]
        for found in sorted(bound, key=lambda each: each.start(), reverse=True):
            if found.re.pattern == METHOD:
                return self.hand_on(file, found, name)
            if found[0].startswith("for") and not found[1]:
                break
            values = parts(self.files[file], found.end())
            return {word for value in (values if found[1] else values[:1]) for word in self.texts(file, found.start(), value)}
        raise NotUnderstood(f"{file}: {name}")

    def hand_on(self, file: str, method: re.Match[str], name: str) -> set[str]:
        """A method that is given the line tells it."""
        names = [each.split(" = ")[0].strip() for each in method[2].split(",") if each.strip() != "host"]
        if name not in names:
            raise NotUnderstood(f"{file}: {name} in {method[1]}")
        if (method[1], names.index(name)) not in self.tellers:
            self.tellers.append((method[1], names.index(name)))
        return set()
