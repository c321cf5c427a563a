"""How the documents are written, and what scripts say of themselves."""

from __future__ import annotations

import os
import re
import subprocess
import tempfile
from pathlib import Path

import pytest

from ..host.program import program
from .contracts import LINKS
from .sources import DOCUMENTS, README, SPAN, TOP, nothing_is_wrong, short

LONGEST_LINE = 200
NUMBER_OF_A_PAPER = re.compile(r"\b(?:[TRLPQ]\d{1,2}|D\d{1,2}(?!·| \+|\)·)|(?:Theorem|Lemma|Section|Figure|Table|issue|row) #?\d+)\b|(?<![\w&])#\d+")

# the constants of the timers, in a document that tells how they are set
CONSTANTS = re.compile(r"\b[CD][12]\b")


def wrong_lines(document: Path) -> list[str]:
    """Lines that are too long, and lines that cite a paper or a demand by its number."""
    wrong = []
    text = document.read_text()
    tells_constants = "--tuning" in text
    for number, line in enumerate(text.splitlines(), 1):
        if len(re.sub(LINKS, "", line)) > LONGEST_LINE:
            wrong.append(f"line {number} has over {LONGEST_LINE} characters, without where its links lead")
        plain = SPAN.sub("", line)
        if NUMBER_OF_A_PAPER.search(CONSTANTS.sub("", plain) if tells_constants else plain):
            wrong.append(f"line {number} cites a number: {line}")
    return wrong


def unsaid_words(path: str) -> list[str]:
    """Commands and options that the completions or the manual page lack, of the program at a path and of wb-live."""
    installed = TOP / "tools/installed"
    completions, manual = (installed / "wb.bash").read_text(), (installed / "wb.1").read_text().replace("\\", "")

    def told(*words: str) -> str:
        ran = subprocess.run(words, stdin=subprocess.DEVNULL, stdout=subprocess.PIPE, stderr=subprocess.STDOUT, text=True, check=False)
        return ran.stdout

    commands = re.findall(r"^  (run|check|hex|words|host)  ", told(path, "--help"), re.MULTILINE)
    options = {option for command in commands for option in re.findall(r"^ +(?:-\w, )?(--[a-z-]+)", told(path, command, "--help"), re.MULTILINE)}
    live = set(re.findall(r"^  (?:-\w, )?(--[a-z-]+)", told(str(TOP / "wb-live"), "--help"), re.MULTILINE))
    wrong = [f"no {it} in the completions" for it in sorted({*commands, *options, *live}) if not re.search(rf"(?<![\w-]){it}(?![\w-])", completions)]
    wrong += [f"no {it} in the manual page" for it in sorted({*commands, *options} - {"--help"}) if it not in manual]
    return wrong if len(commands) == 5 and live else [*wrong, "the help has no commands"]


def wrong_commands() -> list[str]:
    """Indented commands of the README that the repository has not."""
    commands = re.findall(r"^    \./([\w/]+)", README.read_text(), re.MULTILINE)
    return [f"no command ./{it}" for it in commands if not os.access(TOP / it, os.X_OK)]


def unhelpful() -> list[str]:
    """Scripts that say nothing when they are asked for --help, or begin to prove."""
    wrong = []
    with tempfile.TemporaryDirectory() as room:
        called, rt = Path(room) / "called", Path(room) / "rt"
        rt.write_text(f"#!/bin/sh\n[ \"$1\" = version ] || echo >{called}\nexit 1\n")
        rt.chmod(0o755)
        environment = {name: value for name, value in os.environ.items() if name != "WB_PROGRAM"}
        environment["PATH"] = f"{room}:{environment['PATH']}"
        folders = [TOP, *(TOP / it for it in ("tests", "live", "lab", "web", "tools"))]
        scripts = [it for folder in folders for it in sorted(folder.iterdir()) if it.is_file() and os.access(it, os.X_OK)]
        for script in scripts:
            end = subprocess.run([str(script), "--help"], env=environment, stdin=subprocess.DEVNULL, capture_output=True, text=True, timeout=120)
            if called.exists() or not end.stdout + end.stderr or end.returncode not in (0, 2):
                wrong.append(f"{short(script)} --help ends with {end.returncode}{', and calls the prover' if called.exists() else ''}")
                called.unlink(missing_ok=True)
    return wrong


@pytest.mark.parametrize("document", DOCUMENTS, ids=short)
def test_lines(document: Path) -> None:
    nothing_is_wrong(wrong_lines(document))


def test_commands_of_the_readme() -> None:
    nothing_is_wrong(wrong_commands())


def test_help() -> None:
    nothing_is_wrong(unhelpful())


def test_completions_and_manual() -> None:
    nothing_is_wrong(unsaid_words(program()))
