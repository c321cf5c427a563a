"""Which names more than one file of specs/ defines.

A reader of a clause looks a name up. If several files define it, the clause's imports tell which is meant. It is worst where one file uses two of them,
one under another name.

    python3 -m tests.documents.names              # each such name, the files that define it, and how many there are
    python3 -m tests.documents.names --together   # of these, the files that use two of one name
"""

from __future__ import annotations

import sys
from collections import defaultdict

from .reached import File, Module, read_module, reached_by_callers
from .sources import CRATES, crates_below


def homes() -> dict[str, list[File]]:
    """The files that define each name which a clause of a public call reaches."""
    found: dict[str, list[File]] = defaultdict(list)
    for file, name in sorted(reached_by_callers()):
        found[name].append(file)
    return found


def shared_names() -> dict[str, list[File]]:
    """The names that several files define."""
    return {name: files for name, files in sorted(homes().items()) if len(files) > 1}


def readers() -> dict[str, Module]:
    """All files of specs/ and the sources, by their paths, with what they import."""
    found = {}
    for crate in crates_below():
        for part, ending in (("specs", "antt"), ("src", "rt")):
            for path in sorted((CRATES / crate / part).rglob(f"*.{ending}")):
                found[path.relative_to(CRATES).as_posix()] = read_module(path.read_text())
    return found


def seen_together() -> dict[str, list[str]]:
    """Of each name the files that use two definitions of it: their own or one that they import, and another under another name."""
    found: dict[str, list[str]] = defaultdict(list)
    for path, module in readers().items():
        for alias, (file, name) in module.names.items():
            other = module.names.get(name)
            if alias != name and (name in module.words or (other and other[0] != file)):
                found[name].append(path)
    return found


def main() -> None:
    if "--together" in sys.argv:
        for name, paths in sorted(seen_together().items()):
            print(f"{name}: {', '.join(paths)}")
        return
    for name, files in sorted(shared_names().items(), key=lambda it: -len(it[1])):
        print(f"{name}: {', '.join(' '.join(it) for it in files)}")
    print(len(shared_names()), "names")


if __name__ == "__main__":
    main()
