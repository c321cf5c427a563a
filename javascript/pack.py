#!/usr/bin/env python3
"""Lays the package for Node and browsers: `pack.py FOLDER MODULES` writes FOLDER/wb-VERSION.tgz, which `npm install FILE` takes, of this folder, of the
page's host.js and its files for ink, and of the modules that ./wb --page builds. The same to the bit from any folder."""
from __future__ import annotations

import gzip
import json
import re
import sys
import tarfile
from io import BytesIO
from pathlib import Path
from typing import Dict

HERE = Path(__file__).resolve().parent
HOST = HERE.parent / "web" / "member" / "host.js"
UI = HERE.parent / "live" / "ui"
THIRD_PARTY = HERE.parent / "tools" / "installed" / "THIRD-PARTY"

FILES = ("README.md", "broker.d.ts", "broker.js", "drawings.d.ts", "drawings.js", "host.d.ts", "ink.d.ts", "ink.js", "inks.d.ts", "key.d.ts", "key.js", "node.d.ts", "node.js",
         "record.d.ts", "record.js", "udp.d.ts", "udp.js", "wb.d.ts", "wb.js")
MODULES = ("wb-any.wasm", "wb.wasm")


# a module that a script takes, and one of the page that inks.js takes in a checkout
TAKEN, OF_PAGE = re.compile(r"^(?:import|export) .* from '\./(\w+\.js)';$", re.MULTILINE), re.compile(r"'\.\./live/ui/(\w+\.js)'")


def ink() -> Dict[str, bytes]:
    """The page's files for ink, and all that these take, in the folder `ink`."""
    taker = (HERE / "inks.js").read_text()
    found: Dict[str, bytes] = {}
    wanted = OF_PAGE.findall(taker)
    while wanted:
        name = wanted.pop()
        if "ink/" + name not in found:
            text = (UI / name).read_text()
            found["ink/" + name] = text.encode()
            wanted += TAKEN.findall(text)
    return {**found, "inks.js": OF_PAGE.sub(r"'./ink/\1'", taker).replace("// In a checkout the page has these files; the package has them in ./ink/.\n", "").encode()}


def told() -> bytes:
    """What the package says of itself: the scripts are those of a checkout."""
    package = json.loads((HERE / "package.json").read_text())
    return (json.dumps({name: value for name, value in package.items() if name != "scripts"}, indent=2) + "\n").encode()


def contents(modules: Path) -> Dict[str, bytes]:
    """The files of the package, by their names."""
    found = {name: (HERE / name).read_bytes() for name in FILES}
    found.update({name: (modules / name).read_bytes() for name in MODULES})
    return {**found, **ink(), "host.js": HOST.read_bytes(), "package.json": told(), "THIRD-PARTY": THIRD_PARTY.read_bytes()}


def write_archive(path: Path, files: Dict[str, bytes], top: str, mode: int = 0o644) -> None:
    """An archive of files whose moments, owners and order are always the same."""
    made = BytesIO()
    with tarfile.open(fileobj=made, mode="w", format=tarfile.USTAR_FORMAT) as archive:
        for name in sorted(files):
            entry = tarfile.TarInfo("%s/%s" % (top, name))
            entry.size, entry.mode = len(files[name]), mode
            archive.addfile(entry, BytesIO(files[name]))
    with open(path, "wb") as file, gzip.GzipFile("", "wb", 9, file, mtime=0) as packed:
        packed.write(made.getvalue())


def write_package(folder: Path, modules: Path) -> Path:
    version = json.loads((HERE / "package.json").read_text())["version"]
    path = folder / ("wb-%s.tgz" % version)
    write_archive(path, contents(modules), "package")
    return path


if __name__ == "__main__":
    print(write_package(Path(sys.argv[1]), Path(sys.argv[2])))
