"""Builds the wheel of the package `wb`, by the standard library alone, and the same to the bit from any folder. `pip` calls it by
pyproject.toml; `wheels.py FOLDER [BUILT ..]` writes one that has these built files in it, as the program `wb` and `libwb.so`."""
from __future__ import annotations

import base64
import hashlib
import re
import stat
import sys
import tarfile
import zipfile
from io import BytesIO
from pathlib import Path
from typing import Any, Dict, List, Optional, Tuple

HERE = Path(__file__).resolve().parent
THIRD_PARTY = HERE.parent / "tools/installed/THIRD-PARTY"

# the earliest moment that an archive can tell
MOMENT = (1980, 1, 1, 0, 0, 0)

# a wheel with built files is for this platform: they are static, or need what each Linux of ten years has
PLATFORM = "manylinux2014_x86_64"


def said(name: str) -> str:
    """A value of pyproject.toml, whose lines of this form are its own."""
    found = re.search(r'^%s = "(.*)"$' % re.escape(name), (HERE / "pyproject.toml").read_text(), re.MULTILINE)
    if not found:
        raise ValueError("pyproject.toml has no %s" % name)
    return found[1]


def classifiers() -> List[str]:
    found = re.search(r"^classifiers = \[(.*?)^\]$", (HERE / "pyproject.toml").read_text(), re.MULTILINE | re.DOTALL)
    return re.findall(r'"(.*?)"', found[1]) if found else []


def metadata() -> bytes:
    fields = [("Metadata-Version", "2.1"), ("Name", said("name")), ("Version", said("version")), ("Summary", said("description")),
              ("Requires-Python", said("requires-python")), *(("Classifier", each) for each in classifiers()), ("Description-Content-Type", "text/markdown")]
    return ("".join("%s: %s\n" % field for field in fields) + "\n" + (HERE / "README.md").read_text()).encode()


def modules() -> List[Tuple[str, bytes, int]]:
    found = sorted(path for path in (HERE / "wb").iterdir() if path.suffix == ".py" or path.name == "py.typed")
    return [("wb/" + path.name, path.read_bytes(), 0o644) for path in found]


def digest(content: bytes) -> str:
    return "sha256=" + base64.urlsafe_b64encode(hashlib.sha256(content).digest()).decode().rstrip("=")


def name_of(is_built: bool) -> str:
    return "%s-%s-py3-none-%s.whl" % (said("name"), said("version"), PLATFORM if is_built else "any")


def write_wheel(folder: Path, built: List[Path], is_editable: bool = False) -> str:
    """Writes the wheel into a folder, and gives its name. An editable one has the place of this folder, and no module."""
    home = "%s-%s.dist-info" % (said("name"), said("version"))
    name = name_of(bool(built))
    tag = name[len("%s-%s-" % (said("name"), said("version"))):-len(".whl")]
    told = "Wheel-Version: 1.0\nGenerator: wheels.py\nRoot-Is-Purelib: %s\nTag: %s\n" % (str(not built).lower(), tag)
    files = [("wb.pth", str(HERE).encode() + b"\n", 0o644)] if is_editable else modules()
    files += [("wb/" + path.name, path.read_bytes(), 0o755) for path in built]
    if built:
        files += [(home + "/licenses/THIRD-PARTY", THIRD_PARTY.read_bytes(), 0o644)]
    files += [(home + "/METADATA", metadata(), 0o644), (home + "/WHEEL", told.encode(), 0o644)]
    record = "".join("%s,%s,%d\n" % (path, digest(content), len(content)) for path, content, _ in files) + home + "/RECORD,,\n"
    with zipfile.ZipFile(folder / name, "w", zipfile.ZIP_DEFLATED) as archive:
        for path, content, mode in [*files, (home + "/RECORD", record.encode(), 0o644)]:
            entry = zipfile.ZipInfo(path, MOMENT)
            entry.external_attr = (stat.S_IFREG | mode) << 16
            entry.compress_type = zipfile.ZIP_DEFLATED
            archive.writestr(entry, content)
    return name


# ---- what pip calls

def build_wheel(wheel_directory: str, config_settings: Optional[Dict[str, Any]] = None, metadata_directory: Optional[str] = None) -> str:
    return write_wheel(Path(wheel_directory), [])


def build_editable(wheel_directory: str, config_settings: Optional[Dict[str, Any]] = None, metadata_directory: Optional[str] = None) -> str:
    return write_wheel(Path(wheel_directory), [], is_editable=True)


def build_sdist(sdist_directory: str, config_settings: Optional[Dict[str, Any]] = None) -> str:
    name = "%s-%s" % (said("name"), said("version"))
    files = [("pyproject.toml", (HERE / "pyproject.toml").read_bytes()), ("README.md", (HERE / "README.md").read_bytes()),
             ("wheels.py", (HERE / "wheels.py").read_bytes()), ("PKG-INFO", metadata())]
    with tarfile.open(Path(sdist_directory) / (name + ".tar.gz"), "w:gz") as archive:
        for path, content in [*files, *((path, content) for path, content, _ in modules())]:
            entry = tarfile.TarInfo("%s/%s" % (name, path))
            entry.size = len(content)
            archive.addfile(entry, BytesIO(content))
    return name + ".tar.gz"


if __name__ == "__main__":
    print(write_wheel(Path(sys.argv[1]), [Path(word) for word in sys.argv[2:]]))
