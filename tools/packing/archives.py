"""Archives that are the same to the bit, whoever makes them and where: no owner, no moment, one order."""
from __future__ import annotations

import gzip
import hashlib
import os
import shutil
import subprocess
import tarfile
from io import BytesIO
from pathlib import Path
from typing import Dict, List


def files_below(folder: Path) -> List[Path]:
    """All files and links below a folder, in one order. Folders of none are left out."""
    return sorted(path for path in folder.rglob("*") if path.is_symlink() or path.is_file())


def mode_of(path: Path) -> int:
    return 0o755 if os.access(path, os.X_OK) else 0o644


def entry_of(path: Path, name: str, moment: int) -> tarfile.TarInfo:
    entry = tarfile.TarInfo(name)
    entry.mtime = moment
    if path.is_symlink():
        entry.type, entry.linkname, entry.mode = tarfile.SYMTYPE, os.readlink(path), 0o777
    elif path.is_dir():
        entry.type, entry.mode = tarfile.DIRTYPE, 0o755
    else:
        entry.size, entry.mode = path.stat().st_size, mode_of(path)
    return entry


def tar_of(folder: Path, top: str, moment: int) -> bytes:
    """A packed archive of a folder's files, below one name."""
    made = BytesIO()
    with tarfile.open(fileobj=made, mode="w", format=tarfile.USTAR_FORMAT) as archive:
        for path in files_below(folder):
            entry = entry_of(path, "%s/%s" % (top, path.relative_to(folder)), moment)
            archive.addfile(entry, None if path.is_symlink() else BytesIO(path.read_bytes()))
    packed = BytesIO()
    with gzip.GzipFile("", "wb", 9, packed, mtime=0) as file:
        file.write(made.getvalue())
    return packed.getvalue()


def set_modes(folder: Path) -> None:
    """The modes that a package has, whatever the maker's mask."""
    folder.chmod(0o755)
    for path in folder.rglob("*"):
        if not path.is_symlink():
            path.chmod(0o755 if path.is_dir() else mode_of(path))


def write_debian(tree: Path, control: str, made: Path, moment: int, more: Dict[str, str]) -> None:
    """Debian's package of a tree that stands as it will below /. `more` are other files of DEBIAN."""
    (tree / "DEBIAN").mkdir()
    for name, text in more.items():
        (tree / "DEBIAN" / name).write_text(text)
    size = sum(path.stat().st_size for path in files_below(tree) if not path.is_symlink()) // 1024
    (tree / "DEBIAN/control").write_text(control.replace("Description:", "Installed-Size: %d\nDescription:" % size))
    sums = ["%s  %s\n" % (hashlib.md5(path.read_bytes()).hexdigest(), path.relative_to(tree)) for path in files_below(tree)
            if not path.is_symlink() and path.parts[len(tree.parts)] != "DEBIAN"]
    (tree / "DEBIAN/md5sums").write_text("".join(sums))
    set_modes(tree)
    made.unlink(missing_ok=True)
    environment = {**os.environ, "SOURCE_DATE_EPOCH": str(moment), "LC_ALL": "C"}
    subprocess.run(["dpkg-deb", "--root-owner-group", "-Zgzip", "-z9", "--build", str(tree), str(made)], env=environment, stdout=subprocess.DEVNULL, check=True)
    shutil.rmtree(tree / "DEBIAN")
