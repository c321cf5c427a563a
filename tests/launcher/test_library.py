"""tools/library: the files of the library below a folder."""

from __future__ import annotations

import importlib.machinery
import importlib.util
from pathlib import Path
from types import ModuleType

import pytest

from .checkout import TOP


@pytest.fixture
def tool(monkeypatch: pytest.MonkeyPatch) -> ModuleType:
    """tools/library, whose archive and shared library are texts."""
    loader = importlib.machinery.SourceFileLoader("tools_library", str(TOP / "tools/library"))
    spec = importlib.util.spec_from_loader("tools_library", loader)
    assert spec
    module = importlib.util.module_from_spec(spec)
    loader.exec_module(module)
    for name in ("join", "link"):
        monkeypatch.setattr(module, name, lambda *words: words[-1].write_text("made"))
    return module


def test_what_else_is_in_the_folder_stays(tool: ModuleType, tmp_path: Path) -> None:
    """~/.local/lib has packages of others. A second library takes the place of the first."""
    others = [tmp_path / name for name in ("lib/python3/site-packages/other.py", "lib/pkgconfig/other.pc", "include/other.h")]
    for other in others:
        other.parent.mkdir(parents=True)
        other.write_text("other")
    for _ in range(2):
        tool.lay(tmp_path, tmp_path, tmp_path / "archive", "wb 0.1.0\n")
        assert all(other.read_text() == "other" for other in others)
    made = {path.name for path in (tmp_path / "lib").iterdir()}
    assert made == {"python3", "pkgconfig", "libwb.a", "libwb.so", "libwb.so.0"} and (tmp_path / "lib/libwb.so").read_text() == "made"
    assert (tmp_path / "include/wb.h").read_text() == (TOP / "include/wb.h").read_text()
