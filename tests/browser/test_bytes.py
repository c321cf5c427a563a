"""The calls by bytes in Chromium, by each module: they give what the native program prints for the lines of the same meaning."""

from __future__ import annotations

import json
import shutil
from pathlib import Path

import pytest

from ..host.program import program
from .serving import SUB_PATH, Folder
from .test_agreement import HERE, kept_conversations, native
from .windows import Ordinary

# has the module at hand that is meant, and gives the blocks of a conversation
LOADS = """(async () => {
    const [{ Program }, { blocksOf }] = await Promise.all(['web/member/host.js', 'tests/browser/bytes.mjs'].map((name) => import(new URL(name, location.href).href)));
    const program = await Program.load(new URL('./', location.href), %s);
    window.told = (lines) => blocksOf(program, lines);
    return program.wide;
})()"""


@pytest.mark.parametrize("wide", [False, True])
def test_calls_by_bytes_in_chromium(browser: Ordinary, folder: Folder, wide: bool) -> None:
    beside = Path(folder.room) / SUB_PATH / "tests/browser"
    beside.mkdir(parents=True, exist_ok=True)
    shutil.copy(HERE / "bytes.mjs", beside)
    page = browser.open(folder.address("#session=bytes"))
    assert page.value(LOADS % json.dumps(wide)) is wide
    conversations = kept_conversations()
    differ = [given[:200] for given in conversations if page.value(f"told({json.dumps(given.splitlines())})") != native(program(), given)]
    page.close()
    assert differ == [] and len(conversations) > 40
