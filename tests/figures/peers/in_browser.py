"""The same arrivals in Chromium: a folder with Yjs, the page's modules and the drawings, served to a page that takes them in."""

from __future__ import annotations

import functools
import http.server
import json
import re
import shutil
import tempfile
import threading
from collections.abc import Iterator, Sequence
from contextlib import contextmanager
from pathlib import Path
from typing import Any

from ...live.browser import Browser, Page, find_chromium
from . import needs

HERE = Path(__file__).resolve().parent
PATIENCE = 600.0  # seconds of a measurement
SCRIPTS = (HERE / "browser.mjs", HERE / "taking.mjs", needs.TOP / "web/member/host.js")
PAGE = '<!DOCTYPE html><meta charset="utf-8"><title>arrivals</title><script type="importmap">%s</script><script type="module" src="browser.mjs"></script>'


class Quiet(http.server.SimpleHTTPRequestHandler):
    """Files, without a log."""

    extensions_map = {**http.server.SimpleHTTPRequestHandler.extensions_map, ".mjs": "text/javascript"}

    def log_message(self, format: str, *words: object) -> None:
        pass


def names_of_yjs(scripts: Path) -> dict[str, str]:
    """Where a page finds Yjs, and what that imports by a name."""
    lib0 = {*re.findall(r"from '(lib0/[^']+)'", (scripts / "yjs/dist/yjs.mjs").read_text()), "lib0/environment.js", "lib0/logging"}
    found = {name: f"./{name.removesuffix('.js')}.js" for name in sorted(lib0)}
    return {"yjs": "./yjs/dist/yjs.mjs", "isomorphic.js": "./isomorphic.js/browser.mjs", **found}


def lay(room: Path, lists: dict[str, Sequence[Any]]) -> None:
    scripts = needs.yjs()
    for name in ("yjs", "lib0", "isomorphic.js"):
        (room / name).symlink_to(scripts / name)
    for path in [*SCRIPTS, *sorted(needs.modules().glob("*.wasm"))]:
        shutil.copy(path, room)
    for name, items in lists.items():
        (room / name).write_text(json.dumps(list(items)))
    (room / "index.html").write_text(PAGE % json.dumps({"imports": names_of_yjs(scripts)}))


@contextmanager
def opened(lists: dict[str, Sequence[Any]]) -> Iterator[Page]:
    """A page that can measure, with these lists beside it."""
    chromium = find_chromium()
    if not chromium:
        raise needs.Missing("there is no chromium: apt-get install chromium")
    with tempfile.TemporaryDirectory(prefix="wb-peers-") as name:
        lay(Path(name), lists)
        server = http.server.ThreadingHTTPServer(("127.0.0.1", 0), functools.partial(Quiet, directory=name))
        threading.Thread(target=server.serve_forever, daemon=True).start()
        try:
            with Browser(chromium, PATIENCE) as browser:
                page = browser.open(f"http://127.0.0.1:{server.server_address[1]}/")
                if not page.wait("window.measure"):
                    raise ValueError(f"the page does not start: {browser.faults}")
                yield page
        finally:
            server.shutdown()


def measure(page: Page, job: dict[str, Any]) -> dict[str, Any]:
    told: dict[str, Any] = page.value(f"measure({json.dumps(job)})")
    return told
