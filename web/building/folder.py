"""Puts the folder together that is served: the board's page, the member round the module, and what keeps them in a browser."""
from __future__ import annotations

import hashlib
import json
import shutil
from pathlib import Path

TOP = Path(__file__).resolve().parent.parent.parent

# The page runs and shows what stands in the folder, and nothing else. Its worker alone speaks to a broker.
POLICY = "; ".join([
    "default-src 'none'", "script-src 'self' 'wasm-unsafe-eval'", "style-src 'self'", "img-src 'self' data: blob:", "connect-src 'self' ws: wss:",
    "worker-src 'self'", "manifest-src 'self'", "base-uri 'none'", "form-action 'self'"])

# where the scripts stand: the page that people see, and the member in a browser
UI, MEMBER = "live/ui", "web/member"

# what stands elsewhere in the folder, or not at all
ELSEWHERE = ("index.html", "service.js", "package.json")

# parts of the page that are for a member behind HTTP
OF_HTTP = ("start.js", "connection.js")

# lines of the page's index.html, and what stands there instead
EDITS = [
    ('<meta name="wb-token" content="__TOKEN__">\n<meta name="wb-address" content="__ADDRESS__">\n',
     '<meta http-equiv="Content-Security-Policy" content="%s">\n<meta name="referrer" content="no-referrer">\n' % POLICY),
    ('<link rel="stylesheet" href="page/style.css">\n',
     '<link rel="stylesheet" href="live/ui/style.css">\n<link rel="stylesheet" href="web/member/panel.css">\n'
     '<link rel="manifest" href="web/member/page.webmanifest">\n'),
    ('<script type="module" src="page/start.js"></script>\n', '<script type="module" src="web/member/page.js"></script>\n'),
]


class Changed(Exception):
    """The board's page is another one than this was written for."""


def index() -> str:
    """The page of live/ui, with another start and a policy of its own."""
    text = (TOP / UI / "index.html").read_text()
    for old, new in EDITS:
        if text.count(old) != 1:
            raise Changed("live/ui/index.html has not one line %r" % old)
        text = text.replace(old, new)
    return text


def digest(path: Path) -> str:
    return hashlib.sha256(path.read_bytes()).hexdigest()


def lay_files(folder: Path, module: Path) -> None:
    """The files that come from elsewhere as they are."""
    for part in (UI, MEMBER):
        (folder / part).mkdir(parents=True)
        for path in sorted((TOP / part).iterdir()):
            if path.is_file() and not path.name.endswith(".d.ts") and path.name not in (*ELSEWHERE, *(OF_HTTP if part == UI else ())):
                shutil.copyfile(path, folder / part / path.name)
    shutil.copyfile(TOP / MEMBER / "service.js", folder / "service.js")
    shutil.copyfile(TOP / "tools/installed/THIRD-PARTY", folder / "THIRD-PARTY.txt")
    for name in ("wb.wasm", "wb-any.wasm"):
        shutil.copyfile(module / name, folder / name)


def lay_folder(folder: Path, module: Path, built: dict[str, str]) -> int:
    """Makes the folder anew, and gives the bytes of its files. `built` says of what the module was made."""
    made = folder.with_name(folder.name + ".new")
    shutil.rmtree(made, ignore_errors=True)
    lay_files(made, module)
    (made / "index.html").write_text(index())
    modules = {path.name: digest(path) for path in sorted(made.glob("*.wasm"))}
    said = json.dumps({**built, "modules": modules}, indent=2)
    (made / MEMBER / "built.js").write_text("/** Of what this folder was built. Written by the build. */\nexport const BUILT = %s;\n" % said)
    files = sorted(str(path.relative_to(made)) for path in made.rglob("*") if path.is_file() and path.name != "service.js")
    whole = hashlib.sha256("".join("%s %s\n" % (digest(made / name), name) for name in files).encode()).hexdigest()
    told = json.dumps({"build": whole[:16], "files": ["./", *files]}, indent=2)
    (made / "files.js").write_text("/** The files of this folder, which a browser keeps. Written by the build. */\nself.FOLDER = %s;\n" % told)
    shutil.rmtree(folder, ignore_errors=True)
    made.rename(folder)
    return sum(path.stat().st_size for path in folder.rglob("*") if path.is_file())
