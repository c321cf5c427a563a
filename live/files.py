"""What the page's server gives that is made before: the files of the page, as they are and packed, and the page that tells why there is none.

A script or style stands under a name that has the digest of all of them: a browser keeps it for good, and asks for nothing but the page itself."""
from __future__ import annotations

import gzip
import hashlib
import json
from html import escape
from pathlib import Path
from typing import Any, Dict, List, NamedTuple

PAGE = Path(__file__).resolve().parent / "ui"

# what is served of that directory beside its index, by the end of the name
KINDS = {".js": "text/javascript; charset=utf-8", ".css": "text/css; charset=utf-8"}

HTML = "text/html; charset=utf-8"

# what a browser may do with what it got: keep nothing; ask whether it is the same still; or keep it, since it never is another
NOTHING, ASKING, FOR_GOOD = "no-store", "no-cache", "private, max-age=31536000, immutable"

# the table of all texts of the page, and its languages in their order; and those that are written from right to left
TABLE, LANGUAGES, FROM_RIGHT = PAGE / "texts.js", ("en", "de", "ar"), ("ar",)

REFUSED = """<!DOCTYPE html>
<html lang="%(language)s" dir="%(direction)s"><head><meta charset="utf-8"><meta name="viewport" content="width=device-width, initial-scale=1"><title>%(title)s</title></head>
<body><main><h1>%(title)s</h1><p>%(why)s</p></main></body></html>
"""

# statuses for which the table says what people can do
KNOWN = (403, 404, 503)


class File(NamedTuple):
    """Bytes that are served: of what kind, as they are and packed, what tells them from others, and what a browser may do with them."""

    kind: str
    body: bytes
    packed: bytes
    tag: str
    keeping: str


def file_of(kind: str, body: bytes, keeping: str) -> File:
    return File(kind, body, gzip.compress(body, 6, mtime=0), '"%s"' % hashlib.sha256(body).hexdigest()[:16], keeping)


def page_files(token: str, address: str) -> Dict[str, File]:
    """The page under the path `/`, and its scripts and styles under theirs. The page names all scripts, so that a browser asks for them at once, and
    its address for others."""
    bodies = {file.name: file.read_bytes() for file in sorted(PAGE.iterdir()) if file.suffix in KINDS}
    digest = hashlib.sha256(b"".join(name.encode() + body for name, body in bodies.items())).hexdigest()[:12]
    scripts: List[str] = ['<link rel="modulepreload" href="page/%s">' % name for name in bodies if name.endswith(".js")]
    index = (PAGE / "index.html").read_text().replace("</head>", "\n".join([*scripts, "</head>"]), 1)
    files = {"/page/%s/%s" % (digest, name): file_of(KINDS[Path(name).suffix], body, FOR_GOOD) for name, body in bodies.items()}
    files["/"] = file_of(HTML, index.replace("__TOKEN__", token).replace("__ADDRESS__", escape(address)).replace('="page/', '="page/%s/' % digest).encode(), ASKING)
    return files


def language_of(accepted: str) -> str:
    """The first language that a browser reads and the table has, by the header `Accept-Language`; else English."""
    read = [part.split(";")[0].split("-")[0].strip().lower() for part in accepted.split(",")]
    return next((each for each in read if each in LANGUAGES), LANGUAGES[0])


def refusal(status: int, fault: str, accepted: str = "") -> bytes:
    """A page for whoever gets no board, with what to do and why, in a language that its reader accepts."""
    script, language = TABLE.read_text(encoding="utf-8"), language_of(accepted)
    table: Dict[str, List[Any]] = json.loads(script[script.index("{\n"):script.rindex("}") + 1])
    at, kind = LANGUAGES.index(language), "refused%s" % (status if status in KNOWN else "Else")
    told = next((row[at] for key, row in table.items() if key.startswith("told") and row[0] == fault), fault)
    why = "%s <small>(%s)</small>" % (escape(table[kind + "What"][at]), escape(told))
    direction = "rtl" if language in FROM_RIGHT else "ltr"
    return (REFUSED % {"language": language, "direction": direction, "title": escape(table[kind][at]), "why": why}).encode()
