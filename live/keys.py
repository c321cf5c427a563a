"""The key of a session: 32 bytes, written as base64url. Who has it reads and draws; members that share it can forge one another. It seals, or, if
`tag.` stands before it, tags: then strangers change nothing either, but read all."""
from __future__ import annotations

import base64
import contextlib
import hashlib
import hmac
import os
import re
import secrets
import stat
from argparse import ArgumentTypeError

BYTES = 32
MOST_FILE = 4_096

# how the text of a key begins that tags
TAGS = "tag."


class KeyFault(ArgumentTypeError):
    """It is no key, or its file is open to others."""


def is_tagging(text: str) -> bool:
    return text.startswith(TAGS)


def key_bytes(text: str) -> bytes:
    """The bytes of a key from its text."""
    letters = text[len(TAGS):] if is_tagging(text) else text
    if not re.fullmatch("[A-Za-z0-9_-]{43}=?", letters):
        raise KeyFault("a key has %d bytes in base64url: 43 letters, digits, dashes and underscores" % BYTES)
    return base64.urlsafe_b64decode(letters[:43] + "=")


def text_of(key: bytes) -> str:
    return base64.urlsafe_b64encode(key).decode().rstrip("=")


def new_key(tags: bool = False) -> str:
    return (TAGS if tags else "") + secrets.token_urlsafe(BYTES)


def key_for(text: str, name: str) -> str:
    """The key of one session of many that a key is for: who is given that knows no other of them."""
    return (TAGS if is_tagging(text) else "") + text_of(hmac.digest(key_bytes(text), name.encode(), "sha256"))


def secret_text(path: str) -> str:
    """The first line of a file that only its owner reads."""
    try:
        with open(path, "rb") as file:
            if stat.S_IMODE(os.fstat(file.fileno()).st_mode) & 0o077:
                raise KeyFault("%s can be read by others: chmod 600 %s" % (path, path))
            return file.read(MOST_FILE).decode("utf-8").split("\n")[0].strip()
    except (OSError, UnicodeDecodeError) as fault:
        raise KeyFault("%s can't be read: %s" % (path, getattr(fault, "strerror", None) or "it is no text")) from fault


def read_key(path: str) -> str:
    """The text of the key in a file."""
    text = secret_text(path)
    key_bytes(text)
    return text


def write_key(path: str, tags: bool = False) -> None:
    """Makes a file with a new key, which only its owner reads. A file that is there stays as it is."""
    try:
        file = os.open(path, os.O_WRONLY | os.O_CREAT | os.O_EXCL, 0o600)
    except OSError as fault:
        raise KeyFault("%s can't be made: %s" % (path, fault.strerror)) from fault
    with os.fdopen(file, "w") as writer:
        writer.write(new_key(tags) + "\n")
        writer.flush()
        os.fsync(file)


def own_key(path: str) -> str:
    """The text of the key in a file, which is made, with a new key that tags, where it is not there. If several make it at a time, one does, and nobody
    sees a part of it."""
    if not os.path.lexists(path):
        made = "%s.%s" % (path, secrets.token_hex(8))
        write_key(made, tags=True)
        try:
            with contextlib.suppress(FileExistsError):
                os.link(made, path)
        except OSError as fault:
            raise KeyFault("%s can't be made: %s" % (path, fault.strerror)) from fault
        finally:
            os.unlink(made)
    return read_key(path)


def digest_of(text: str) -> str:
    """What tells keys apart, and tells nothing else of them."""
    return hashlib.sha256(text.encode()).hexdigest()[:16]
