"""Where a member's record is kept: the state directory of the XDG rules has a folder for each session, and there a file for each
member. A start goes on with the one that was used last and that no other member has."""
from __future__ import annotations

import errno
import os
import secrets
import stat
from pathlib import Path
from typing import Iterator, Tuple

from .invitation import FIRST_NAME
from .keys import KeyFault, digest_of, key_for, own_key
from .options import Options
from .record import Record, RecordFault

# what to do where nobody said who may draw
NO_KEY = "who may draw in this network? --key FILE or an invitation for those who have it (--new-key FILE makes a key), --open for anybody"


def random_number() -> int:
    """A member's number that hardly anyone else has."""
    return 1_000_000 + secrets.randbelow(999_000_000)


def session_name(options: Options) -> str:
    """What tells sessions apart: a broker, a group, where one listens, the ports of this machine, or the page of a class of its own; a name; and a
    key, since what was drawn under one is nothing for those who have another."""
    return carrier_name(options) + ("" if options.session == FIRST_NAME else "-" + options.session) + ("-" + digest_of(options.key) if options.key else "")


def carrier_name(options: Options) -> str:
    if options.broker:
        return "broker-%s-%d" % (options.broker.host, options.broker.port)
    if options.lan:
        return "group-%s-%d" % options.lan
    if options.listen:
        return "listen-%s-%d" % options.listen
    return "web-%d" % options.web[1] if options.is_alone and options.web else "ports-%d" % options.ports


def folder_of(options: Options) -> Path:
    """The folder of the session, which is made where it is not there."""
    folder = state_folder() / session_name(options).replace("/", "_")
    try:
        make_all(folder)
    except OSError as fault:
        raise RecordFault("no record can be kept in %s (%s): --record FILE names another place" % (folder, fault.strerror)) from fault
    return folder


def state_folder() -> Path:
    """Where a user's records and key are."""
    named = os.environ.get("XDG_STATE_HOME", "")
    return (Path(named) if named.startswith("/") else Path.home() / ".local" / "state") / "wb"


def make_all(folder: Path) -> None:
    """Makes the state folder, and one in it."""
    state = state_folder()
    state.parent.mkdir(parents=True, exist_ok=True)
    for each in dict.fromkeys((state, folder)):
        make_private(each)


def lock(options: Options) -> None:
    """Closes the session to all who lack its key, unless it is opened: on a network that key is given, and on this machine its user has one. KeyFault
    where there is none."""
    if options.is_open or options.replay or options.is_alone:
        return
    if options.key is None and (options.lan or options.listen or options.broker):
        raise KeyFault(NO_KEY)
    options.lock = options.key or key_for(key_of_user(), carrier_name(options))


def key_of_user() -> str:
    """The key of this user's sessions on this machine, from the first start on."""
    path = state_folder() / "key"
    try:
        make_all(path.parent)
    except OSError as fault:
        raise KeyFault("no key can be kept in %s (%s): --key FILE names one, and --open goes without" % (path.parent, fault.strerror)) from fault
    return own_key(str(path))


def make_private(folder: Path) -> None:
    """Makes a folder that is its owner's alone, or makes one so that is there. OSError if it is a link, or somebody else's."""
    if folder.is_symlink():
        raise OSError(errno.ELOOP, "%s is a link, and none is followed" % folder.name)
    folder.mkdir(mode=0o700, exist_ok=True)
    opened = os.open(folder, os.O_RDONLY | os.O_DIRECTORY | os.O_NOFOLLOW)
    try:
        if stat.S_IMODE(os.fstat(opened).st_mode) & 0o077:
            os.fchmod(opened, 0o700)
    finally:
        os.close(opened)


def used_at(entry: "os.DirEntry[str]") -> float:
    """When a file was used last; 0 if it is gone."""
    try:
        return entry.stat(follow_symlinks=False).st_mtime
    except OSError:
        return 0.0


def free(folder: Path) -> Iterator[Record]:
    """The records of a session that no other member has, each open, the one used last first. A link is none."""
    files = [entry for entry in os.scandir(folder) if entry.name.endswith(".wb") and entry.is_file(follow_symlinks=False)]
    for entry in sorted(files, key=used_at, reverse=True):
        try:
            yield Record(entry.path)
        except RecordFault:
            continue


def named(options: Options) -> Record:
    """The record that the words name, by its path or by the member's number; a new one where it is to be forgotten."""
    path = options.record or str(folder_of(options) / ("%d.wb" % (options.me or 0)))
    record = Record(path)
    if options.forget:
        record.remove()
        record = Record(path)
    return record


def first_free(options: Options) -> Tuple[Record, int]:
    """The record that was used last, or a new one under a new number."""
    folder = folder_of(options)
    for record in free(folder):
        if not options.forget:
            os.utime(record.file)
            return record, 0
        record.remove()
        break
    number = random_number()
    return Record(str(folder / ("%d.wb" % number))), number


def open_record(options: Options) -> Tuple[Record, int]:
    """The record of this start, and the member's number."""
    record, number = (named(options), 0) if options.record or options.me is not None else first_free(options)
    first = record.first()
    if first is None:
        return record, number or (random_number() if options.me is None else options.me)
    me = int(first.split()[1])
    if options.me not in (None, me):
        record.close()
        raise RecordFault("%s is the record of member %d" % (record.path, me))
    return record, me
