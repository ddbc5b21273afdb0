"""`wunthavel backup FOLDER DEST`: a copy of a history that is whole, also while a server works on it.

The names with their logs are copied in one moment between two changes: a server holds changes back meanwhile, and without a server the folder's lock keeps
engines away. Whatever they reach is stored by then, and objects only grow, so these are copied afterwards, while others go on.
"""
import argparse
import contextlib
import fcntl
import os
import shutil
from typing import Any, Dict, Iterator, Optional, Sequence

from . import protocol
from .bridge import Bars, add_common_words, report
from .bridge_folder import files_below, held, read_file
from .engine import Folder, act, is_sha256
from .errors import HistoryError, Refused
from .objects import is_object, place_of, put_object, stored, sync_folder, write_synced
from .served import connect
from .worktree import store_of

# For how many milliseconds at most a server is asked to hold changes back.
HELD = 60_000
NAMES = (b"HEAD", b"packed-refs", b"refs", b"logs")


class BackupError(HistoryError):
    """The backup isn't made, for the reason that its text says."""


def backup(
    folder: Folder, dest: Folder, socket: Optional[str] = None, *, sha256: Optional[bool] = None, engine: Optional[str] = None, bars: Optional[Bars] = None
) -> Dict[str, int]:
    """Copies the history in `folder` to `dest`, which is its last backup or doesn't exist yet, and returns how many files of names and logs were copied, and how
    many objects. `socket` is the address of the server that works on it, if there is one."""
    source, places, bars = os.fsencode(store_of(os.fspath(folder))), _Places(os.fsencode(dest)), bars or Bars(quiet=True)
    if not os.path.exists(os.path.join(source, b"HEAD")):
        raise BackupError(f"{os.fspath(folder)} holds no history: it has no file HEAD")
    with _locked(places.dest + b".lock"):
        places.prepare()
        with _still(source, socket):
            files = _copy_names(source, places.new)
        with held(places.home, alone=True):
            objects = _copy_objects(source, places.home, bars)
            places.swap()
        try:
            with bars.during("reading the backup") as bar:
                act("check", os.fsdecode(places.dest), is_sha256(os.fsdecode(source)) if sha256 is None else sha256, engine, lambda: bar.step(0))
        except Refused as error:
            places.undo()
            raise BackupError(f"the copy isn't whole, and the last backup stays as it was: {error}") from error
        places.forget()
    return {"names": files, "objects": objects}


class _Places:
    """The folders of a backup: of the backup itself, of its next names before these are swapped in, and of its last names until all of it was read again."""

    def __init__(self, dest: bytes) -> None:
        self.dest = os.path.abspath(dest)
        self.new, self.old = self.dest + b".new", self.dest + b".old"

    @property
    def home(self) -> bytes:
        """The folder that has the objects: the backup, or before there is one that which becomes it."""
        return self.dest if os.path.isdir(os.path.join(self.dest, b"objects")) else self.new

    def prepare(self) -> None:
        """Makes room for new names."""
        self.undo()
        if self.home == self.new and os.path.isdir(self.dest) and os.listdir(self.dest):
            raise BackupError(f"{os.fsdecode(self.dest)} isn't empty, and is no backup")
        for name in NAMES:
            _remove(os.path.join(self.new, name))
        os.makedirs(self.new, exist_ok=True)
        os.makedirs(os.path.join(self.home, b"objects"), exist_ok=True)

    def swap(self) -> None:
        """Makes the new names those of the backup. After a stop in between `undo` finds the last ones."""
        if self.home == self.dest:
            os.rename(os.path.join(self.dest, b"objects"), os.path.join(self.new, b"objects"))
            os.rename(self.dest, self.old)
        os.rename(self.new, self.dest)
        sync_folder(os.path.dirname(self.dest))

    def undo(self) -> None:
        """Makes the last names those of the backup again, if there are some that weren't forgotten."""
        if os.path.isdir(self.old):
            if os.path.isdir(self.dest):
                os.rename(self.dest, self.new)
            os.rename(self.old, self.dest)
        objects = os.path.join(self.new, b"objects")
        if os.path.exists(os.path.join(self.dest, b"HEAD")) and self.home == self.new and os.path.isdir(objects):
            os.rename(objects, os.path.join(self.dest, b"objects"))

    def forget(self) -> None:
        """Removes the last names."""
        if os.path.isdir(self.old):
            os.rename(self.old, self.new)
            _remove(self.new)


def _remove(path: bytes) -> None:
    if os.path.isdir(path):
        shutil.rmtree(path)
    else:
        with contextlib.suppress(FileNotFoundError):
            os.remove(path)


@contextlib.contextmanager
def _locked(path: bytes) -> Iterator[None]:
    """Keeps other backups from the same place."""
    with open(path, "wb") as it:
        try:
            fcntl.flock(it, fcntl.LOCK_EX | fcntl.LOCK_NB)
        except BlockingIOError:
            raise BackupError(f"another backup to {os.fsdecode(path[:-5])} is being made") from None
        yield


@contextlib.contextmanager
def _still(source: bytes, socket: Optional[str]) -> Iterator[None]:
    """Keeps names and logs as they are. If a server couldn't do that all the time, the end is `NotHeld`."""
    if socket is None:
        with held(source, alone=False):
            yield
        return
    with connect(socket) as server:
        server.run(protocol.hold(HELD))
        yield
        server.run(protocol.release())


def _copy_names(source: bytes, new: bytes) -> int:
    """Copies names and logs, and returns the number of files. Locks are left by a stop, and no part of them."""
    folders = {new}
    count = 0
    for path in (b"HEAD", b"packed-refs", *files_below(source, b"refs"), *files_below(source, b"logs")):
        data = None if path.endswith(b".lock") else read_file(os.path.join(source, path))
        if data is not None:
            place = os.path.join(new, path)
            os.makedirs(os.path.dirname(place), exist_ok=True)
            write_synced(place, data)
            folders.add(os.path.dirname(place))
            count += 1
    for it in folders:
        sync_folder(it)
    return count


def _copy_objects(source: bytes, home: bytes, bars: Bars) -> int:
    """Copies the objects that the backup hasn't, each if its bytes have its id, and returns their number."""
    has = set(stored(home))
    missing = [it for it in stored(source) if it not in has]
    folders, damaged = {os.path.join(home, b"objects")}, []
    for id in bars.over(missing, "copying objects", len(missing)):
        data = read_file(place_of(source, id))
        if data is not None and is_object(id, data):
            folders.add(put_object(home, id, data))
        else:
            damaged.append(id)
    for it in folders:
        sync_folder(it)
    if damaged:
        path = os.fsdecode(os.path.relpath(place_of(source, damaged[0]), source))
        raise BackupError(f"{len(damaged):,} objects are damaged, among them {path} (wunthavel doctor lists them); the last backup stays as it was")
    return len(missing)


def main(argv: Sequence[str]) -> int:
    """`wunthavel backup FOLDER DEST`."""
    text = "Copies a history, and after that what is new alone. The copy is read in full at its end, and takes the place of the last one if it is whole."
    parser = argparse.ArgumentParser(prog="wunthavel backup", description=text, epilog="example: wunthavel backup --socket store.sock store /mnt/store")
    parser.add_argument("folder", metavar="FOLDER", help="a history's folder, or a folder with its history in .wunthavel/store")
    parser.add_argument("dest", metavar="DEST", help="the folder of the backup, whose parent exists")
    parser.add_argument("--socket", metavar="SOCKET", help="the address of the server that works on the folder")
    parser.add_argument("--sha256", action="store_true", default=None, help="the ids are of SHA-256; objects that exist show it without this")
    add_common_words(parser)
    asked = parser.parse_args(argv)

    def work(bars: Bars) -> Dict[str, Any]:
        return {"done": True, **backup(asked.folder, asked.dest, asked.socket, sha256=asked.sha256, engine=asked.engine, bars=bars)}

    return report(work, asked)
