"""Digests the objects of a folder, as long as there is time, and goes on where it stopped the next time. It reads alone, so a server may work meanwhile."""
import contextlib
import hashlib
import os
import time
from dataclasses import dataclass, field
from typing import Iterator, List, Optional

from .engine import Folder
from .errors import Damaged

# How many bytes are read together.
PART = 1 << 20


@dataclass
class Verified:
    """What was digested: how many objects, those that are damaged, and whether the last one was among them."""

    objects: int = 0
    damaged: List[Damaged] = field(default_factory=list)
    is_whole: bool = False


def verify(folder: Folder, seconds: float, place: Folder) -> Verified:
    """Digests objects for so many seconds, from where the file `place` says that it stopped, and keeps there where it stops now. A file that is damaged
    doesn't end it."""
    end, found = time.monotonic() + seconds, Verified()
    last = _read(place)
    for path in _objects(os.path.join(os.fspath(folder), "objects"), last):
        if time.monotonic() >= end:
            break
        error = _damage(os.path.join(os.fspath(folder), "objects", path), path)
        if error is not None:
            found.damaged.append(error)
        found.objects += 1
        last = path
    else:
        found.is_whole, last = True, ""
    _write(place, last)
    return found


def _objects(folder: str, after: str) -> Iterator[str]:
    """Gives the places of objects, ascending, after a place."""
    for beginning in sorted(it for it in os.listdir(folder) if len(it) == 2 and it >= after[:2]):
        paths = sorted(f"{beginning}/{it}" for it in os.listdir(os.path.join(folder, beginning)))
        yield from (it for it in paths if it > after)


def _damage(file: str, path: str) -> Optional[Damaged]:
    """Returns what is wrong with an object whose bytes haven't the id that its place says."""
    id = path.replace("/", "")
    digest = hashlib.new("sha256" if len(id) == 64 else "sha1")
    with contextlib.suppress(OSError), open(file, "rb") as it:
        for part in iter(lambda: it.read(PART), b""):
            digest.update(part)
        if digest.hexdigest() == id:
            return None
    return Damaged(f"objects/{path}", id)


def _read(place: Folder) -> str:
    with contextlib.suppress(OSError), open(place, encoding="ascii") as it:
        return it.read().strip()
    return ""


def _write(place: Folder, last: str) -> None:
    """Keeps a place by a rename, so that a stop leaves the one before or this one."""
    beside = f"{os.fspath(place)}.new"
    with open(beside, "w", encoding="ascii") as it:
        it.write(last + "\n")
    os.replace(beside, place)
