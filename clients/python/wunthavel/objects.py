"""The files of a history's objects: each is named by the digest of its bytes, written whole, and never changed."""
import hashlib
import os
import re
from typing import Iterator, Optional

from .bridge_folder import loose_objects, read_file

_DIGITS = re.compile(rb"[0-9a-f]{40}|[0-9a-f]{64}")


def stored(folder: bytes) -> Iterator[bytes]:
    """Gives the ids whose objects have files in the folder of a history, ascending but for what a folder of them has."""
    for digits in loose_objects(os.path.join(folder, b"objects")):
        if _DIGITS.fullmatch(digits):
            yield bytes.fromhex(digits.decode())


def place_of(folder: bytes, id: bytes) -> bytes:
    """Returns the place of an object's file."""
    digits = id.hex().encode()
    return os.path.join(folder, b"objects", digits[:2], digits[2:])


def is_object(id: bytes, data: Optional[bytes]) -> bool:
    """Returns whether the bytes are those of the object that has this id."""
    return data is not None and hashlib.new("sha256" if len(id) == 32 else "sha1", data).digest() == id


def put_object(folder: bytes, id: bytes, data: bytes) -> bytes:
    """Writes an object's file as an engine does, under the name `unfinished` first, and a rename once the disk has it; a file that has its id stays. The folder
    must be held alone. Returns the folder that the file is in, whose names the disk may not have yet."""
    place = place_of(folder, id)
    if not is_object(id, read_file(place)):
        unfinished = os.path.join(folder, b"objects", b"unfinished")
        write_synced(unfinished, data)
        os.makedirs(os.path.dirname(place), exist_ok=True)
        os.rename(unfinished, place)
    return os.path.dirname(place)


def write_synced(path: bytes, data: bytes) -> None:
    """Writes a file, and returns once the disk has it."""
    with open(path, "wb") as it:
        it.write(data)
        it.flush()
        os.fsync(it.fileno())


def sync_folder(folder: bytes) -> None:
    """Returns once the disk has the names that are in a folder."""
    at = os.open(folder, os.O_RDONLY)
    try:
        os.fsync(at)
    finally:
        os.close(at)
