"""A history's folder, read and written as files. It is written so that a stop leaves nothing that `recover` doesn't mend."""
import contextlib
import fcntl
import os
import re
from typing import ContextManager, Dict, Iterator, Optional, Set, Tuple

from .bridge import Side
from .bridge_forms import SHA1, SHA256, BridgeError, Hashing, read_tag, shown
from .engine import act, patiently
from .errors import Busy, Unfinished
from .progress import Progress
from .worktree import store_of

# How many seconds to wait for another process that works in a folder.
WAIT = 5.0
HEADER = b"# pack-refs with: peeled fully-peeled sorted \n"


def read_file(path: bytes) -> Optional[bytes]:
    """Returns the file's bytes, or None if no file is there."""
    try:
        with open(path, "rb") as it:
            return it.read()
    except (FileNotFoundError, NotADirectoryError, IsADirectoryError):
        return None


def write_file(path: bytes, data: bytes) -> None:
    """Writes a file whole: beside its place first, under a name that git and the engine know as unfinished."""
    os.makedirs(os.path.dirname(path), exist_ok=True)
    with open(path + b".lock", "xb") as it:
        it.write(data)
    os.rename(path + b".lock", path)


def files_below(folder: bytes, top: bytes) -> Iterator[bytes]:
    """Returns the paths, from the folder on, of the files at or below top in it."""
    for at, _, names in os.walk(os.path.join(folder, top)):
        for name in names:
            yield os.path.relpath(os.path.join(at, name), folder)


def read_packed(text: bytes) -> Dict[bytes, bytes]:
    """Returns the ids, as hex, by the names of a `packed-refs`."""
    lines = [it.split(b" ", 1) for it in text.splitlines() if not it.startswith((b"#", b"^"))]
    return {it[1]: it[0] for it in lines if len(it) == 2}


def read_names(folder: bytes) -> Dict[bytes, bytes]:
    """Returns the ids by the names of a history's folder. A lock is none."""
    names = read_packed(read_file(os.path.join(folder, b"packed-refs")) or b"")
    for name in files_below(folder, b"refs"):
        if not name.endswith(b".lock"):
            names[name] = (read_file(os.path.join(folder, name)) or b"").strip()
    for name, digits in names.items():
        if not re.fullmatch(rb"(?:[0-9a-f]{40}|[0-9a-f]{64})", digits):
            raise BridgeError(f"{shown(folder)}: the name {shown(name)} holds no id")
    return {name: bytes.fromhex(digits.decode()) for name, digits in names.items()}


def loose_objects(objects: bytes) -> Iterator[bytes]:
    """Returns the digits of the ids of the objects that have files in a folder of objects."""
    with contextlib.suppress(FileNotFoundError, NotADirectoryError):
        for beginning in sorted(os.listdir(objects)):
            if len(beginning) == 2:
                for rest in os.listdir(os.path.join(objects, beginning)):
                    yield beginning + rest


def is_history(folder: bytes) -> bool:
    """Returns whether the folder's objects are a history's. Git's are compressed, and none begins like these."""
    objects = os.path.join(folder, b"objects")
    for digits in loose_objects(objects):
        with open(os.path.join(objects, digits[:2], digits[2:]), "rb", 0) as it:
            return re.match(rb"(?:blob|tree|commit|tag) [0-9]+\0", it.read(40)) is not None
    return False


def read_logs(folder: bytes) -> Dict[bytes, bytes]:
    """Returns the logs, by their names, of a history's folder or a git repository. A lock is none."""
    logs = (it for it in files_below(folder, b"logs/refs") if not it.endswith(b".lock"))
    return {it[5:]: read_file(os.path.join(folder, it)) or b"" for it in logs}


def remove_empty_folders(path: bytes) -> None:
    """Removes the folders at and below a path that no file is in. Git and the engine leave them where names were, and a name can come there."""
    for at, _, _ in os.walk(path, topdown=False):
        with contextlib.suppress(OSError):
            os.rmdir(at)


@contextlib.contextmanager
def held(folder: bytes, alone: bool) -> Iterator[int]:
    """Holds a folder, which it opens, by the system's lock: alone, or with others that only read it. It goes with the process."""
    at = os.open(folder, os.O_RDONLY)
    try:
        _lock(folder, at, fcntl.LOCK_EX if alone else fcntl.LOCK_SH)
        yield at
    finally:
        os.close(at)


def _lock(folder: bytes, at: int, how: int) -> None:
    try:
        patiently(lambda: fcntl.flock(at, how | fcntl.LOCK_NB), WAIT, BlockingIOError)
    except BlockingIOError:
        raise BridgeError(f"{shown(folder)}: another process works there") from None


class Store:
    """The folder of a history."""

    def __init__(self, folder: str, sha256: bool, engine: Optional[str]) -> None:
        self.folder, self.sha256, self.engine = store_of(folder), sha256, engine
        self.hashing: Hashing = SHA256 if sha256 else SHA1
        self.path = os.fsencode(self.folder)
        self._objects = os.path.join(self.path, b"objects")
        self._made: Set[bytes] = set()

    # The whole folder.

    def held(self, alone: bool) -> ContextManager[int]:
        """Holds the folder by the lock that engines take too: alone, or with others that only read it."""
        return held(self.path, alone)

    def exists(self) -> bool:
        """Returns whether there is a history."""
        return os.path.exists(os.path.join(self.path, b"HEAD"))

    def is_stopped(self) -> bool:
        """Returns whether there is a file that a stopped run left."""
        files = [*os.listdir(self.path), *files_below(self.path, b"refs"), *files_below(self.path, b"logs")]
        return any(it.endswith(b".lock") for it in files) or os.path.exists(os.path.join(self._objects, b"unfinished"))

    def check(self, bar: Progress) -> None:
        """Has the engine say whether the folder is whole; `Refused` and `Fault` say why it isn't."""
        self._act("check", bar)

    def _act(self, action: str, bar: Progress) -> None:
        """Has the engine do something, once nobody else works in the folder."""
        patiently(lambda: act(action, self.folder, self.sha256, self.engine, lambda: bar.step(0)), WAIT, Busy)

    def make(self, bar: Progress) -> None:
        """Makes the folder, and a history in it, if none is there, and takes away what a stop left; else it must be whole."""
        os.makedirs(self.folder, exist_ok=True)
        if not self.exists():
            self._act("create", bar)
            return
        try:
            self.check(bar)
        except Unfinished:
            self._act("recover", bar)
            self.check(bar)

    # Names.

    def head(self) -> bytes:
        """Returns the branch that HEAD names."""
        return (read_file(os.path.join(self.path, b"HEAD")) or b"").strip()[5:]

    def side(self) -> Side:
        """Returns the names and logs."""
        return Side(read_names(self.path), read_logs(self.path))

    def write_names(self, names: Dict[bytes, bytes], gone: Set[bytes]) -> None:
        """Deletes names with their logs, and gives others these ids: all at once if none of them has a file of its own."""
        for name in gone:
            self._remove(b"logs/" + name)
        if gone:
            self._repack({name: id for name, id in read_names(self.path).items() if name not in gone}, gone)
        self._repack({**read_names(self.path), **names}, set(names))

    def _repack(self, names: Dict[bytes, bytes], own: Set[bytes]) -> None:
        lines = []
        for name, id in sorted(names.items()):
            lines.append(b"%s %s\n" % (id.hex().encode(), name))
            commit = self._peeled(id)
            if commit:
                lines.append(b"^%s\n" % commit.hex().encode())
        write_file(os.path.join(self.path, b"packed-refs"), HEADER + b"".join(lines))
        for name in sorted(own):
            self._remove(name)

    def _remove(self, place: bytes) -> None:
        with contextlib.suppress(FileNotFoundError, NotADirectoryError, IsADirectoryError):
            os.remove(os.path.join(self.path, place))

    def _peeled(self, id: bytes) -> Optional[bytes]:
        kind, content = self.read(id)
        return read_tag(content, self.hashing).target if kind == "tag" else None

    def write_log(self, name: bytes, log: bytes) -> None:
        """Writes a name's log."""
        path = os.path.join(self.path, b"logs", name)
        remove_empty_folders(path)
        write_file(path, log)

    def write_head(self, branch: bytes) -> None:
        """Has HEAD name the branch."""
        write_file(os.path.join(self.path, b"HEAD"), b"ref: %s\n" % branch)

    # Objects.

    def ids(self) -> Iterator[bytes]:
        """Returns the ids of all objects."""
        digits = re.compile(rb"[0-9a-f]{%d}" % (2 * self.hashing.width))
        return (bytes.fromhex(it.decode()) for it in loose_objects(self._objects) if digits.fullmatch(it))

    def _place(self, id: bytes) -> bytes:
        digits = id.hex().encode()
        return os.path.join(self._objects, digits[:2], digits[2:])

    def has(self, id: bytes) -> bool:
        """Returns whether there is such an object."""
        return os.path.exists(self._place(id))

    def read(self, id: bytes) -> Tuple[str, bytes]:
        """Returns an object's kind and content."""
        text = read_file(self._place(id))
        if text is None:
            raise BridgeError(f"{self.folder} has no object {id.hex()}")
        head, _, content = text.partition(b"\0")
        return head.split(b" ")[0].decode(), content

    def kind_of(self, id: bytes) -> Tuple[str, int]:
        """Returns an object's kind and the length of its content."""
        with open(self._place(id), "rb", 0) as it:
            kind, length = it.read(40).split(b"\0", 1)[0].split(b" ")
        return kind.decode(), int(length)

    def write(self, id: bytes, kind: str, content: bytes) -> None:
        """Writes an object. What it names must be there: so the folder is whole after each one."""
        place = self._place(id)
        folder = os.path.dirname(place)
        if folder not in self._made:
            os.makedirs(folder, exist_ok=True)
            self._made.add(folder)
        unfinished = os.path.join(self._objects, b"unfinished")
        at = os.open(unfinished, os.O_WRONLY | os.O_CREAT | os.O_TRUNC, 0o644)
        try:
            for part in (b"%s %d\0" % (kind.encode(), len(content)), content):
                left = memoryview(part)
                while left:
                    left = left[os.write(at, left) :]
        finally:
            os.close(at)
        os.rename(unfinished, place)
