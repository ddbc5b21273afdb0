"""A folder that a person works in, beside its history in `.wunthavel/store`."""
import contextlib
import fnmatch
import hashlib
import json
import os
import re
import stat
import tempfile
import time
from dataclasses import dataclass
from typing import Dict, Iterable, Iterator, List, Optional, Tuple

from .errors import HistoryError
from .protocol import File, raw, text

OWN = ".wunthavel"
IGNORED = ".wunthavelignore"


class WorkError(HistoryError):
    """What a person asked can't be done with the files as they are; it says which."""


def refuse_path(path: str, done: str = "written") -> None:
    """Refuses a path that would lead out of the folder, or into the data of git or of Wunthavel."""
    for part in path.split("/"):
        # The names that some systems take for these two are refused with them.
        plain = part.rstrip(". ").lower()
        if part in ("", ".", "..") or plain in (".git", OWN, "git~1") or "\0" in part or "\\" in part and os.sep == "\\":
            raise WorkError(f"{ascii(path)} isn't {done}: a path may not be absolute, and has no part {part!r}")


def store_of(folder: str) -> str:
    """Returns the folder of a history: of one that a person works in the one in it, and else the folder itself."""
    inside = os.path.join(folder, OWN, "store")
    return inside if os.path.isdir(inside) else folder


def _runs(pid: int) -> bool:
    try:
        os.kill(pid, 0)
    except ProcessLookupError:
        return False
    except OSError:
        return True
    return True


@dataclass(frozen=True)
class Here:
    """A file of the folder: its kind and path, and its place on disk."""

    kind: str
    path: str
    size: int
    mark: Tuple[int, ...]


class WorkTree:
    """A folder with its history."""

    def __init__(self, folder: str) -> None:
        self.folder = folder
        self.store = os.path.join(folder, OWN, "store")
        self._known: Dict[str, List[object]] = {}
        self._read_known()

    @property
    def sha256(self) -> bool:
        """Whether the ids of this history are of SHA-256, which a store without objects can't say."""
        return os.path.exists(os.path.join(self.folder, OWN, "sha256"))

    def mark_sha256(self) -> None:
        """Keeps that the ids are of SHA-256."""
        with open(os.path.join(self.folder, OWN, "sha256"), "w", encoding="ascii"):
            pass

    @classmethod
    def find(cls, start: str = ".") -> "WorkTree":
        """Returns the folder, `start` or one that it is in, that has a history."""
        folder = os.path.abspath(start)
        while not os.path.isdir(os.path.join(folder, OWN, "store")):
            above = os.path.dirname(folder)
            if above == folder:
                raise WorkError(f"no history here: neither {os.path.abspath(start)} nor a folder that it is in has {OWN} (wunthavel init makes one)")
            folder = above
        return cls(folder)

    @contextlib.contextmanager
    def switching(self, branch: str) -> Iterator[None]:
        """Keeps that the files are being made those of a branch, until HEAD names it. A stop leaves that to be seen."""
        place = os.path.join(self.folder, OWN, "switching")
        with open(place, "w", encoding="utf-8", errors="surrogateescape") as it:
            it.write(branch)
        yield
        os.unlink(place)

    @property
    def stopped_switch(self) -> Optional[str]:
        """The branch whose files were being made here when a switch was stopped."""
        with contextlib.suppress(OSError), open(os.path.join(self.folder, OWN, "switching"), encoding="utf-8", errors="surrogateescape") as it:
            return it.read()
        return None

    def place(self, path: str) -> bytes:
        """Returns a path's place on disk."""
        return os.path.join(os.fsencode(self.folder), raw(path))

    def path_of(self, given: str) -> str:
        """Returns the path, from the folder on, of what a person named from the current directory; the folder itself is an empty one."""
        place = os.path.normpath(os.path.join(os.getcwd(), given))
        path = os.path.relpath(place, self.folder)
        if path == os.pardir or path.startswith(os.pardir + os.sep):
            raise WorkError(f"{given} isn't in {self.folder}")
        return "" if path == "." else text(os.fsencode(path))

    def files(self) -> Iterator[Here]:
        """Gives the folder's files but those that `.wunthavelignore` names, in no order."""
        patterns = []
        with contextlib.suppress(OSError), open(os.path.join(self.folder, IGNORED), encoding="utf-8", errors="surrogateescape") as it:
            patterns = [line.strip().rstrip("/") for line in it if line.strip() and not line.startswith("#")]
        yield from self._below(b"", patterns)

    def _below(self, below: bytes, patterns: List[str]) -> Iterator[Here]:
        with os.scandir(os.path.join(os.fsencode(self.folder), below)) as entries:
            for it in entries:
                name = text(it.name)
                path = below + it.name
                if re.fullmatch(OWN + "-[0-9]+", name) and not _runs(int(name[len(OWN) + 1 :])):
                    # A command that was stopped was writing it.
                    os.unlink(it.path)
                elif name.lower() in (".git", OWN) or name.startswith(OWN + "-") or any(fnmatch.fnmatch(name, one) or fnmatch.fnmatch(text(path), one) for one in patterns):
                    continue
                elif it.is_dir(follow_symlinks=False):
                    yield from self._below(path + b"/", patterns)
                elif it.is_symlink() or it.is_file(follow_symlinks=False):
                    yield self._here(text(path), it.stat(follow_symlinks=False))

    def at(self, paths: Iterable[str]) -> Iterator[Here]:
        """Gives the files on disk at these paths, and those that are in their way: at a beginning of one, or below it."""
        given = set()
        for path in paths:
            for it in self._at(path):
                if it.path not in given:
                    given.add(it.path)
                    yield it

    def _at(self, path: str) -> Iterator[Here]:
        parts = path.split("/")
        for count in range(1, len(parts) + 1):
            one = "/".join(parts[:count])
            found = self._look(one)
            if found is None:
                return
            if not stat.S_ISDIR(found.st_mode):
                yield self._here(one, found)
                return
        yield from self._below(raw(path) + b"/", [])

    def _look(self, path: str) -> Optional[os.stat_result]:
        """Returns what is at a path, or `None` if nothing is."""
        try:
            found = os.lstat(self.place(path))
        except (FileNotFoundError, NotADirectoryError):
            return None
        if not (stat.S_ISDIR(found.st_mode) or stat.S_ISREG(found.st_mode) or stat.S_ISLNK(found.st_mode)):
            raise WorkError(f"{ascii(path)} is neither a file, a link nor a folder")
        return found

    def _here(self, path: str, found: os.stat_result) -> Here:
        kind = "link" if stat.S_ISLNK(found.st_mode) else "exec" if found.st_mode & stat.S_IXUSR else "file"
        return Here(kind, path, found.st_size, (found.st_mtime_ns, found.st_ctime_ns, found.st_size, found.st_ino))

    def read(self, file: Here) -> bytes:
        """Returns the content: of a link its target."""
        place = self.place(file.path)
        if file.kind == "link":
            return os.readlink(place)
        with open(place, "rb") as it:
            return it.read()

    def id_of(self, file: Here, sha256: bool) -> str:
        """Returns the id that the file's content has in a history. What was read before and hasn't changed since isn't read again."""
        known = self._known.get(file.path)
        if known and known[0] == list(file.mark) and len(str(known[1])) == (64 if sha256 else 40):
            return str(known[1])
        digest = hashlib.new("sha256" if sha256 else "sha1", b"blob %d\0" % file.size)
        size = 0
        if file.kind == "link":
            content = self.read(file)
            size = len(content)
            digest.update(content)
        else:
            with open(self.place(file.path), "rb") as it:
                for part in iter(lambda: it.read(1 << 20), b""):
                    size += len(part)
                    digest.update(part)
        if size != file.size:
            raise WorkError(f"{file.path} changed while it was read")
        id = digest.hexdigest()
        # A file that was written just now may be written again without a sign of it.
        if file.mark[0] < time.time_ns() - 2_000_000_000:
            self._known[file.path] = [list(file.mark), id]
        else:
            self._known.pop(file.path, None)
        return id

    def _read_known(self) -> None:
        with contextlib.suppress(OSError, ValueError), open(os.path.join(self.folder, OWN, "known.json"), encoding="ascii") as it:
            known = json.load(it)
            self._known = known if isinstance(known, dict) else {}

    def remember(self) -> None:
        """Keeps what is known of the files' ids for the next time."""
        with contextlib.suppress(OSError):
            folder = os.path.join(self.folder, OWN)
            with tempfile.NamedTemporaryFile("w", dir=folder, prefix="known.", delete=False, encoding="ascii") as it:
                json.dump(self._known, it)
            os.replace(it.name, os.path.join(folder, "known.json"))

    def write(self, file: File, content: bytes) -> None:
        """Writes a file whole in the place of what is there, through no link."""
        refuse_path(file.path)
        self._make_way(file.path)
        place = self.place(file.path)
        if os.path.isdir(place) and not os.path.islink(place):
            os.rmdir(place)
        folder = os.path.dirname(place)
        beside = os.path.join(folder, os.fsencode(f"{OWN}-{os.getpid()}"))
        with contextlib.suppress(FileNotFoundError):
            os.unlink(beside)
        if file.kind == "link":
            os.symlink(content, beside)
        else:
            mode = 0o777 if file.kind == "exec" else 0o666
            with open(os.open(beside, os.O_WRONLY | os.O_CREAT | os.O_EXCL, mode), "wb") as it:
                it.write(content)
        os.replace(beside, place)

    def _make_way(self, path: str) -> None:
        """Makes the folders that a path lies in, and refuses one that is a link or a file."""
        parts = path.split("/")[:-1]
        for count in range(1, len(parts) + 1):
            folder = self.place("/".join(parts[:count]))
            try:
                os.mkdir(folder)
            except FileExistsError:
                if os.path.islink(folder) or not os.path.isdir(folder):
                    raise WorkError(f"{ascii(path)} isn't written: {'/'.join(parts[:count])} is a link or a file") from None

    def remove(self, path: str) -> None:
        """Removes a file, and then the folders that are empty without it."""
        refuse_path(path)
        parts = path.split("/")
        if any(os.path.islink(self.place("/".join(parts[:count]))) for count in range(1, len(parts))):
            raise WorkError(f"{ascii(path)} isn't removed: it lies beyond a link")
        with contextlib.suppress(FileNotFoundError, NotADirectoryError):
            os.unlink(self.place(path))
        with contextlib.suppress(OSError):
            for count in range(len(parts) - 1, 0, -1):
                os.rmdir(self.place("/".join(parts[:count])))
