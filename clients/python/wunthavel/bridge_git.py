"""A git repository, read and written by git itself."""
import contextlib
import hashlib
import io
import os
import re
import subprocess
import tempfile
import threading
import zlib
from typing import IO, Dict, Iterable, Iterator, List, Tuple

from .bridge import Bars
from .bridge_folder import files_below, is_history, read_logs, remove_empty_folders
from .bridge_forms import SHA1, SHA256, BridgeError, Damaged, Hashing, shown
from .errors import HistoryError
from .progress import Progress

# What would have git look elsewhere than at the repository that is named, or make another one than is asked for.
OWN = (
    *("GIT_DIR", "GIT_WORK_TREE", "GIT_INDEX_FILE", "GIT_OBJECT_DIRECTORY", "GIT_ALTERNATE_OBJECT_DIRECTORIES", "GIT_COMMON_DIR", "GIT_NAMESPACE"),
    *("GIT_SHALLOW_FILE", "GIT_GRAFT_FILE", "GIT_REPLACE_REF_BASE", "GIT_DEFAULT_HASH", "GIT_DEFAULT_REF_FORMAT"),
)
KINDS = {"commit": 1, "tree": 2, "blob": 3, "tag": 4}
# Git itself keeps fewer objects than these as files of their own.
FEW = 100
PIPE = 1 << 18
# Has git test the objects of a pack, and keep it.
TEST = ["index-pack", "-v", "--stdin", "--strict"]
# What an export's lock of a log is a link to. Git's own locks are files.
MARK = b"wunthavel git-export"


@contextlib.contextmanager
def locked(path: bytes) -> Iterator[None]:
    """Makes a lock that git knows, and removes it at the end. One that a stopped export left goes first."""
    with contextlib.suppress(OSError):
        if os.readlink(path) == MARK:
            os.remove(path)
    try:
        os.symlink(MARK, path)
    except FileExistsError:
        raise BridgeError(f"{shown(path)} exists: another git works there, or one was stopped") from None
    try:
        yield
    finally:
        os.remove(path)


class Git:
    """A git repository."""

    def __init__(self, folder: str) -> None:
        self.folder = folder
        self._env = {**{name: it for name, it in os.environ.items() if name not in OWN}, "LC_ALL": "C", "GIT_NO_REPLACE_OBJECTS": "1"}
        self._env["GIT_OPTIONAL_LOCKS"] = "0"
        fixed = ["-c", "gc.auto=0", "-c", "core.logAllRefUpdates=false", "-c", "core.hooksPath=/dev/null", "-c", "core.quotePath=false"]
        self._fixed = ["git", *fixed]
        self.broken: List[bytes] = []
        self.is_open = False

    @property
    def _words(self) -> List[str]:
        return [*self._fixed, "-C", self.folder]

    def run(self, *words: str, given: bytes = b"") -> bytes:
        """Returns what git writes; a BridgeError says what it complains of."""
        done = self._start(words, given)
        if done.returncode:
            raise BridgeError(f"git {words[0]} in {self.folder}: {done.stderr.decode(errors='replace').strip() or done.returncode}")
        return done.stdout

    def _start(self, words: Iterable[str], given: bytes = b"") -> "subprocess.CompletedProcess[bytes]":
        try:
            return subprocess.run([*self._words, *words], input=given, stdout=subprocess.PIPE, stderr=subprocess.PIPE, env=self._env)
        except FileNotFoundError:
            raise BridgeError("there is no git on PATH") from None

    @contextlib.contextmanager
    def _process(self, words: List[str], **env: str) -> Iterator["subprocess.Popen[bytes]"]:
        """Runs git beside this process, and ends it with the block."""
        pipe = subprocess.PIPE
        try:
            process = subprocess.Popen(words, stdin=pipe, stdout=pipe, stderr=pipe, env={**self._env, **env}, bufsize=PIPE)
        except FileNotFoundError:
            raise BridgeError("there is no git on PATH") from None
        try:
            yield process
        finally:
            process.kill()
            for it in (process.stdin, process.stdout, process.stderr):
                with contextlib.suppress(OSError):
                    it and it.close()
            process.wait()

    @contextlib.contextmanager
    def stream(self, words: Iterable[str]) -> Iterator[IO[bytes]]:
        """Gives what git writes to the block; a BridgeError says after it what git complains of."""
        with self._process([*self._words, *words]) as process:
            assert process.stdin and process.stdout and process.stderr
            process.stdin.close()
            said: List[str] = []
            listening = threading.Thread(target=_listen, args=(process.stderr, said, Progress("git", quiet=True)), daemon=True)
            listening.start()
            try:
                yield process.stdout
            except HistoryError:
                # What was read ended early if git did.
                if not process.poll():
                    raise
            listening.join()
            if process.wait():
                raise BridgeError(f"git in {self.folder}: {' '.join(said)}")

    # The whole repository.

    def open(self) -> None:
        """Finds the repository's folder and its kind of ids. It is the folder itself, or its `.git`, and none above it."""
        if is_history(os.fsencode(self.folder)):
            raise BridgeError(f"{self.folder} is a history's folder, and no git repository")
        self._env["GIT_CEILING_DIRECTORIES"] = os.path.dirname(os.path.realpath(self.folder))
        kind = self.run("rev-parse", "--show-object-format").decode().strip()
        # A git that knows one kind alone gives the question back.
        self.hashing: Hashing = SHA256 if kind == "sha256" else SHA1
        self.path = os.path.join(os.fsencode(self.folder), self.run("rev-parse", "--git-common-dir").rstrip(b"\n"))
        self.is_bare = self.run("rev-parse", "--is-bare-repository").strip() == b"true"
        self.is_shallow = os.path.exists(os.path.join(self.path, b"shallow"))
        self.is_open = True

    def make(self, hashing: Hashing) -> None:
        """Makes a bare repository, and opens it."""
        os.makedirs(self.folder, exist_ok=True)
        self.run("init", "--quiet", "--bare", "--template=", *(["--object-format=sha256"] if hashing == SHA256 else []), ".")
        self.open()

    def fsck(self, bar: Progress) -> List[str]:
        """Returns what `git fsck --strict` complains of; nothing if the repository is whole."""
        status, said = self._told([*self._words, "fsck", "--strict", "--no-dangling", "--progress"], (), bar)
        lines = [it for it in said.splitlines() if not it.startswith("notice: ")]
        return lines or [f"git fsck ended with status {status}"] if status else []

    def clone(self, source: str, bar: Progress) -> None:
        """Makes the folder, which must be empty, a mirror of what git can clone."""
        status, said = self._told([*self._fixed, "clone", "--mirror", "--progress", "--", source, self.folder], (), bar)
        if status:
            raise BridgeError(f"git clone {source}: {said}")

    def push(self, remote: str, bar: Progress) -> None:
        """Has a repository elsewhere have the names that this one has, and no others."""
        status, said = self._told([*self._words, "push", "--mirror", "--progress", "--", remote], (), bar)
        if status:
            raise BridgeError(f"git push {remote}: {said}")

    def _told(self, words: List[str], given: Iterable[bytes], bar: Progress, **env: str) -> Tuple[int, str]:
        """Gives git these parts, and returns its status and what it says. The bar shows its progress."""
        with self._process(words, **env) as process:
            assert process.stdin and process.stdout and process.stderr
            said: List[str] = []
            listening = [threading.Thread(target=_listen, args=(it, said, bar), daemon=True) for it in (process.stdout, process.stderr)]
            for it in listening:
                it.start()
            with contextlib.suppress(BrokenPipeError), process.stdin:
                for part in given:
                    process.stdin.write(part)
            status = process.wait()
            for it in listening:
                it.join()
            return status, "\n".join(said)

    # Names.

    def head(self) -> Tuple[bytes, bool]:
        """Returns what HEAD names, and whether that is a name and no id."""
        done = self._start(["symbolic-ref", "--quiet", "HEAD"])
        if not done.returncode:
            return done.stdout.strip(), True
        return self.run("rev-parse", "HEAD").strip(), False

    def names(self) -> Tuple[Dict[bytes, bytes], Dict[bytes, bytes]]:
        """Returns the ids by the names, and by the symbolic ones what they name. `broken` are those that git can't read."""
        done = self._start(["for-each-ref", "--format=%(refname)%00%(objectname)%00%(symref)"])
        if done.returncode:
            raise BridgeError(f"git for-each-ref in {self.folder}: {done.stderr.decode(errors='replace').strip()}")
        rows = [it.split(b"\0") for it in done.stdout.split(b"\n") if it]
        names = {row[0]: bytes.fromhex(row[1].decode()) for row in rows}
        # Git says nothing of some of them.
        files = {it for it in files_below(self.path, b"refs") if not it.endswith(b".lock")}
        self.broken = sorted(files.union(re.findall(rb"^warning: ignoring .*?(refs/[^\n]*)$", done.stderr, re.M)) - names.keys())
        return names, {row[0]: row[2] for row in rows if row[2]}

    def logs(self) -> Dict[bytes, bytes]:
        """Returns the logs by the names."""
        if os.path.isdir(os.path.join(self.path, b"reftable")):
            raise BridgeError(f"{self.folder} keeps its names and logs in a reftable, which isn't read")
        return read_logs(self.path)

    def move_names(self, names: Dict[bytes, bytes], old: Dict[bytes, bytes], gone: Iterable[bytes]) -> None:
        """Deletes names, and then gives others these ids in one transaction; each must be at its old id still."""
        null = b"0" * (2 * self.hashing.width)
        was = {name: id.hex().encode() for name, id in old.items()}
        rows = [b"delete %s\0%s\0" % (name, was[name]) for name in gone]
        if rows:
            self.run("update-ref", "--stdin", "-z", "--no-deref", given=b"".join(rows))
        rows = [b"update %s\0%s\0%s\0" % (name, id.hex().encode(), was.get(name, null)) for name, id in names.items()]
        if rows:
            self.run("update-ref", "--stdin", "-z", "--no-deref", given=b"".join(rows))

    def write_log(self, name: bytes, log: bytes) -> None:
        """Writes a name's log, under the lock under which git rewrites one. Other exports are kept away by `held`."""
        path, new = os.path.join(self.path, b"logs", name), os.path.join(self.path, b"wunthavel-log")
        remove_empty_folders(path)
        os.makedirs(os.path.dirname(path), exist_ok=True)
        with locked(path + b".lock"):
            with open(new, "wb") as it:
                it.write(log)
            os.rename(new, path)

    def write_head(self, branch: bytes) -> None:
        """Has HEAD name the branch."""
        self.run("symbolic-ref", "HEAD", os.fsdecode(branch))

    # Objects.

    def count(self) -> int:
        """Returns how many objects there are, if none is there twice."""
        said = dict(it.split(b": ") for it in self.run("count-objects", "-v").splitlines() if b": " in it)
        return int(said[b"count"]) + int(said[b"in-pack"])

    def objects(self) -> Iterator[Tuple[bytes, str, int]]:
        """Returns id, kind and length of each object."""
        words = ["cat-file", "--batch-all-objects", "--unordered", "--batch-check=%(objectname) %(objecttype) %(objectsize)"]
        with self._process([*self._words, *words]) as process:
            assert process.stdin and process.stdout and process.stderr
            process.stdin.close()
            for line in process.stdout:
                id, kind, *length = line.split()
                # Git says `missing` of a file that holds no object.
                if length:
                    yield bytes.fromhex(id.decode()), kind.decode(), int(length[0])
            if process.wait():
                raise BridgeError(f"git cat-file in {self.folder}: {process.stderr.read().decode(errors='replace').strip()}")

    def read(self, ids: Iterable[bytes]) -> Iterator[Tuple[bytes, str, bytes]]:
        """Returns id, kind and content of these objects, in their order."""
        with self._process([*self._words, "cat-file", "--batch", "--buffer"]) as process:
            assert process.stdin and process.stdout
            given, out = process.stdin, process.stdout

            def ask() -> None:
                with contextlib.suppress(OSError, ValueError), given:
                    for id in ids:
                        given.write(b"%s\n" % id.hex().encode())

            asking = threading.Thread(target=ask, daemon=True)
            asking.start()
            for line in out:
                digits, kind, *length = line.split()
                if not length:
                    raise BridgeError(f"{self.folder} has no object {digits.decode()}")
                content = out.read(int(length[0]))
                out.read(1)
                id = bytes.fromhex(digits.decode())
                if len(content) != int(length[0]) or self.hashing.id_of(kind.decode(), content) != id:
                    raise Damaged(self.folder, id)
                yield id, kind.decode(), content
            asking.join()
            if process.wait():
                raise BridgeError(f"git cat-file in {self.folder} ended with status {process.returncode}")

    def add(self, count: int, objects: Iterable[Tuple[str, bytes]], bar: Progress) -> None:
        """Adds so many objects: git tests all of them, and then takes all or none, as one pack, or as files if they are few."""
        pack = packed(count, objects, self.hashing)
        if count >= FEW:
            self._take([*TEST, "--fix-thin"], pack, bar)
            return
        # Git writes files before it has tested all, so it tests them elsewhere.
        with tempfile.TemporaryDirectory(prefix="wunthavel-objects-") as room:
            own = os.path.join(os.path.abspath(os.fsdecode(self.path)), "objects").replace("\\", "\\\\").replace('"', '\\"')
            self._take(TEST, pack, bar, GIT_OBJECT_DIRECTORY=room, GIT_ALTERNATE_OBJECT_DIRECTORIES=f'"{own}"')
            name = next(it for it in os.listdir(os.path.join(room, "pack")) if it.endswith(".pack"))
            with open(os.path.join(room, "pack", name), "rb") as tested:
                self._take(["unpack-objects", "-q"], iter(lambda: tested.read(PIPE), b""), bar)

    def _take(self, words: List[str], pack: Iterable[bytes], bar: Progress, **env: str) -> None:
        status, said = self._told([*self._words, *words], pack, bar, **env)
        if status:
            raise BridgeError(f"git {words[0]} in {self.folder}: {said}")


# What git says of its progress.
_PART = re.compile(r"(?:remote: )?([A-Z][a-z ]+): +[0-9]+% \(([0-9]+)/([0-9]+)\)")


def _listen(stream: IO[bytes], said: List[str], bar: Progress) -> None:
    """Takes the lines that git writes, and has the bar show those that say how far it is."""
    with io.TextIOWrapper(stream, encoding="utf-8", errors="replace") as lines:
        for line in lines:
            found = _PART.match(line)
            if found:
                bar.show(found[1].lower(), int(found[2]), int(found[3]))
            elif line.strip():
                said.append(line.rstrip("\n"))


def packed(count: int, objects: Iterable[Tuple[str, bytes]], hashing: Hashing) -> Iterator[bytes]:
    """Returns a pack of these objects, in parts (gitformat-pack(5))."""
    digest = hashlib.new(hashing.name)
    part = b"PACK" + (2).to_bytes(4, "big") + count.to_bytes(4, "big")
    digest.update(part)
    yield part
    for kind, content in objects:
        part = entry_head(KINDS[kind], len(content)) + zlib.compress(content, 1)
        digest.update(part)
        yield part
    yield digest.digest()


def entry_head(kind: int, length: int) -> bytes:
    """Returns what a pack has before an object's compressed bytes: kind and length."""
    first, length = kind << 4 | length & 15, length >> 4
    head = bytearray()
    while length:
        head.append(first | 128)
        first, length = length & 127, length >> 7
    head.append(first)
    return bytes(head)


@contextlib.contextmanager
def source(place: str, bars: Bars) -> Iterator[Git]:
    """Opens a git repository to read it. What is no folder here, as a URL or a bundle, git clones into a mirror, which goes at the end."""
    with contextlib.ExitStack() as room:
        git = Git(place)
        if not os.path.isdir(place):
            git = Git(room.enter_context(tempfile.TemporaryDirectory(prefix="wunthavel-mirror-")))
            with bars.during("cloning") as bar:
                git.clone(place, bar)
        git.open()
        yield git
