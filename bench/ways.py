"""The ways of the program, git, the bare calls and libgit2, and the folders that they begin with."""
import functools
import shutil
import subprocess

from measure import ENVIRONMENT, Way, Wrong

# Without compression and syncing, as the program is; names have logs, as the program's have.
SETTINGS = {"core.compression": 0, "core.looseCompression": 0, "pack.compression": 0, "core.fsync": "none", "gc.auto": 0,
            "core.logAllRefUpdates": "always"}
LOOSE, PACKED = 1_000_000, 0
START = (["git", "rev-parse", "--git-dir"], b"")
# A first command for the program, to which it replies once the folder is open.
NO_NAMES = b"names refs/none\n"


class Ours:
    """The program that is measured."""

    def __init__(self, room, program):
        self.room, self.program = room, program

    def call(self, action, folder, given=b"", kind=()):
        done = subprocess.run([self.program, action, folder, *kind], input=given, stdout=subprocess.PIPE)
        if done.returncode or b"\nrefused " in b"\n" + done.stdout:
            raise Wrong(f"{action} {folder.name}: {done.stdout[-300:]}")
        return done.stdout

    @functools.cache
    def kept(self, name, given=b"", kind=()):
        """A folder on which the commands were run."""
        folder = self.room.path / f"ours-{name}"
        self.call("create", folder, kind=kind)
        self.call("run", folder, given, kind)
        return folder

    def run(self, start, given, says, parts=1, first=NO_NAMES, kind=()):
        """A run on a folder, without what it takes to open it and to reply to the first command."""
        return Way("ours", [self.program, "run", "FOLDER", *kind], says, given, start, parts=parts, first=first)

    def whole(self, words, says, given=b"", start=None, times=1):
        """A run as a whole."""
        return Way("ours", [self.program, *words], says, given, start, times=times, parts=times)


class Git:
    """Git, on bare repositories."""

    def __init__(self, room):
        self.room = room

    def call(self, folder, *words, given=b""):
        done = subprocess.run(["git", *words], cwd=folder, input=given, env=ENVIRONMENT, stdout=subprocess.PIPE)
        if done.returncode:
            raise Wrong(f"status {done.returncode} of git {' '.join(map(str, words))}")
        return done.stdout

    @functools.cache
    def kept(self, name, given=b"", limit=LOOSE, kind=()):
        """A repository into which the stream was imported, as loose objects or a pack."""
        folder = self.room.path / f"git-{name}"
        self.call(self.room.path, "init", "-q", "--bare", "-b", "main", *kind, folder)
        for key, value in {**SETTINGS, "fastimport.unpackLimit": limit}.items():
            self.call(folder, "config", key, str(value))
        shutil.rmtree(folder / "hooks")
        if given:
            self.call(folder, "fast-import", "--quiet", "--done", given=given)
        return folder

    def run(self, start, words, says, given=b"", times=1, parts=1):
        """So many runs, without the start of git."""
        return Way(f"git {words[0]}", ["git", *words], says, given, start, START, times, parts)

    def whole(self, start, words, says, times):
        """So many runs, with the start of git."""
        return Way(f"git {words[0]}, whole", ["git", *words], says, b"", start, times=times, parts=times)

    def importing(self, how, given):
        """An import as loose objects, or as a pack."""
        start = self.kept(how, limit={"loose": LOOSE, "pack": PACKED}[how])
        says = {"tip": lambda it: self.call(it.folder, "rev-parse", "main").strip()}
        way = self.run(start, ["fast-import", "--quiet", "--done"], says, given)
        way.label += f", {how}"
        return way


class Others:
    """Programs of bench/ in C; `libgit2` is None if that library isn't here."""

    def __init__(self, room):
        self.bare = room.compiled("bare", "-lcrypto")
        try:
            self.libgit2 = room.compiled("libgit2", "-lgit2")
        except Wrong:
            self.libgit2 = None

    def bare_way(self, action, start, says, given):
        return Way(f"bare {action}", [self.bare, action, "FOLDER"], says, given, start)

    def libgit2_ways(self, action, start, says, given=b"", times=1, parts=1):
        """No way, if the library isn't here."""
        if self.libgit2:
            yield Way("libgit2", [self.libgit2, action, "FOLDER"], says, b"begin\n" + given, start, None, times, parts, b"open\n")

    def plain(self, command, says, given=b"", times=1):
        """A program of the system."""
        return Way(" ".join(command), command, says, given, times=times, parts=times)
