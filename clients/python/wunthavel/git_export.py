"""`wunthavel git-export FOLDER DEST.git`: gives a history's objects, names and logs to a bare git repository, with their ids.

The folder must be whole. What git can't hold is named with its object. Then objects go to git as one pack, which git tests before it takes any of
it, then names move in one transaction, then logs are written: a command that was stopped is given again. `git fsck --strict` ends it.
"""
import contextlib
import os
import shutil
from typing import Any, Dict, Iterable, Iterator, List, Optional, Sequence, Tuple

from .bridge import Bars, Changes, Options, Side, compared, is_reached, links_of, options_of, reached, report, test_changes, words_of
from .bridge_folder import Store, held, is_history
from .bridge_forms import BridgeError, CannotHold, Hashing, Patterns, Problem, git_commit_problem, git_log_problems, git_tag_problem, git_tree_problem
from .bridge_forms import read_commit, read_tag, read_tree, shown
from .bridge_git import Git
from .bridge_graph import BLOB, Graph
from .bridge_trails import Trails
from .engine import is_sha256


class Export:
    """One export."""

    def __init__(self, store: Store, asked: Options, bars: Bars) -> None:
        self.store, self.asked, self.bars = store, asked, bars
        self.hashing = store.hashing
        self.skip = Patterns(asked.skip_refs)
        self.problems: List[Problem] = []
        self.count = {"commit": 0, "tree": 0, "blob": 0, "tag": 0}

    def read_names(self, old: Side) -> None:
        """Reads HEAD, names and logs, without those that are left out here or, where names are pruned, in git."""
        both = self.store.side()
        self.side = both.without(self.skip.has, logs=not self.asked.no_logs)
        self.skipped = sorted(map(shown, both.names.keys() - self.side.names.keys()))
        self.head = None if self.skip.has(b"HEAD") else self.store.head()
        self.skip.test_use(old.names if self.asked.prune else ())
        self.ids = set(self.store.ids())

    def test_names(self) -> None:
        """Names the branches and logs that git can't hold."""
        for name, id in sorted(self.side.names.items()):
            if name.startswith(b"refs/heads/") and self.store.kind_of(id)[0] == "tag":
                self.problems.append(Problem(shown(name), f"the branch holds a tag, {id.hex()}"))
        for name, log in sorted(self.side.logs.items()):
            self.problems += git_log_problems(name, log, self.ids.__contains__, self.hashing)

    # What is brought.

    def missing(self, git: Git) -> List[bytes]:
        """Returns the objects that git lacks."""
        lacking = self.ids - {id for id, _, _ in git.objects()} if git.is_open else self.ids
        if lacking and self.asked.skip_refs:
            lacking = lacking & reached(self.side.tips(self.hashing), self._links)
        return sorted(lacking)

    def test_objects(self, missing: Sequence[bytes]) -> None:
        """Names the objects that git can't hold."""
        bad: Dict[bytes, str] = {}
        for id in self.bars.over(missing, "reading objects", len(missing)):
            kind, content = self.store.read(id)
            self.count[kind] += 1
            why = self._problem(kind, content)
            if why:
                bad[id] = why
        if bad:
            graph = self._graph()
            numbers = {graph.number[id]: why for id, why in bad.items()}
            trails = Trails(self._read, self.hashing, graph, self.side, graph.in_order(bytearray(b"\1" * len(graph.ids))), numbers)
            self.problems += [Problem(trails.name(it), why, trails.by(it)) for it, why in numbers.items()]
        if self.problems:
            raise CannotHold(sorted(self.problems))

    def _read(self, ids: Iterable[bytes]) -> Iterator[Tuple[bytes, str, bytes]]:
        return ((id, *self.store.read(id)) for id in ids)

    def _graph(self) -> Graph:
        """Returns what all objects of the history name, but files."""
        graph = Graph()
        for id in self.ids:
            graph.add(id, self.store.kind_of(id)[0])
        for number, id in enumerate(graph.ids):
            links = [it for it in map(graph.number.__getitem__, self._links(id)) if graph.kinds[it] != BLOB]
            graph.link(number, links, (0 for _ in links))
        return graph

    def _links(self, id: bytes) -> Sequence[bytes]:
        return [] if self.store.kind_of(id)[0] == "blob" else links_of(*self.store.read(id), self.hashing)

    def _problem(self, kind: str, content: bytes) -> Optional[str]:
        if kind == "tree":
            return git_tree_problem(read_tree(content, self.hashing))
        if kind == "tag":
            return git_tag_problem(read_tag(content, self.hashing))
        return git_commit_problem(read_commit(content, self.hashing)) if kind == "commit" else None

    def compare(self, old: Side, where: str) -> Changes:
        """Returns what is to be written over what git has."""
        now = compared(self.side, old, self.asked.prune, self.skip)
        test_changes(now, old, self._follows, self.asked, where)
        return now

    def _follows(self, old: bytes, new: bytes) -> bool:
        both = old in self.ids and self.store.kind_of(old)[0] == self.store.kind_of(new)[0] == "commit"
        return both and is_reached(old, new, lambda id: read_commit(self.store.read(id)[1], self.hashing).parents)

    # What is written.

    def write(self, git: Git, missing: Sequence[bytes], now: Changes, old: Side) -> None:
        """Gives git objects, then names, then logs, then HEAD; and has git look at all of it."""
        if not git.is_open:
            git.make(self.hashing)
        if missing:
            with self.bars.during("writing objects") as bar:
                git.add(len(missing), (self.store.read(id) for id in missing), bar)
        git.move_names(now.names, old.names, now.gone)
        for name, log in now.logs.items():
            git.write_log(name, log)
        if self.head is not None and git.head() != (self.head, True):
            git.write_head(self.head)
        with self.bars.during("git fsck --strict") as bar:
            complaints = git.fsck(bar)
        if complaints:
            raise BridgeError(f"git fsck --strict in {git.folder}: {'; '.join(complaints[:20])}")

    def summary(self, missing: Sequence[bytes], now: Changes) -> Dict[str, Any]:
        """Returns what was done."""
        rest = {"skipped": self.skipped, "only_in_git": now.left}
        kinds = {"objects": len(missing), "kinds": self.count}
        return {"done": True, **kinds, "names": len(now.names), "deleted": len(now.gone), "logs": len(now.logs), **rest}


def _opened(folder: str, hashing: Hashing) -> Git:
    """Opens the repository to write to; a folder without files is one that isn't made yet."""
    git = Git(folder)
    if os.listdir(folder):
        git.open()
        if not git.is_bare:
            raise BridgeError(f"{folder} isn't bare: an export would move the branch under its files")
        if git.is_shallow:
            raise BridgeError(f"{folder} is shallow: git would show only a part of what it is given (git fetch --unshallow makes it whole)")
        if git.hashing != hashing:
            raise BridgeError(f"{folder} has ids of {git.hashing.name}, and the history has others")
    return git


@contextlib.contextmanager
def destination(dest: str, hashing: Hashing) -> Iterator[Git]:
    """Opens the repository to write to, and keeps other exports away. A new one is made beside its place, and comes there whole: if the block fails,
    what was made goes, and nothing else does."""
    place = os.path.realpath(dest)
    beside = place + ".unfinished"
    while not os.path.lexists(place):
        os.makedirs(beside, exist_ok=True)
        with held(os.fsencode(beside), True) as at:
            # Another export may have brought it to the place, or removed it, while it was waited for.
            if not _is_at(at, beside):
                continue
            try:
                _clear(beside)
                yield _opened(beside, hashing)
                os.rename(beside, place)
            except BaseException:
                shutil.rmtree(beside, ignore_errors=True)
                raise
            return
    with held(os.fsencode(place), True):
        yield _opened(place, hashing)


def _is_at(at: int, path: str) -> bool:
    with contextlib.suppress(FileNotFoundError):
        return os.path.samestat(os.fstat(at), os.stat(path))
    return False


def _clear(folder: str) -> None:
    """Removes what a stopped export left."""
    for it in os.scandir(folder):
        if it.is_dir(follow_symlinks=False):
            shutil.rmtree(it.path)
        else:
            os.remove(it.path)


@contextlib.contextmanager
def _looked_at(dest: str, hashing: Hashing) -> Iterator[Git]:
    """Opens the repository to say what would be written; nothing is there yet if it isn't made."""
    yield _opened(dest, hashing) if os.path.exists(dest) else Git(dest)


def git_export(folder: str, dest: str, sha256: bool = False, engine: Optional[str] = None, bars: Optional[Bars] = None, **options: Any) -> Dict[str, Any]:
    """Exports a history, and returns a summary. `CannotHold` names what git can't hold; then nothing was written. The options are those of `Options`."""
    store, asked = Store(folder, sha256 or is_sha256(folder), engine), Options(**options)
    work = Export(store, asked, bars or Bars(quiet=True))
    opened = _looked_at if asked.dry_run else destination
    with store.held(alone=False), opened(dest, store.hashing) as git:
        old = Side(git.names()[0], git.logs()) if git.is_open else Side({}, {})
        work.read_names(old)
        missing = work.missing(git)
        now = compared(work.side, old, asked.prune, work.skip)
        differs = missing or now or work.head not in (None, git.head()[0] if git.is_open else b"")
        if git.is_open and is_history(store.path) and not differs:
            return work.summary(missing, now)
        with work.bars.during("checking the folder") as bar:
            store.check(bar)
        work.test_names()
        work.test_objects(missing)
        now = work.compare(old, dest)
        if asked.dry_run:
            return {**work.summary(missing, now), "dry_run": True}
        work.write(git, missing, now, old)
        return {**work.summary(missing, now), "fsck": "whole", "check": "whole"}


TEXT = """Gives a history's objects, names and logs to a bare git repository, which is made if there is none. Ids stay.
What git can't hold is named with its object, and then nothing is written. Given again, it adds what is new."""


def main(argv: Sequence[str]) -> int:
    """Does what the words say."""
    places = (("FOLDER", "the history's folder"), ("DEST.git", "the git repository"))
    asked = words_of("git-export", TEXT, "wunthavel git-export store project.git", places).parse_args(argv)
    return report(lambda bars: git_export(asked.folder, asked.dest, asked.sha256, asked.engine, bars, **options_of(asked)), asked)
