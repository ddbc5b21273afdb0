"""`wunthavel git-import SRC.git FOLDER`: brings a git repository's objects, names and logs into a history's folder, with their ids.

All is read and tested first, and what a history can't hold is named with its object. Then objects are written, each after those that it names,
then all names, then the logs: after a stop anywhere the folder is whole, once recovered, and the command, given again, goes on. What the folder
has already is whole, so it isn't brought again.
"""
import contextlib
import os
from array import array
from typing import Any, Collection, Dict, Iterable, List, Optional, Sequence, Tuple

from .bridge import Bars, Changes, Options, Side, compared, is_reached, options_of, report, test_changes, words_of
from .bridge_folder import Store, is_history, read_names
from .bridge_forms import FOLDER, MAX_CONTENT, MAX_PATH, BridgeError, CannotHold, Damaged, Patterns, Problem, alike, collisions, commit_problem
from .bridge_forms import git_commit_problem, git_log_problems, git_tag_problem, git_tree_problem, is_full_name, log_problems, name_problem
from .bridge_forms import read_commit, read_tag, read_tree, shown, tag_problem, tree_problem, with_titles
from .bridge_git import Git, source
from .bridge_graph import BLOB, COMMIT, KINDS, TAG, TREE, Graph
from .bridge_trails import NOBODY, Trails

MIRROR = "git clone --mirror brings the repository without such names; --as-clone leaves them out"
NEW_IDS = "wunthavel fast-import --new-ids makes the commits without it, so with other ids"
UNREACHED = "leave out --unreached, and only what names and logs reach is brought"


def _hint(why: str, by: str) -> str:
    """Returns what to do about an object that a history can't hold."""
    if by == NOBODY:
        return UNREACHED
    return NEW_IDS if why.startswith(("it has a signature", "it has a merged tag", "it has a further header", "it has an encoding")) else ""


class Import:
    """One import. `git` is open."""

    def __init__(self, git: Git, store: Store, asked: Options, bars: Bars) -> None:
        self.git, self.store, self.asked, self.bars = git, store, asked, bars
        self.hashing = git.hashing
        self.skip = Patterns(asked.skip_refs)
        self.problems: List[Problem] = []
        self.notes: List[str] = []
        self.graph = Graph()
        self._large: Dict[int, int] = {}
        self._faults: Dict[int, str] = {}
        self._odd: Dict[int, str] = {}

    # Names.

    def read_names(self) -> None:
        """Reads HEAD, names and logs, without those that are left out."""
        names, symbolic = self.git.names()
        logs = {name: with_titles(log) for name, log in self.git.logs().items()}
        of_clone = symbolic.keys() if self.asked.as_clone else ()
        self.side = Side(names, logs).without(lambda name: self.skip.has(name) or name in of_clone, logs=not self.asked.no_logs)
        self.skipped = sorted(map(shown, names.keys() - self.side.names.keys()))
        self.problems += [Problem(shown(it), "git can't read the name") for it in self.git.broken if not self.skip.has(it)]
        for name in sorted(self.side.names):
            if name in symbolic:
                self.problems.append(Problem(shown(name), f"the name is symbolic, for {shown(symbolic[name])}", hint=MIRROR))
            problem = name_problem(name)
            if problem:
                self.problems.append(Problem(shown(name), problem))
            self.problems += log_problems(name, self.side.logs.get(name, b""), self.hashing)
        self.problems += collisions(self.side.names)
        self.head = self._head()
        self.skip.test_use(read_names(self.store.path) if self.asked.prune else ())
        if not self.asked.as_clone and os.path.exists(os.path.join(self.git.path, b"logs", b"HEAD")):
            self.notes.append("HEAD's own log is left out: a history has none")

    def _head(self) -> Optional[bytes]:
        if self.skip.has(b"HEAD"):
            return None
        head, is_name = self.git.head()
        hint = "--skip-refs HEAD leaves it out"
        if not is_name:
            self.problems.append(Problem("HEAD", f"it is detached, at {shown(head)}", hint=hint))
        elif not head.startswith(b"refs/heads/") or not is_full_name(head):
            self.problems.append(Problem("HEAD", f"it names {shown(head)}, which is no branch", hint=hint))
        return head

    def unchanged(self) -> Optional[Changes]:
        """Returns the names that the folder alone has, if all that is wanted is as it is there. Then the folder needn't be opened."""
        if self.problems or self.asked.unreached or not is_history(self.store.path):
            return None
        with self.store.held(alone=False):
            now = compared(self.side, self.store.side(), self.asked.prune, self.skip)
            differs = now or self.head not in (None, self.store.head()) or self.store.is_stopped()
            return None if differs else now

    # What there is.

    def read_objects(self) -> None:
        """Reads what names and logs reach, or all, of what the folder lacks, but files' contents; and tests it."""
        for id, kind, length in self.bars.over(self.git.objects(), "listing objects", self.git.count()):
            number = self.graph.add(id, kind)
            if length > MAX_CONTENT:
                self._large[number] = length
        self.there = bytearray(len(self.graph.ids))
        for id in self.store.ids():
            if id in self.graph.number:
                self.there[self.graph.number[id]] = 1
        new = bytearray(not it for it in self.there)
        self._read([*self.graph.of_kind(COMMIT, new), *self.graph.of_kind(TAG, new)], "reading commits and tags")
        self._choose()
        self._read_trees()
        self.order = array("I", self.graph.in_order(self.wanted))
        self._test_paths()

    def _choose(self) -> None:
        """Marks what is wanted, of folders and files only those that a commit or a name has itself."""
        size = len(self.graph.ids)
        # Reading commits may have added the empty folder.
        self.there += bytes(size - len(self.there))
        self.longest = array("I", bytes(4 * size))
        self.wanted = bytearray(size)
        known = (self.graph.number[id] for id in self.side.tips(self.hashing) if id in self.graph.number)
        tips: Iterable[int] = range(size) if self.asked.unreached else known
        for _ in self.graph.reach(tips, self.wanted, self.there):
            pass

    def _read_trees(self) -> None:
        """Reads the folders that are wanted, a level of folders at a time, and marks what they have."""
        left = self.graph.of_kind(TREE, self.wanted)
        seen = bytearray(len(self.wanted))
        while left:
            self._read(left, "reading folders")
            for number in left:
                seen[number] = 1
            below = {it for number in left for it in self.graph.links(number) if not seen[it]}
            left = sorted(below)

    def _read(self, numbers: Sequence[int], title: str) -> None:
        small = [it for it in numbers if it not in self._large]
        contents = self.git.read(self.graph.ids[it] for it in small)
        for (_, kind, content), number in zip(self.bars.over(contents, title, len(small)), small):
            try:
                problem = self._take_tree(number, content) if kind == "tree" else self._take(number, kind, content)
            except ValueError as error:
                problem = str(error)
            if problem:
                self._faults[number] = problem

    def _take(self, number: int, kind: str, content: bytes) -> Optional[str]:
        """Keeps what a commit or tag names; returns why a history can't hold it."""
        if kind == "tag":
            tag = read_tag(content, self.hashing)
            links, problem = self._named(COMMIT, [tag.target])
            self.graph.link(number, links, (0 for _ in links))
            problem = tag_problem(tag) or problem
            if not problem:
                self._note(number, git_tag_problem(tag))
            return problem
        commit = read_commit(content, self.hashing)
        if commit.tree == self.hashing.empty_tree and commit.tree not in self.graph.number:
            # Git knows it without keeping it.
            self.graph.add(commit.tree, "tree")
        trees, tree_fault = self._named(TREE, [commit.tree])
        parents, parent_fault = self._named(COMMIT, commit.parents)
        self.graph.link(number, trees + parents, (0 for _ in trees + parents))
        problem = commit_problem(commit) or tree_fault or parent_fault
        if not problem:
            self._note(number, git_commit_problem(commit))
        return problem

    def _note(self, number: int, why: Optional[str]) -> None:
        """Keeps why git can't take the object back."""
        if why:
            self._odd[number] = why

    def _take_tree(self, number: int, content: bytes) -> Optional[str]:
        """Keeps what a folder has; returns why a history can't hold it."""
        entries = read_tree(content, self.hashing)
        files = [it for it in entries if it[0] != FOLDER]
        folders = [it for it in entries if it[0] == FOLDER]
        blobs, blob_fault = self._named(BLOB, [id for _, _, id in files])
        trees, tree_fault = self._named(TREE, [id for _, _, id in folders])
        for it in (*blobs, *trees):
            self.wanted[it] = 1
        self.longest[number] = max((len(name) for _, name, _ in files), default=0)
        self.graph.link(number, trees, (min(len(name), MAX_PATH + 1) for _, name, _ in folders))
        problem = tree_problem(entries, self.hashing) or blob_fault or tree_fault
        if not problem:
            self._note(number, git_tree_problem(entries))
        return problem

    def _named(self, expected: int, ids: Sequence[bytes]) -> Tuple[List[int], Optional[str]]:
        """Returns the numbers of the objects that another one names as of this kind, and what is wrong with the first that isn't there as such."""
        numbers, kinds = self.graph.number, self.graph.kinds
        found = [numbers.get(it, -1) for it in ids]
        if -1 not in found and all(kinds[it] == expected for it in set(found)):
            return found, None
        fine = [it for it in found if it >= 0 and kinds[it] == expected]
        return fine, next(filter(None, (self._link_problem(expected, it) for it in ids)))

    def _link_problem(self, expected: int, id: bytes) -> Optional[str]:
        number = self.graph.number.get(id)
        if number is None:
            return f"it names {KINDS[expected]} {id.hex()}, which isn't there (is the repository shallow or partial?)"
        found = self.graph.kinds[number]
        return None if found == expected else f"it names {id.hex()} as a {KINDS[expected]}, which is a {KINDS[found]}"

    def _test_paths(self) -> None:
        for number in self.order:
            if self.graph.kinds[number] == TREE:
                longest = max((length + 1 + self.longest[it] for it, length in self.graph.weighed(number)), default=0)
                self.longest[number] = longest = max(longest, self.longest[number])
                if longest > MAX_PATH and all(self.longest[it] <= MAX_PATH for it in self.graph.links(number)):
                    self._faults.setdefault(number, f"it has a path of {longest:,} bytes, over {MAX_PATH:,}")

    # What can't be held.

    def test(self) -> None:
        """Names what is to be brought and a history can't hold."""
        for number, length in self._large.items():
            self._faults[number] = f"its content has {length:,} bytes, over {MAX_CONTENT:,}"
        bad = {it: why for it, why in self._faults.items() if self.wanted[it] and not self.there[it]}
        if bad:
            trails = self._trails(bad)
            self.problems += [Problem(trails.name(it), why, trails.by(it), _hint(why, trails.by(it))) for it, why in bad.items()]
        for name, id in sorted(self.side.names.items()):
            number = self.graph.number.get(id)
            kind = "missing object" if number is None else KINDS[self.graph.kinds[number]]
            if kind not in ("commit", "tag"):
                self.problems.append(Problem(shown(name), f"the name holds a {kind}, {id.hex()}"))
        if self.problems:
            raise CannotHold(sorted(self.problems))
        self._warn()

    def _trails(self, sought: Collection[int]) -> Trails:
        return Trails(self.git.read, self.hashing, self.graph, self.side, self.order, sought)

    def _warn(self) -> None:
        """Notes what a history can hold and git can't take back."""
        found = []
        for number, why in self._odd.items():
            if self.wanted[number] and not self.there[number]:
                found.append(Problem(f"{KINDS[self.graph.kinds[number]]} {self.graph.ids[number].hex()}", why))
        for name, id in self.side.names.items():
            if name.startswith(b"refs/heads/") and self.graph.kinds[self.graph.number[id]] == TAG:
                found.append(Problem(shown(name), "a branch holds a tag"))
        for name, log in self.side.logs.items():
            found += git_log_problems(name, log, self._is_there, self.hashing)
        for them in alike(sorted(found)):
            self.notes.append(f"git-export can't give back {len(them):,} of these: {them[0].why}, as in {them[0].where}")

    def _is_there(self, id: bytes) -> bool:
        return id in self.graph.number or self.store.has(id)

    # What is written.

    def compare(self, old: Side) -> Changes:
        """Returns what is to be written over what the folder has."""
        now = compared(self.side, old, self.asked.prune, self.skip)
        test_changes(now, old, self._follows, self.asked, self.store.folder)
        return now

    def _follows(self, old: bytes, new: bytes) -> bool:
        both = self.store.kind_of(old)[0] == KINDS[self.graph.kinds[self.graph.number[new]]] == "commit"
        return both and is_reached(old, new, self._parents)

    def _parents(self, id: bytes) -> Iterable[bytes]:
        number = self.graph.number.get(id)
        if number is None or self.there[number]:
            return read_commit(self.store.read(id)[1], self.hashing).parents
        return [self.graph.ids[it] for it in self.graph.links(number)[1:]]

    def missing(self) -> Sequence[int]:
        """Returns the objects that the folder lacks, each after those that it names."""
        return array("I", (it for it in self.order if not self.there[it]))

    def write(self, missing: Sequence[int], now: Changes) -> None:
        """Writes objects, then names, then logs, then HEAD."""
        contents = self.git.read(self.graph.ids[it] for it in missing)
        try:
            for id, kind, content in self.bars.over(contents, "writing objects", len(missing)):
                self.store.write(id, kind, content)
        except Damaged as error:
            number = self.graph.number[error.id]
            raise BridgeError(f"{error} ({self._trails([number]).by(number)})") from None
        if now.names or now.gone:
            self.store.write_names(now.names, now.gone)
        for name, log in now.logs.items():
            self.store.write_log(name, log)
        if self.head is not None and self.head != self.store.head():
            self.store.write_head(self.head)

    def summary(self, missing: Sequence[int], now: Changes) -> Dict[str, Any]:
        """Returns what was done."""
        kinds = bytes(self.graph.kinds[it] for it in missing)
        count = {KINDS[it]: kinds.count(it) for it in (COMMIT, TREE, BLOB, TAG)}
        rest = {"skipped": self.skipped, "only_in_folder": now.left, "notes": self.notes}
        return {"done": True, "objects": len(missing), "kinds": count, "names": len(now.names), "deleted": len(now.gone), "logs": len(now.logs), **rest}


def _hashing_of(git: Git, sha256: bool) -> bool:
    """Returns whether the source's ids are of SHA-256. Nothing else needs to be said, and nothing else may be."""
    if sha256 and git.hashing.name != "sha256":
        raise BridgeError(f"{git.folder} has ids of {git.hashing.name}: leave out --sha256")
    return git.hashing.name == "sha256"


def git_import(place: str, folder: str, sha256: bool = False, engine: Optional[str] = None, bars: Optional[Bars] = None, **options: Any) -> Dict[str, Any]:
    """Imports a git repository, and returns a summary. `CannotHold` names what a history can't hold; then nothing was written. The options are those of
    `Options`."""
    bars, asked = bars or Bars(quiet=True), Options(**options)
    with source(place, bars) as git:
        work = Import(git, Store(folder, _hashing_of(git, sha256), engine), asked, bars)
        work.read_names()
        same = work.unchanged()
        if same is not None:
            return work.summary([], same)
        work.read_objects()
        work.test()
        if asked.dry_run:
            with work.store.held(alone=False) if work.store.exists() else contextlib.nullcontext():
                return {**work.summary(work.missing(), work.compare(work.store.side())), "dry_run": True}
        return _written(work)


def _written(work: Import) -> Dict[str, Any]:
    """Writes what was read and tested, and returns the summary."""
    with work.bars.during("checking the folder") as bar:
        work.store.make(bar)
    with work.store.held(alone=True):
        now, missing = work.compare(work.store.side()), work.missing()
        work.write(missing, now)
    if missing or now:
        with work.bars.during("checking the folder") as bar:
            work.store.check(bar)
    return {**work.summary(missing, now), "check": "whole"}


TEXT = """Brings a git repository's objects, names and logs into a history's folder, which is made if there is none. Ids stay.
What a history can't hold is named with its object, and then nothing is written. Given again, it brings what is new."""


def main(argv: Sequence[str]) -> int:
    """Does what the words say."""
    places = (("SRC.git", "the git repository: a folder, or a bundle or a URL, which git clones first"), ("FOLDER", "the history's folder"))
    words = words_of("git-import", TEXT, "wunthavel git-import project/.git store --skip-refs refs/remotes", places)
    words.add_argument("--as-clone", action="store_true", help="leave out the symbolic names of a clone, as refs/remotes/origin/HEAD, and HEAD's own log")
    words.add_argument("--unreached", action="store_true", help="also bring the objects that no name and no log reaches")
    asked = words.parse_args(argv)
    return report(lambda bars: git_import(asked.src, asked.folder, asked.sha256, asked.engine, bars, **options_of(asked)), asked)
