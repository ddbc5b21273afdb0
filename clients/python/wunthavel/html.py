"""`wunthavel html FOLDER OUT`: a history as static pages, for a browser without a server.

`OUT/commit/ID.html` shows what each of the newest commits changed, as text. `OUT/index.html` shows what `history.js` (commits, names, the graph's edges) and `changes.js` (the paths that each commit changed, the files of
HEAD) hold. It draws the rows that can be seen alone, so that it is as quick with ten thousand commits as with ten.
"""
import argparse
import heapq
import json
import os
import re
import shutil
from functools import lru_cache
from typing import Any, Dict, FrozenSet, Iterator, List, Optional, Sequence, Tuple

from . import pages, protocol
from .progress import Progress
from .errors import Refused
from .graph import lay_out
from .protocol import Commit, text
from .repo import Repo
from .worktree import OWN, store_of

# So many changed paths of a commit are shown at most.
MOST_CHANGES = 500
# So many bytes the pages of commits have together at most.
MOST_BYTES = 100_000_000
# So many words go on a line of `log`.
WORDS = 80
Entry = Tuple[bytes, bytes, bytes]
ENTRY = re.compile(rb"([0-7]+) ([^\0]+)\0(.{20})", re.DOTALL)
ENTRY_SHA256 = re.compile(rb"([0-7]+) ([^\0]+)\0(.{32})", re.DOTALL)


class Trees:
    """Reads trees from the folder itself, where an object is git's loose object without compression: equal trees are never gone into."""

    def __init__(self, folder: str) -> None:
        self.folder = folder
        self.entries = lru_cache(maxsize=20000)(self._entries)

    def _entries(self, id: str) -> FrozenSet[Entry]:
        """Returns a tree's entries, of each its mode, name and id. The empty tree isn't stored."""
        try:
            with open(os.path.join(self.folder, "objects", id[:2], id[2:]), "rb") as it:
                data = it.read()
        except FileNotFoundError:
            return frozenset()
        return frozenset((ENTRY if len(id) == 40 else ENTRY_SHA256).findall(data, data.index(b"\0") + 1))

    def changed(self, old: Optional[str], new: Optional[str], below: bytes = b"") -> Iterator[Tuple[str, str]]:
        """Gives the changes between two trees, each as `A`, `D` or `M` and a path."""
        before = self.entries(old) if old else frozenset()
        after = self.entries(new) if new else frozenset()
        was = {name: (mode, id) for mode, name, id in before - after}
        now = {name: (mode, id) for mode, name, id in after - before}
        for name in sorted(was.keys() | now.keys()):
            ends = (was.get(name), now.get(name))
            folders = [it[1].hex() if it and it[0] == b"40000" else None for it in ends]
            if any(folders):
                yield from self.changed(folders[0], folders[1], below + name + b"/")
            gone, come = (it and not folder for it, folder in zip(ends, folders))
            if gone or come:
                yield "A" if not gone else "D" if not come else "M", text(below + name)


def read_commits(repo: Repo, limit: Optional[int]) -> List[Commit]:
    """Returns the commits that HEAD and all names reach, children before their parents and else newest first."""
    names = repo.names()
    tips = list(dict.fromkeys(it.commit for it in names))
    ids: Dict[str, None] = {}
    for at in range(0, len(tips), WORDS):
        ids.update(dict.fromkeys(repo.log_ids(tips[at : at + WORDS])))
    with Progress("reading commits", len(ids)) as bar:
        commits = {it.id: it for it in bar.each(repo.batch(protocol.show(it) for it in ids))}
    return in_order(commits)[:limit]


def in_order(commits: Dict[str, Commit]) -> List[Commit]:
    """Returns the commits so that each is before its parents, and newest first if that leaves a choice."""
    children = dict.fromkeys(commits, 0)
    for commit in commits.values():
        for it in commit.parents:
            children[it] += 1
    ready = [(-it.committer.seconds, it.id) for it in commits.values() if not children[it.id]]
    heapq.heapify(ready)
    ordered = []
    while ready:
        commit = commits[heapq.heappop(ready)[1]]
        ordered.append(commit)
        for it in commit.parents:
            children[it] -= 1
            if not children[it]:
                heapq.heappush(ready, (-commits[it].committer.seconds, it))
    return ordered


def history(repo: Repo, commits: Sequence[Commit], title: str) -> Dict[str, Any]:
    """Returns what the page needs first."""
    names = repo.names()
    rows = {it.id: row for row, it in enumerate(commits)}
    people: Dict[str, int] = {}
    columns, edges = lay_out(commits, next((it.commit for it in names if it.name == names.head), None))
    told = []
    for column, it in zip(columns, commits):
        by = [people.setdefault(str(one), len(people)) for one in (it.author, it.committer)]
        parents = [rows.get(one, one) for one in it.parents]
        told.append([it.id, it.message, *by, it.author.seconds, it.author.offset, it.committer.seconds, parents, column])
    shown = [[it.name, rows.get(it.commit, -1), it.is_tag] for it in names]
    return {"title": title, "head": names.head, "people": list(people), "commits": told, "names": shown, "edges": edges}


def all_changes(repo: Repo, commits: Sequence[Commit]) -> Dict[str, Any]:
    """Returns the paths that each commit changed, and HEAD's files."""
    trees = Trees(repo.folder)
    roots = {it.id: it.tree for it in commits}
    paths: Dict[str, int] = {}
    told = []
    with Progress("comparing names", len(commits)) as bar:
        for it in bar.each(commits):
            parent = it.parents[0] if it.parents else None
            if parent is not None and parent not in roots:
                roots[parent] = repo.show(parent).tree
            found = list(trees.changed(roots[parent] if parent else None, it.tree))
            told.append([len(found), *([mark, paths.setdefault(path, len(paths))] for mark, path in found[:MOST_CHANGES])])
    try:
        files = [[it.kind, it.id, paths.setdefault(it.path, len(paths))] for it in repo.files()]
    except Refused:
        files = []
    return {"paths": list(paths), "changes": told, "files": files}


def write(folder: str, out: str, limit: Optional[int] = None, title: Optional[str] = None, told: int = 0, most: int = MOST_BYTES) -> int:
    """Writes the pages of the repository in `folder` into the folder `out`, and returns how many commits they show. `told` of these, the newest ones, have a
    page of their own, while all such pages have no more than `most` bytes."""
    os.makedirs(out, exist_ok=True)
    with Repo(folder) as repo:
        commits = read_commits(repo, limit)
        place = os.path.abspath(folder)
        if os.path.basename(os.path.dirname(place)) == OWN:
            place = os.path.dirname(os.path.dirname(place))
        first = history(repo, commits, title or os.path.basename(place))
        then = all_changes(repo, commits)
        first["told"] = write_changes(repo, out, commits[:told], str(first["title"]), most)
    write_pages(out, first, then)
    return len(commits)


def write_changes(repo: Repo, out: str, commits: Sequence[Commit], title: str, most: int) -> int:
    """Writes a page of each commit with its changes, until they have so many bytes, and returns how many it wrote."""
    os.makedirs(os.path.join(out, "commit"), exist_ok=True)
    shutil.copyfile(os.path.join(os.path.dirname(os.path.abspath(__file__)), "web.css"), os.path.join(out, "commit", "web.css"))
    ids = {it.id for it in commits}
    made = pages.Pages(repo, repo.folder, lambda kind, id, path: f"{id}.html" if kind == "commit" and id in ids else None)
    count = 0
    with Progress("writing changes", len(commits)) as bar:
        for it in bar.each(commits):
            page = pages.document(made.commit(it.id), title, "web.css", is_live=False)
            most -= len(page)
            if most < 0:
                break
            _replace(os.path.join(out, "commit", f"{it.id}.html"), page)
            count += 1
    return count


def write_pages(out: str, first: Dict[str, Any], then: Dict[str, Any]) -> None:
    """Writes the page and its two files."""
    for name, value in (("history", first), ("changes", then)):
        # A text that is parsed as JSON is read quicker than a script, and is never run.
        told = json.dumps(json.dumps(value, separators=(",", ":")))
        _replace(os.path.join(out, f"{name}.js"), f"received({json.dumps(name)}, {told});\n".encode())
    with open(os.path.join(os.path.dirname(os.path.abspath(__file__)), "page.html"), "rb") as it:
        _replace(os.path.join(out, "index.html"), it.read())


def _replace(path: str, content: bytes) -> None:
    with open(path + ".new", "wb") as it:
        it.write(content)
    os.replace(path + ".new", path)


def main(argv: Sequence[str]) -> int:
    """`wunthavel html FOLDER OUT`."""
    parser = argparse.ArgumentParser("wunthavel html", description="Writes a history as static pages.", epilog="example: wunthavel html . pages")
    parser.add_argument("folder", metavar="FOLDER", help="a repository, or a folder with its history in .wunthavel/store")
    parser.add_argument("out", metavar="OUT", help="the folder that the pages are written to")
    parser.add_argument("--limit", type=int, metavar="N", help="show the newest N commits alone")
    parser.add_argument("-n", type=int, default=200, metavar="N", dest="told", help="show the changes of the newest N commits as text, each on a page of its own (200)")
    parser.add_argument("--most", type=int, default=MOST_BYTES, metavar="BYTES", help=f"write pages of commits with so many bytes together at most ({MOST_BYTES:,})")
    parser.add_argument("--title", help="the page's title")
    parser.add_argument("--json", action="store_true", help="report what was written as JSON")
    asked = parser.parse_args(argv)
    count = write(store_of(asked.folder), asked.out, asked.limit, asked.title, asked.told, asked.most)
    index = os.path.join(asked.out, "index.html")
    print(json.dumps({"page": index, "commits": count}) if asked.json else f"{index} shows {count:,} commit{'s' * (count != 1)}")
    return 0
