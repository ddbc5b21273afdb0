"""`wunthavel doctor FOLDER`: reads a history's folder without the engine, and lists every flaw with the names, commits and path that it touches.

An object's flaw is mended by the same object of another place (`--from`), and one that nothing needs is moved out of the folder (`--set-aside`).
"""
import argparse
import json
import os
import re
from dataclasses import dataclass, field
from typing import Dict, List, Optional, Sequence, Set, Tuple

from .bridge import Bars, links_of, reached
from .bridge_folder import files_below, held, read_file
from .bridge_forms import COMMIT, FOLDER, SHA1, SHA256, Hashing, collisions, commit_problem, log_ids, log_problems, name_problem
from .bridge_forms import read_commit, read_tag, read_tree, tag_problem, tree_problem
from .bridge_git import Git
from .objects import is_object, place_of, put_object, stored, sync_folder
from .texts import shown
from .wire import LARGEST
from .worktree import store_of

LEFT = "a stopped run left it (wunthavel recover removes it)"
# An id that an object names, and the kind that the object names it as.
Link = Tuple[bytes, str]
_HEAD = re.compile(rb"(blob|tree|commit|tag) (0|[1-9][0-9]*)\0")


@dataclass
class Flaw:
    """What is wrong at a place of the folder. Of an object: its id, whether its file is to be had anew, and the commits that have it, the path at which the
    first of these does, and the names that reach these."""

    where: str
    why: str
    id: str = ""
    is_lost: bool = False
    commits: List[str] = field(default_factory=list)
    path: str = ""
    names: List[str] = field(default_factory=list)

    def __str__(self) -> str:
        lines = [f"{self.where}: {self.why}"]
        if self.commits:
            lines.append(f"  {self.path and f'as {shown(self.path)} '}in {_counted(self.commits, 'commit')}: {_few(self.commits)}")
        if self.names:
            lines.append(f"  reached by {_counted(self.names, 'name')}: {_few(self.names)}")
        return "\n".join(lines)


def _counted(what: Sequence[object], word: str) -> str:
    return f"{len(what):,} {word}{'s' * (len(what) != 1)}"


def _few(words: Sequence[str]) -> str:
    return ", ".join(words[:3]) + (", .." if len(words) > 3 else "")


class Examination:
    """What a folder has: its names, the objects that are what their places say, with what they name, and all flaws."""

    def __init__(self, folder: bytes, hashing: Hashing, bars: Bars) -> None:
        self.folder, self.hashing = folder, hashing
        self.flaws: List[Flaw] = []
        self.names: Dict[bytes, bytes] = {}
        self.logged: Set[bytes] = set()
        # Equal links are kept once.
        self._known: Dict[Link, Link] = {}
        self.kinds: Dict[bytes, str] = {}
        self.links: Dict[bytes, Tuple[Link, ...]] = {}
        self.stored = list(stored(folder))
        self._peeled: Dict[bytes, bytes] = {}
        self._read_names()
        self._read_logs()
        self._look_for_strays()
        for id in bars.over(self.stored, "reading objects", len(self.stored)):
            self._read_object(id)
        self._follow()

    # Names.

    def _file(self, path: bytes) -> bytes:
        return read_file(os.path.join(self.folder, path)) or b""

    def _flaw(self, where: bytes, why: str) -> None:
        self.flaws.append(Flaw(shown(where), why))

    def _read_names(self) -> None:
        if not re.fullmatch(rb"ref: refs/heads/[^\n]+\n", self._file(b"HEAD")):
            self._flaw(b"HEAD", "it isn't 'ref: refs/heads/NAME' and a line feed")
        self._read_packed()
        for path in files_below(self.folder, b"refs"):
            if not path.endswith(b".lock"):
                self._read_name(path, self._file(path), path)
        for name in self.names:
            problem = name_problem(name)
            if problem:
                self._flaw(name, problem)
        for it in collisions(self.names):
            self.flaws.append(Flaw(it.where, it.why))

    def _read_packed(self) -> None:
        last = b""
        for number, line in enumerate(self._file(b"packed-refs").splitlines(True), 1):
            where = b"packed-refs, line %d" % number
            digits, _, name = line.partition(b" ")
            if line.startswith(b"^") and last:
                self._peeled[last], last = line[1:].strip(), b""
            elif not (number == 1 and line.startswith(b"# pack-refs with: ")):
                last = name.rstrip(b"\n")
                self._read_name(last, digits + line[-1:], where)

    def _read_name(self, name: bytes, text: bytes, where: bytes) -> None:
        if re.fullmatch(rb"[0-9a-f]{%d}\n" % (2 * self.hashing.width), text):
            self.names[name] = bytes.fromhex(text.decode())
        else:
            self._flaw(where, "it holds no id")

    def _read_logs(self) -> None:
        for path in files_below(self.folder, b"logs"):
            name, log = path[5:], self._file(path)
            if path.endswith(b".lock"):
                continue
            self.flaws.extend(Flaw(it.where, it.why) for it in log_problems(name, log, self.hashing))
            self.logged.update(log_ids(log, self.hashing))
            if name not in self.names and name != b"HEAD":
                self._flaw(path, "its name doesn't exist: a stopped run left it (wunthavel recover removes it), or the name is lost, and its log says where it was")

    def _look_for_strays(self) -> None:
        for it in os.listdir(self.folder):
            if it not in (b"HEAD", b"packed-refs", b"refs", b"logs", b"objects") and not it.endswith(b".lock"):
                self._flaw(it, "no history has a file of this name")
        for path in (*os.listdir(self.folder), *files_below(self.folder, b"refs"), *files_below(self.folder, b"logs")):
            if path.endswith(b".lock"):
                self._flaw(path, LEFT)
        places = {os.path.relpath(place_of(self.folder, it), self.folder) for it in self.stored if len(it) == self.hashing.width}
        for path in files_below(self.folder, b"objects"):
            if path not in places:
                self._flaw(path, LEFT if path == b"objects/unfinished" else "no object has this place")

    # Objects.

    def _object_flaw(self, id: bytes, why: str, is_lost: bool = False) -> None:
        where = os.path.relpath(place_of(self.folder, id), self.folder)
        self.flaws.append(Flaw(shown(where), why, id.hex(), is_lost))

    def _read_object(self, id: bytes) -> None:
        data = read_file(place_of(self.folder, id))
        if not is_object(id, data) or data is None:
            self._object_flaw(id, "it is empty" if data == b"" else "its bytes have another id", True)
            return
        head = _HEAD.match(data)
        if not head or int(head[2]) != len(data) - head.end():
            self._object_flaw(id, "it is no object")
            return
        kind, content = head[1].decode(), data[head.end() :]
        self.kinds[id] = kind
        try:
            problem, links = self._form(kind, content)
        except ValueError as error:
            problem, links = str(error), []
        self.links[id] = tuple(self._known.setdefault(it, it) for it in links)
        if problem:
            self._object_flaw(id, problem)

    def _form(self, kind: str, content: bytes) -> Tuple[Optional[str], List[Link]]:
        """Returns what is wrong with an object's content, and what it names."""
        if kind == "tree":
            entries = read_tree(content, self.hashing)
            return tree_problem(entries, self.hashing), [(id, "tree" if mode == FOLDER else "blob") for mode, _, id in entries if mode != COMMIT]
        if kind == "commit":
            commit = read_commit(content, self.hashing)
            return commit_problem(commit), [(commit.tree, "tree"), *((it, "commit") for it in commit.parents)]
        if kind == "tag":
            tag = read_tag(content, self.hashing)
            return tag_problem(tag), [(tag.target, "commit")]
        return (f"it has over {LARGEST:,} bytes" if len(content) > LARGEST else None), []

    # What names what.

    def _follow(self) -> None:
        """Finds what is named and isn't there, or is of another kind, and what each flaw of an object touches."""
        there = set(self.stored) | {self.hashing.empty_tree}
        named = {link for links in self.links.values() for link in links}
        missing = {id for id, _ in named if id not in there} | {it for it in self.names.values() if it not in there}
        for id in sorted(missing):
            self._object_flaw(id, "it isn't stored", True)
        for id, kind in sorted(named):
            if id in self.kinds and self.kinds[id] != kind:
                self._object_flaw(id, f"it is a {self.kinds[id]}, and is named as a {kind}")
        for name, id in self.names.items():
            self._test_target(name, id)
        if any(it.id for it in self.flaws):
            holders = self._holders()
            for it in self.flaws:
                if it.id:
                    self._touch(it, holders)

    def _test_target(self, name: bytes, id: bytes) -> None:
        if self.kinds.get(id) in ("blob", "tree"):
            self._flaw(name, f"it is at a {self.kinds[id]}")
        if self.kinds.get(id) == "tag" and self._peeled.get(name, b"") not in (b"", *(it.hex().encode() for it, _ in self.links[id])):
            self._flaw(name, "packed-refs has another commit for this tag")

    def _holders(self) -> Dict[bytes, List[bytes]]:
        """Returns the objects that name an object."""
        found: Dict[bytes, List[bytes]] = {}
        for id, links in self.links.items():
            for it, _ in links:
                found.setdefault(it, []).append(id)
        return found

    def _touch(self, flaw: Flaw, holders: Dict[bytes, List[bytes]]) -> None:
        id = bytes.fromhex(flaw.id)
        # Up to the commits, whose children have files of their own.
        inside = reached([id], lambda at: () if at != id and self.kinds.get(at) == "commit" else holders.get(at, ()))
        above = reached([id], lambda at: holders.get(at, ()))
        commits = sorted(it for it in inside if self.kinds.get(it) == "commit" and it != id)
        flaw.commits = [it.hex() for it in commits]
        flaw.path = self._path(commits[0], id, inside) if commits else ""
        flaw.names = [shown(it) for it in sorted(self.names) if self.names[it] in above]

    def _path(self, commit: bytes, id: bytes, inside: Set[bytes]) -> str:
        """Returns a path at which a commit has an object, through the trees that lead to it; an empty one if it is the commit's tree or parent."""
        at, names = self.links[commit][0][0], []
        while at != id and self.kinds.get(at) == "tree":
            content = (read_file(place_of(self.folder, at)) or b"").partition(b"\0")[2]
            step = next(((name, it) for _, name, it in read_tree(content, self.hashing) if it in inside), None)
            if step is None:
                break
            names.append(step[0])
            at = step[1]
        return os.fsdecode(b"/".join(names))

    def unneeded(self) -> List[bytes]:
        """Returns the stored objects that have a flaw, or lead to one that has, and that no name and no log reaches. What is kept names none of them."""
        needed = reached([*self.names.values(), *self.logged], lambda at: [it for it, _ in self.links.get(at, ())])
        holders = self._holders()
        flawed = reached([bytes.fromhex(it.id) for it in self.flaws if it.id], lambda at: holders.get(at, ()))
        return [it for it in self.stored if it in flawed and it not in needed]


# Mending.


class _Other:
    """Another place that has objects: a history's folder, or a git repository."""

    def __init__(self, place: str) -> None:
        self._folder, self._git = os.fsencode(store_of(place)), None
        if os.path.exists(os.path.join(place, ".git")) or os.path.exists(os.path.join(place, "config")):
            self._git = Git(place)
            self._git.open()

    def read(self, id: bytes) -> Optional[bytes]:
        """Returns an object's bytes, if it is there and they are its."""
        if self._git is None:
            data = read_file(place_of(self._folder, id))
        else:
            line, _, content = self._git.run("cat-file", "--batch", given=id.hex().encode() + b"\n").partition(b"\n")
            data = b" ".join(line.split(b" ")[1:]) + b"\0" + content[:-1]
        return data if is_object(id, data) else None


def put_back(found: Examination, others: Sequence[_Other]) -> List[str]:
    """Puts objects back that are lost, and what these name and isn't there, and returns their ids. The folder must be held alone."""
    left = [bytes.fromhex(it.id) for it in found.flaws if it.is_lost]
    done: List[str] = []
    tried: Set[bytes] = set()
    folders = set()
    while left:
        id = left.pop()
        data = None if id in tried or id in found.kinds else next(filter(None, (it.read(id) for it in others)), None)
        tried.add(id)
        if data is not None:
            folders.add(put_object(found.folder, id, data))
            done.append(id.hex())
            head, _, content = data.partition(b"\0")
            left.extend(links_of(head.split(b" ")[0].decode(), content, found.hashing))
    for it in (*folders, os.path.join(found.folder, b"objects")):
        sync_folder(it)
    return sorted(done)


def set_aside(found: Examination) -> List[str]:
    """Moves flawed objects that nothing needs to a folder beside, and returns their ids. The folder must be held alone."""
    beside = found.folder.rstrip(b"/") + b".set-aside"
    ids = found.unneeded()
    for id in ids:
        place, to = place_of(found.folder, id), os.path.join(beside, id.hex().encode())
        os.makedirs(beside, exist_ok=True)
        while os.path.exists(to):
            to += b".again"
        os.rename(place, to)
    for it in {os.path.dirname(place_of(found.folder, it)) for it in ids} | ({beside} if ids else set()):
        sync_folder(it)
    return [it.hex() for it in ids]


@dataclass
class Report:
    """What was found at the end, and which objects were put back and set aside before that."""

    objects: int
    flaws: List[Flaw]
    put_back: List[str] = field(default_factory=list)
    set_aside: List[str] = field(default_factory=list)


def examine(folder: str, others: Sequence[str] = (), aside: bool = False, *, sha256: Optional[bool] = None, bars: Optional[Bars] = None) -> Report:
    """Reads a folder, mends it as far as that is asked for, and reports what is wrong after that."""
    place, bars = os.fsencode(store_of(folder)), bars or Bars(quiet=True)
    is_long = any(len(it) == 32 for it in stored(place)) if sha256 is None else sha256
    hashing = SHA256 if is_long else SHA1
    sources = [_Other(it) for it in others]
    with held(place, alone=bool(others or aside)):
        found = Examination(place, hashing, bars)
        back = put_back(found, sources)
        if back:
            found = Examination(place, hashing, bars)
        away = set_aside(found) if aside else []
        if away:
            found = Examination(place, hashing, bars)
    return Report(len(found.stored), found.flaws, back, away)


def main(argv: Sequence[str]) -> int:
    """`wunthavel doctor FOLDER`."""
    text = "Lists every flaw of a history's folder, without the engine. It changes nothing without --from or --set-aside. Copy the folder before these."
    parser = argparse.ArgumentParser(prog="wunthavel doctor", description=text, epilog="example: wunthavel doctor store --from /mnt/store")
    parser.add_argument("folder", metavar="FOLDER", help="a history's folder, or a folder with its history in .wunthavel/store")
    other = "put back objects that are missing or garbled from this backup, history's folder or git repository, each if it has its id; may be given again"
    parser.add_argument("--from", dest="others", metavar="OTHER", action="append", default=[], help=other)
    parser.add_argument("--set-aside", action="store_true", help="move objects with flaws that no name and no log reaches to FOLDER.set-aside")
    parser.add_argument("--sha256", action="store_true", default=None, help="the ids are of SHA-256; objects that exist show it without this")
    parser.add_argument("--json", action="store_true", help="report as JSON on standard output")
    asked = parser.parse_args(argv)
    found = examine(asked.folder, asked.others, asked.set_aside, sha256=asked.sha256, bars=Bars(asked.json))
    if asked.json:
        print(json.dumps({**vars(found), "flaws": [vars(it) for it in found.flaws]}))
    else:
        _say(found)
    return 1 if found.flaws else 0


def _say(found: Report) -> None:
    for what, ids in (("put back", found.put_back), ("set aside", found.set_aside)):
        for it in ids:
            print(f"{what}: {it}")
    for flaw in found.flaws:
        print(flaw)
    print(f"{found.objects:,} objects are read, and {_counted(found.flaws, 'flaw')} found")
