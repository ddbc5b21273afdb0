"""`wunthavel fast-import FOLDER`: makes the commits and tags of a `git fast-export` stream by the engine's commands, and compares their ids.

The stream is best made with ids, which `--from REPO` does: then commands are sent ahead, what the folder has already is not made again, and the
first commit or tag whose id isn't the original's ends the import. Each commit is made on the name that the stream says: if that name is
elsewhere it is moved first, and if a commit without parents comes to a name that exists, it is made under a name of its own.
"""
import argparse
import contextlib
import os
import re
import sys
import tempfile
from collections import deque
from dataclasses import dataclass, field
from typing import IO, Any, Callable, Deque, Dict, Iterator, List, Optional, Sequence, Tuple

from . import protocol
from .bridge import Bars, add_common_words, report
from .bridge_folder import WAIT
from .bridge_forms import MAX_CONTENT
from .bridge_git import Git, source
from .engine import Pending, act, is_sha256
from .errors import HistoryError, Refused
from .progress import Progress
from .protocol import ANY, NEW, Actor, Expected
from .repo import Repo
from .texts import shown

# All names, but not HEAD as --all has it: a detached one would move the branch that HEAD names here.
EXPORT = ["fast-export", "--glob=refs/", "--show-original-ids", "--signed-tags=verbatim", "--reencode=no", "--mark-tags", "--use-done-feature"]
OWN_NAME = b"refs/wunthavel/fast-import"
# So many commands are on their way at most.
AHEAD = 200
KINDS = {b"100644": "file", b"644": "file", b"100755": "exec", b"755": "exec", b"120000": "link"}
NOBODY = Actor("fast-import", "", 0, "+0000")


class StreamError(HistoryError):
    """The stream can't be imported further, for the reason that its text says."""


# The stream (git-fast-import(1)).


@dataclass
class Made:
    """A commit or a tag of the stream."""

    name: bytes
    mark: bytes = b""
    original: str = ""
    author: Optional[Actor] = None
    committer: Optional[Actor] = None
    message: bytes = b""
    parents: List[bytes] = field(default_factory=list)
    has_from: bool = False
    removed: List[bytes] = field(default_factory=list)
    cleared: bool = False
    # What is put at a path: a file, or what another path of the first parent has.
    put: "Dict[bytes, Tuple[str, bytes]]" = field(default_factory=dict)

    @property
    def title(self) -> str:
        """How a person finds it."""
        return (self.original or shown(self.mark)) + f" on {shown(self.name)}"


class Stream:
    """The lines and data of a stream."""

    def __init__(self, source: IO[bytes]) -> None:
        self._source = source
        self._again: Optional[bytes] = None
        self.number = 0

    def line(self) -> Optional[bytes]:
        """Returns the next line without its line feed; None at the end."""
        if self._again is not None:
            again, self._again = self._again, None
            return again
        while True:
            line = self._source.readline()
            self.number += 1
            if not line:
                return None
            if not line.startswith(b"#"):
                return line[:-1] if line.endswith(b"\n") else line

    def give_back(self, line: Optional[bytes]) -> None:
        """Has `line` return this one again."""
        self._again = line

    def data(self) -> bytes:
        """Returns what a `data` line announces."""
        line = self.line() or b""
        if line.startswith(b"data <<"):
            lines: List[bytes] = []
            while True:
                it = self._source.readline()
                if not it:
                    raise StreamError(f"the stream ends before {shown(line[7:])}")
                if it.rstrip(b"\n") == line[7:]:
                    break
                lines.append(it)
            content = b"".join(lines)
        elif re.fullmatch(rb"data [0-9]{1,18}", line):
            if int(line[5:]) > MAX_CONTENT:
                raise StreamError(f"data of {int(line[5:]):,} bytes, over {MAX_CONTENT:,} (line {self.number} of those outside data)")
            content = self._source.read(int(line[5:]))
            if len(content) != int(line[5:]):
                raise StreamError("the stream ends inside data")
        else:
            raise StreamError(f"'{shown(line[:80])}' in the place of data (line {self.number} of those outside data)")
        end = self.line()
        if end != b"":
            self.give_back(end)
        return content


_ESCAPES = {b"a": b"\a", b"b": b"\b", b"f": b"\f", b"n": b"\n", b"r": b"\r", b"t": b"\t", b"v": b"\v"}


def read_path(text: bytes) -> Tuple[bytes, bytes]:
    """Returns the path at the beginning of a text, which may be in quotes, and what follows it."""
    if not text.startswith(b'"'):
        return text, b""
    found = re.match(rb'"((?:[^"\\]|\\.)*)"', text)
    if not found:
        raise StreamError(f"the path {shown(text)} has no end")

    def plain(it: "re.Match[bytes]") -> bytes:
        word = it[1]
        return bytes([int(word, 8)]) if word.isdigit() else _ESCAPES.get(word, word)

    return re.sub(rb"\\([0-3][0-7]{2}|.)", plain, found[1]), text[found.end() :].lstrip(b" ")


_ACTOR = re.compile(rb"([^<]*?) ?<([^>]*)> ([0-9]{1,20}) ([+-][0-9]{4})\Z")


def read_actor(text: bytes, title: str) -> Actor:
    """Reads `Name <email> seconds offset`."""
    found = _ACTOR.match(text)
    if not found:
        raise StreamError(f"{title}: '{shown(text)}' isn't 'Name <email> seconds offset'")
    name, email, seconds, offset = found.groups()
    return Actor(protocol.text(name), protocol.text(email), int(seconds), offset.decode())


# The import.


class NewIds:
    """The file beside the folder that has the original and the new id of each commit and tag that got another one, a line each."""

    def __init__(self, folder: str) -> None:
        self.path = folder.rstrip("/") + ".new-ids"
        self.known: Dict[str, str] = {}
        self.count = 0
        self._file: Optional[IO[str]] = None
        with contextlib.suppress(FileNotFoundError), open(self.path, encoding="ascii") as it:
            self.known.update(line.split() for line in it if len(line.split()) == 2)

    def add(self, original: str, id: str) -> None:
        """Adds a pair."""
        self.count += 1
        self._file = self._file or open(self.path, "a", encoding="ascii")
        self._file.write(f"{original} {id}\n")

    def close(self) -> None:
        """Writes what wasn't written yet."""
        if self._file:
            self._file.close()


class FastImport:
    """One import into an open repository."""

    def __init__(self, repo: Repo, stream: Stream, new_ids: Optional[NewIds] = None, bar: Optional[Progress] = None) -> None:
        self.repo, self.stream, self.new_ids, self.bar = repo, stream, new_ids, bar
        self._ahead: Deque[Tuple["Pending[Any]", str, Optional[Callable[[Any], None]]]] = deque()
        # What a mark means: a commit's id, a tag's name, or the place of a file's content in the room.
        self._ids: Dict[bytes, str] = {}
        self._tags: Dict[bytes, bytes] = {}
        self._blobs: Dict[bytes, Tuple[int, int]] = {}
        self._room = tempfile.TemporaryFile()
        self._last = NOBODY
        names = repo.names()
        self._head = protocol.raw(names.head)
        # The commits that the names hold now, those that the stream says, and the names that hold tags.
        self._now: Dict[bytes, str] = {protocol.raw(it.name): it.commit for it in names}
        self._said: Dict[bytes, Optional[str]] = {}
        self._tagged: Dict[bytes, str] = {protocol.raw(it.name): it.id for it in names if it.is_tag}
        self.count = {"commits": 0, "tags": 0, "names": 0, "known": 0}
        self._announces_done = False

    def run(self) -> None:
        """Reads the stream to its end."""
        if OWN_NAME in self._now:
            self._send(protocol.delete(OWN_NAME), "a name that a stopped import left")
            del self._now[OWN_NAME]
        while True:
            line = self.stream.line()
            if line is None and self._announces_done:
                raise StreamError("the stream was cut: it ends without the 'done' that it announces")
            if line is None or line == b"done":
                break
            self._read(line)
        self._settle()
        self._take(0)

    def _read(self, line: bytes) -> None:
        word, _, rest = line.partition(b" ")
        if word == b"blob":
            self._read_blob()
        elif word == b"commit":
            self._make_commit(self._read_commit(self._full(rest)))
        elif word == b"reset":
            self._reset(self._full(rest))
        elif word == b"tag":
            self._make_tag(self._read_tag(rest))
        elif word == b"checkpoint":
            self._settle()
        elif word == b"feature" and rest.split(b"=")[0] not in (b"done", b"date-format", b"force", b"notes", b"relative-marks", b"no-relative-marks"):
            raise StreamError(f"the stream needs the feature {shown(rest)}")
        elif line == b"feature done":
            self._announces_done = True
        elif word not in (b"", b"progress", b"feature", b"option"):
            raise StreamError(f"'{shown(line[:80])}' is no command of an export (line {self.stream.number} of those outside data)")

    def _full(self, name: bytes) -> bytes:
        return self._head if name == b"HEAD" else name

    # Commands on their way.

    def _send(self, command: "protocol.Command[Any]", title: str, then: Optional[Callable[[Any], None]] = None) -> None:
        self._ahead.append((self.repo.send(command), title, then))
        self._take(AHEAD)

    def _take(self, most: int) -> None:
        """Takes replies until so many commands are on their way at most."""
        while len(self._ahead) > most:
            pending, title, then = self._ahead.popleft()
            try:
                reply = pending.result()
            except Refused as error:
                hint = "; git-import brings what no command makes" if error.cause in ("BadMessage", "BadActor") else ""
                raise StreamError(f"{title}: {error}{hint}") from error
            if then:
                then(reply)

    def _compare(self, it: Made, key: str) -> Callable[[str], None]:
        def compare(id: str) -> None:
            self.count[key] += 1
            if self.bar:
                self.bar.step()
            if key == "commits":
                self._ids[it.mark] = id
            if it.original and id != it.original:
                if not self.new_ids:
                    why = "the stream leaves something of it out, as a signature or a header"
                    raise StreamError(f"{key[:-1]} {it.title}: it has the id {id} here ({why}); --new-ids goes on")
                self.new_ids.add(it.original, id)

        return compare

    # Blobs.

    def _read_blob(self) -> None:
        mark = b""
        while True:
            line = self.stream.line()
            if line is None or not line.startswith((b"mark ", b"original-oid ")):
                break
            mark = line[5:] if line.startswith(b"mark ") else mark
        self.stream.give_back(line)
        content = self.stream.data()
        self._blobs[mark] = (self._room.seek(0, os.SEEK_END), len(content))
        self._room.write(content)

    def _content(self, mark: bytes, title: str) -> bytes:
        if mark not in self._blobs:
            raise StreamError(f"{title}: {shown(mark)} is no content of the stream (was it exported with --no-data?)")
        at, length = self._blobs[mark]
        self._room.seek(at)
        return self._room.read(length)

    # Commits.

    def _read_commit(self, name: bytes) -> Made:
        it = Made(name)
        while True:
            line = self.stream.line()
            word, _, rest = (line or b"").partition(b" ")
            if word == b"mark":
                it.mark = rest
            elif word == b"original-oid":
                it.original = rest.decode()
            elif word == b"author":
                it.author = read_actor(rest, f"the author of {it.title}")
            elif word == b"committer":
                it.committer = read_actor(rest, f"the committer of {it.title}")
            elif word in (b"encoding", b"gpgsig"):
                what = "a signature" if word == b"gpgsig" else f"an encoding ({shown(rest)}); --from with --new-ids makes it UTF-8"
                raise StreamError(f"commit {it.title}: it has {what}")
            else:
                break
        self.stream.give_back(line)
        it.message = self.stream.data()
        if it.committer is None:
            raise StreamError(f"commit {it.title}: it has no committer")
        self._read_edits(it)
        return it

    def _read_edits(self, it: Made) -> None:
        while True:
            line = self.stream.line()
            word, _, rest = (line or b"").partition(b" ")
            if word in (b"from", b"merge"):
                it.has_from = it.has_from or word == b"from"
                it.parents.append(rest)
            elif word in (b"M", b"D", b"R", b"C"):
                self._edit(it, word, rest)
            elif line == b"deleteall":
                it.cleared = True
                it.removed, it.put = [], {}
            elif line is not None and word == b"N":
                raise StreamError(f"commit {it.title}: it has a note as such (N), which git's own exports have as files")
            else:
                break
        if line != b"":
            self.stream.give_back(line)

    def _edit(self, it: Made, word: bytes, rest: bytes) -> None:
        if word == b"M":
            mode, mark, rest = rest.split(b" ", 2)
            path = read_path(rest)[0]
            if mode not in KINDS:
                what = "a submodule" if mode == b"160000" else f"of the mode {shown(mode)}"
                raise StreamError(f"commit {it.title}: '{shown(path)}' is {what}")
            if mark == b"inline":
                mark = b"inline %d" % len(self._blobs)
                content = self.stream.data()
                self._blobs[mark] = (self._room.seek(0, os.SEEK_END), len(content))
                self._room.write(content)
            it.put.pop(path, None)
            it.put[path] = (KINDS[mode], mark)
        elif word == b"D":
            path = read_path(rest)[0]
            it.put.pop(path, None)
            it.removed.append(path)
        else:
            source, after = read_path(rest) if rest.startswith(b'"') else rest.split(b" ", 1)
            path = read_path(after)[0]
            it.put.pop(path, None)
            it.put[path] = ("graft", source)
            if word == b"R":
                it.removed.append(source)

    def _commit_of(self, word: bytes, title: str) -> str:
        """Returns the id that a mark, a name or an id means."""
        word = word[:-2] if word.endswith(b"^0") else word
        if word.startswith(b":"):
            if word not in self._ids:
                self._take(0)
            if word in self._ids:
                return self._ids[word]
            if word in self._tags:
                raise StreamError(f"{title}: it is of the tag {shown(self._tags[word])}, and not of a commit")
            raise StreamError(f"{title}: the stream has no {shown(word)} before it")
        name = self._full(word)
        id = self._said.get(name, self._now.get(name))
        if not id and not re.fullmatch(rb"[0-9a-f]{40}([0-9a-f]{24})?", word):
            raise StreamError(f"{title}: {shown(word)} is no commit")
        return id or word.decode()

    def _make_commit(self, it: Made) -> None:
        title = f"commit {it.title}"
        parents = [self._commit_of(word, title) for word in it.parents]
        current = self._said.get(it.name, self._now.get(it.name))
        if not it.has_from and current:
            # A commit without `from` follows what its name holds; exports reset the name before a root.
            parents.insert(0, current)
        assert it.committer is not None
        self._last = it.committer
        known = self._known(it)
        if known:
            self.count["known"] += 1
            self._ids[it.mark] = known
            self._said[it.name] = known
            return
        on, expect = self._place(it.name, parents[0] if parents else None, title)
        edits = self._edits(it, parents[0] if parents else None, title)
        command = protocol.commit(on, it.message, it.author or it.committer, it.committer, edits, expect, parents[1:])
        self._send(command, title, self._compare(it, "commits"))
        self._ids[it.mark] = it.original
        if not it.original or self.new_ids:
            self._take(0)
        id = self._ids[it.mark]
        self._now[on] = self._said[it.name] = id
        if on == OWN_NAME:
            self._move({it.name: id}, title)
            self._send(protocol.delete(OWN_NAME), title)
            del self._now[OWN_NAME]

    def _place(self, name: bytes, parent: Optional[str], title: str) -> Tuple[bytes, Expected]:
        """Returns the name on which a commit with this first parent is made, once that is at the parent."""
        if parent is None:
            return (name, NEW) if name not in self._now else (OWN_NAME, NEW)
        if name in self._tagged:
            name = OWN_NAME
        if self._now.get(name) != parent:
            self._move({name: parent}, title)
        return name, parent

    def _edits(self, it: Made, parent: Optional[str], title: str) -> Iterator[bytes]:
        """Returns the edits, all removals first: an export has `M a/b` before the `D a` of a file that became a folder."""
        if it.cleared and parent:
            self._take(0)
            for top in sorted({protocol.raw(file.path).partition(b"/")[0] for file in self.repo.files(parent)}):
                yield protocol.remove(top)
        for path in it.removed:
            yield protocol.remove(path)
        for path, (kind, what) in it.put.items():
            if kind != "graft":
                yield protocol.put(path, self._content(what, title), kind)
            elif parent is None:
                raise StreamError(f"{title}: it takes '{shown(what)}' from a first parent, and has none")
            else:
                yield protocol.graft(path, parent, what)

    def _known(self, it: Made) -> str:
        """Returns the id under which the folder has the original already, or nothing."""
        for id in (it.original, self._new_id(it)):
            if id and os.path.exists(os.path.join(self.repo.folder, "objects", id[:2], id[2:])):
                return id
        return ""

    def _new_id(self, it: Made) -> str:
        return self.new_ids.known.get(it.original, "") if self.new_ids else ""

    # Names.

    def _reset(self, name: bytes) -> None:
        line = self.stream.line()
        if line is None or not line.startswith(b"from "):
            self.stream.give_back(line)
            self._said[name] = None
            return
        if line[5:].strip(b"0"):
            self._said[name] = self._commit_of(line[5:], f"the reset of {shown(name)}")
        else:
            self._said[name] = ""
        end = self.stream.line()
        if end != b"":
            self.stream.give_back(end)

    def _move(self, names: Dict[bytes, str], title: str) -> None:
        moves: List[Tuple[bytes, Expected, str]] = [(name, self._now[name] if name in self._now else NEW, id) for name, id in names.items()]
        self._send(protocol.move(moves, b"fast-import", self._last), title)
        self._now.update(names)
        for name in names:
            self._tagged.pop(name, None)
        self.count["names"] += len(names)

    def _settle(self) -> None:
        """Moves each name to the commit that the stream says."""
        for name, id in sorted(self._said.items()):
            if id == "" and name in self._now:
                self._send(protocol.delete(name), f"the end of {shown(name)}")
                del self._now[name]
        late = {name: id for name, id in sorted(self._said.items()) if id and self._now.get(name) != id}
        for at in range(0, len(late), 100):
            self._move(dict(list(late.items())[at : at + 100]), "the last moves of names")
        self._said.clear()

    # Tags.

    def _read_tag(self, name: bytes) -> Made:
        it = Made(b"refs/tags/" + name)
        while True:
            line = self.stream.line()
            word, _, rest = (line or b"").partition(b" ")
            if word == b"mark":
                it.mark = rest
            elif word == b"original-oid":
                it.original = rest.decode()
            elif word == b"from":
                it.parents.append(rest)
            elif word == b"tagger":
                it.committer = read_actor(rest, f"the tagger of {it.title}")
            else:
                break
        self.stream.give_back(line)
        it.message = self.stream.data()
        return it

    def _make_tag(self, it: Made) -> None:
        title = f"tag {it.title}"
        if it.mark:
            self._tags[it.mark] = it.name
        if len(it.parents) != 1:
            raise StreamError(f"{title}: it is of {len(it.parents)} objects")
        line = self.stream.line()
        self.stream.give_back(line)
        if line == b"reset " + it.name:
            self._refuse_tag_of(it)
        commit = self._commit_of(it.parents[0], title)
        if it.committer is None:
            raise StreamError(f"{title}: it has no tagger")
        self._last = it.committer
        self._said.pop(it.name, None)
        if it.original and self._tagged.get(it.name) in (it.original, self._new_id(it)):
            self.count["known"] += 1
            return
        command = protocol.tag(it.name, commit, it.message, it.committer, ANY)
        self._send(command, title, self._compare(it, "tags"))
        self._now[it.name] = commit
        self._tagged[it.name] = it.original

    def _refuse_tag_of(self, inner: Made) -> None:
        """Names a tag of a tag, of which an export has the inner one first, under the same name, and then a reset from no id."""
        lines = [self.stream.line() for _ in range(4)]
        outer = self._read_tag(inner.name[10:]) if (lines[3] or b"").startswith(b"tag ") else inner
        raise StreamError(f"tag {outer.title}: it is of the tag {inner.original or shown(inner.mark)}, and not of a commit")

    def close(self) -> None:
        """Waits for what was sent, and ends what is kept meanwhile."""
        for pending, _, _ in self._ahead:
            with contextlib.suppress(HistoryError):
                pending.result()
        self._room.close()


def fast_import(
    folder: str,
    stream: IO[bytes],
    sha256: bool = False,
    new_ids: bool = False,
    head: str = "",
    engine: Optional[str] = None,
    bars: Optional[Bars] = None,
) -> Dict[str, Any]:
    """Imports a stream into a folder, which is made if there is none, and returns a summary."""
    bars, sha256 = bars or Bars(quiet=True), sha256 or is_sha256(folder)
    if not os.path.exists(os.path.join(folder, "HEAD")):
        os.makedirs(folder, exist_ok=True)
        act("create", folder, sha256, engine)
    with contextlib.ExitStack() as ends:
        ids = ends.enter_context(contextlib.closing(NewIds(folder))) if new_ids else None
        repo = ends.enter_context(Repo(folder, sha256=sha256, recover=True, wait=WAIT, engine=engine))
        bar = ends.enter_context(bars.during("commits and tags"))
        work = ends.enter_context(contextlib.closing(FastImport(repo, Stream(stream), ids, bar)))
        work.run()
        if head and repo.head != head:
            repo.switch(head)
        notes = [] if repo.resolve("HEAD") else [f"HEAD names {repo.head}, which no commit is on (--head names another)"]
    with bars.during("checking the folder") as bar:
        act("check", folder, sha256, engine, lambda: bar.step(0))
    others = {"new_ids": ids.path} if ids and ids.count else {}
    return {"done": True, **work.count, "other_ids": ids.count if ids else 0, **others, "notes": notes, "check": "whole"}


def _words() -> argparse.ArgumentParser:
    text = "Makes the commits and tags of a git fast-export stream, and compares their ids with the original ones."
    example = "example:\n  git " + " ".join(EXPORT) + " | wunthavel fast-import store\n  wunthavel fast-import store --from project/.git"
    parser = argparse.ArgumentParser(prog="wunthavel fast-import", description=text, epilog=example, formatter_class=argparse.RawDescriptionHelpFormatter)
    parser.add_argument("folder", metavar="FOLDER", help="the history's folder, which is made if there is none")
    exported = "export this git repository, in place of reading standard input: a folder, or a bundle or a URL, which git clones first"
    parser.add_argument("--from", dest="source", metavar="REPO", help=exported)
    parser.add_argument("--head", metavar="BRANCH", default="", help="the branch that HEAD is to name, as refs/heads/main (that of --from; a stream doesn't say)")
    parser.add_argument("--new-ids", action="store_true", help="go on after an id that isn't the original one; FOLDER.new-ids lists both")
    parser.add_argument("--sha256", action="store_true", help="the ids are of SHA-256; --from and a folder with objects show it without this")
    add_common_words(parser)
    return parser


def _import(asked: argparse.Namespace, bars: Bars) -> Dict[str, Any]:
    if not asked.source:
        return fast_import(asked.folder, sys.stdin.buffer, asked.sha256, asked.new_ids, asked.head, asked.engine, bars)
    with source(asked.source, bars) as git:
        # An encoding is a header, which no commit of a history has.
        words = [*EXPORT, "--reencode=yes"] if asked.new_ids else EXPORT
        with git.stream(words) as stream:
            return fast_import(asked.folder, stream, git.hashing.name == "sha256", asked.new_ids, asked.head or _branch(git), asked.engine, bars)


def _branch(git: Git) -> str:
    """Returns the branch that HEAD names there, if it names one."""
    head, is_name = git.head()
    return head.decode("utf-8", "surrogateescape") if is_name and head.startswith(b"refs/heads/") else ""


def main(argv: Sequence[str]) -> int:
    """Does what the words say."""
    asked = _words().parse_args(argv)
    return report(lambda bars: _import(asked, bars), asked)
