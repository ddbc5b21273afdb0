"""What is made of the engine's commands on the client's side, step by step, for `Repo` and for `AsyncRepo`.

A plan is a generator: it yields commands that can be sent together, is sent their replies, and returns what was asked for. A `Refused` or a `Fault` comes
in the place of a reply. Who runs a plan sends the commands, waiting or not.
"""
import difflib
import hashlib
import re
import time
from dataclasses import dataclass
from typing import Any, Dict, Generator, Iterable, Iterator, List, Optional, Sequence, Set, Tuple, TypeVar, Union

from . import protocol
from .errors import Damaged, IsFolder, NoSuchPath, UnbornHead, UnknownWord
from .protocol import Command, Commit, Content, File, Ids, LogEntry
from .texts import Text, raw, shown, text

T = TypeVar("T")
Plan = Generator[List[Command[Any]], List[Any], T]
Texts = Union[Text, Iterable[Text]]
HEAD = "HEAD"
# One wait takes so many seconds at most, so that a server that is gone is noticed.
LONGEST_WAIT = 600
# So many commits of a file's history are looked at together.
PAGE = 32


@dataclass(frozen=True)
class Change:
    """A path at which two commits differ: `old` and `new` are its files in them, one of which may be `None`."""

    path: str
    old: Optional[File]
    new: Optional[File]

    @property
    def kind(self) -> str:
        """`"added"`, `"removed"` or `"changed"`."""
        return "added" if self.old is None else "removed" if self.new is None else "changed"


@dataclass(frozen=True)
class Entry:
    """What a folder has under a name: a file with its kind and id, or a folder, of the kind `"folder"` and without an id."""

    name: str
    path: str
    kind: str
    id: Optional[str] = None


@dataclass(frozen=True)
class Line:
    """A line of a file, with its line feed if it has one, its number from 1, and the commit that it is from."""

    number: int
    data: bytes
    commit: Commit


@dataclass(frozen=True)
class AsOf:
    """What a name was at: the commit's id, `None` if there was none, and by what that is known: `"log"`, the name's log, or `"time"`, the times of its
    commits, where the log doesn't go back so far."""

    id: Optional[str]
    by: str


# Words and names.


def branch(name: Text) -> bytes:
    """Returns a name in full: one that doesn't begin with `refs/`, and isn't `HEAD`, is a branch's."""
    full = raw(name)
    return full if full.startswith(b"refs/") or full == b"HEAD" else b"refs/heads/" + full


def tag(name: Text) -> bytes:
    """Returns a tag's name in full."""
    full = raw(name)
    return full if full.startswith(b"refs/") else b"refs/tags/" + full


def folder(name: Text) -> bytes:
    """Returns a folder of names in full."""
    full = raw(name)
    return full if not full or full == b"refs" or full.startswith(b"refs/") else b"refs/" + full


def several(given: Texts) -> List[Text]:
    """Returns the texts of one or of many."""
    return [given] if isinstance(given, (str, bytes)) else list(given)


def ask(command: Command[T]) -> Plan[T]:
    """Asks for one thing."""
    (reply,) = yield [command]
    if isinstance(reply, Exception):
        raise reply
    return reply  # type: ignore[no-any-return]


def word(given: Text) -> Plan[Text]:
    """Returns the engine's word for one that may end with steps to parents: `~2` is the first parent's first parent, `^2` the second parent."""
    begin, steps = re.fullmatch(rb"(.*?)((?:[~^][0-9]*)*)", raw(given), re.DOTALL).groups()  # type: ignore[union-attr]
    if not steps:
        return given
    at: Text = begin
    for kind, number in re.findall(rb"([~^])([0-9]*)", steps):
        at = yield from _step(given, at, kind, int(number or b"1"))
    return at


def _step(given: Text, at: Text, kind: bytes, number: int) -> Plan[Text]:
    if kind == b"~" and number > 1:
        found: Sequence[str] = yield from ask(protocol.log([at], order="breadth", first_parents=True))
    else:
        commit = yield from ask(protocol.show(at))
        found = [commit.id, *commit.parents]
    if number >= len(found):
        raise UnknownWord("UnknownWord", values=[f"{shown(given)}: the history doesn't go so far"])
    return found[number]


def words(given: Texts) -> Plan[List[Text]]:
    """Returns the engine's words for several."""
    found = []
    for it in several(given):
        found.append((yield from word(it)))
    return found


def resolve(given: Text) -> Plan[Optional[str]]:
    """Returns the id of a word's commit, or `None` if there is none."""
    try:
        commit = yield from show(given)
        return commit.id
    except (UnknownWord, UnbornHead):
        return None


def show(given: Text) -> Plan[Commit]:
    """Returns a word's commit."""
    return (yield from ask(protocol.show((yield from word(given)))))


# Files.


def files(at: Text) -> Plan[List[File]]:
    """Returns a commit's files; a new repository has none."""
    try:
        return (yield from ask(protocol.files((yield from word(at)))))
    except UnbornHead:
        if at == HEAD:
            return []
        raise


def content(path: Text, at: Text, check: bool = True) -> Plan[Content]:
    """Returns a file of a commit."""
    try:
        found = yield from ask(protocol.content((yield from word(at)), path))
    except UnbornHead:
        if at == HEAD:
            raise NoSuchPath("NoSuchPath", values=[shown(path)]) from None
        raise
    return checked(found, path) if check else found


def checked(found: Content, path: Text) -> Content:
    """Returns a content whose bytes have its id; else they aren't what was stored."""
    if object_id("blob", found.data, len(found.id) == 64) != found.id:
        raise Damaged(text(raw(path)), found.id)
    return found


def object_id(kind: str, data: bytes, sha256: bool = False) -> str:
    """Returns the id that an object with these bytes has.

    >>> object_id("blob", b"hello\\n")
    'ce013625030ba8dba906f756967f9e9ca394464a'
    """
    return hashlib.new("sha256" if sha256 else "sha1", b"%s %d\0" % (kind.encode(), len(data)) + data).hexdigest()


def below(found: Iterable[File], inside: Text) -> Iterator[File]:
    """Gives the files in a folder."""
    before = raw(inside).strip(b"/")
    for it in found:
        if not before or raw(it.path).startswith(before + b"/"):
            yield it


def entries(inside: Text, at: Text) -> Plan[List[Entry]]:
    """Returns what a folder of a commit has."""
    before = text(raw(inside).strip(b"/"))
    start = len(before) + 1 if before else 0
    found: Dict[str, Entry] = {}
    for it in below((yield from files(at)), inside):
        name, slash, _ = it.path[start:].partition("/")
        if slash:
            found.setdefault(name, Entry(name, it.path[:start] + name, "folder"))
        else:
            found[name] = Entry(name, it.path, it.kind, it.id)
    if not found and before:
        raise NoSuchPath("NoSuchPath", values=[before])
    return [found[it] for it in sorted(found, key=raw)]


# Differences.


def changes(old: Sequence[File], new: Sequence[File]) -> Iterator[Change]:
    """Gives the paths at which two listings of files differ, each ascending by its paths' bytes."""
    before = {it.path: it for it in old}
    after = {it.path: it for it in new}
    for path in sorted(before.keys() | after.keys(), key=raw):
        if before.get(path) != after.get(path):
            yield Change(path, before.get(path), after.get(path))


def diff_names(old: Optional[Text], new: Text) -> Plan[List[Change]]:
    """Returns the paths at which two commits' files differ; `None` is a commit without files."""
    before = [] if old is None else (yield from files(old))
    return list(changes(before, (yield from files(new))))


def changed_by(given: Text) -> Plan[List[Change]]:
    """Returns the paths at which a commit differs from its first parent."""
    commit = yield from show(given)
    return (yield from diff_names(commit.parents[0] if commit.parents else None, commit.id))


def diff(old: Optional[Text], new: Text, path: Text, context: int = 3) -> Plan[bytes]:
    """Returns how a file differs in two commits."""
    sides = []
    for at in (old, new):
        try:
            sides.append(None if at is None else (yield from content(path, at)).data)
        except NoSuchPath:
            sides.append(None)
    return unified(sides[0], sides[1], path, context)


def unified(old: Optional[bytes], new: Optional[bytes], path: Text, context: int = 3) -> bytes:
    """Returns how two contents differ, as `diff -u` writes it; `None` is no file.

    >>> print(unified(b"one\\ntwo\\n", b"one\\n2\\n", "count").decode(), end="")
    --- a/count
    +++ b/count
    @@ -1,2 +1,2 @@
     one
    -two
    +2
    """
    if old == new:
        return b""
    names = [b"/dev/null" if data is None else side + raw(path) for data, side in ((old, b"a/"), (new, b"b/"))]
    if b"\0" in (old or b"") + (new or b""):
        return b"Binary files %s and %s differ\n" % (names[0], names[1])
    lines = difflib.diff_bytes(difflib.unified_diff, _split(old), _split(new), names[0], names[1], n=context)
    return b"".join(it if it.endswith(b"\n") else it + b"\n\\ No newline at end of file\n" for it in lines)


def _split(data: Optional[bytes]) -> List[bytes]:
    """Returns the lines, which end at line feeds alone."""
    return re.findall(rb"[^\n]*\n|[^\n]+", data or b"")


# Histories.


def log_ids(command: Command[Ids], at: Texts) -> Plan[Ids]:
    """Returns the ids of a log; of a new repository's HEAD there are none."""
    try:
        return (yield from ask(command))
    except UnbornHead:
        if at == HEAD:
            return Ids()
        raise


def as_of(name: Text, seconds: int) -> Plan[AsOf]:
    """Returns what a name was at by the end of a second since 1970."""
    moves: List[LogEntry] = yield from ask(protocol.past(name))
    for it in moves:
        if it.actor.seconds <= seconds:
            found = yield from show(it.after)
            return AsOf(found.id, "log")
    chain = yield from ask(protocol.log([name], order="breadth", first_parents=True))
    for start in range(0, len(chain), PAGE):
        for commit in (yield [protocol.show(it) for it in chain[start : start + PAGE]]):
            if isinstance(commit, Exception):
                raise commit
            if commit.committer.seconds <= seconds:
                return AsOf(commit.id, "time")
    return AsOf(None, "time")


def wait(name: Text, known: Optional[str], timeout: Optional[float]) -> Plan[Optional[str]]:
    """Waits at a server until a branch isn't at a commit, or so many seconds have passed, and returns what it is at then."""
    full = branch(name)
    end = None if timeout is None else time.monotonic() + timeout
    while True:
        number = yield from ask(protocol.wait(full, 0, 0))
        found = yield from resolve(full)
        left = LONGEST_WAIT if end is None else end - time.monotonic()
        if found != known or left <= 0:
            return found
        yield from ask(protocol.wait(full, number, int(min(LONGEST_WAIT, left) * 1000) + 1))


def blame(path: Text, at: Text) -> Plan[List[Line]]:
    """Returns for each line of a file which commit it is from."""
    return (yield from _Blame(path).lines(at))


class _Blame:
    """Follows the lines of a file to the commits that they are from.

    The log of the path lists the commits in which it isn't as in the first parent: a line can only be from one of these, and from any commit the nearest one
    is found along the first parents. They are looked at a page at a time, until each line has its commit.
    """

    def __init__(self, path: Text) -> None:
        self.path = path
        self._listed: Set[str] = set()
        # Of a commit: the nearest one along the first parents that is listed.
        self._nearest: Dict[str, str] = {}
        # Of a commit: which of its lines are which of the wanted ones.
        self._suspects: Dict[str, Dict[int, int]] = {}
        self._found: Dict[int, Commit] = {}

    def lines(self, at: Text) -> Plan[List[Line]]:
        """Returns the lines of the file."""
        tip = yield from show(at) if at != HEAD else self._tip()
        data = _split((yield from content(self.path, tip.id)).data)
        order = yield from ask(protocol.log([tip.id], paths=[self.path]))
        self._listed = set(order)
        self._suspects[(yield from self._near(tip.id))] = {it: it for it in range(len(data))}
        for start in range(0, len(order), PAGE):
            if not self._suspects:
                break
            yield from self._page(order[start : start + PAGE])
        return [Line(it + 1, line, self._found[it]) for it, line in enumerate(data)]

    def _tip(self) -> Plan[Commit]:
        try:
            return (yield from show(HEAD))
        except UnbornHead:
            raise NoSuchPath("NoSuchPath", values=[shown(self.path)]) from None

    def _near(self, id: str) -> Plan[str]:
        """Returns the nearest commit along the first parents that changed the file."""
        if id not in self._nearest:
            chain = yield from ask(protocol.log([id], order="breadth", first_parents=True))
            passed = []
            for it in chain:
                passed.append(it)
                if it in self._listed:
                    self._nearest.update(dict.fromkeys(passed, it))
                    passed = []
        return self._nearest[id]

    def _page(self, ids: Sequence[str]) -> Plan[None]:
        """Looks at some commits, in the order of the log."""
        commits = _good((yield [protocol.show(it) for it in ids]))
        versions = list(dict.fromkeys(it for commit in commits for it in (commit.id, *commit.parents)))
        contents = dict(zip(versions, (yield [protocol.content(it, self.path) for it in versions])))
        for commit in commits:
            lines = self._suspects.pop(commit.id, None)
            if not lines:
                continue
            here = self._split(contents[commit.id])
            for parent in commit.parents:
                yield from self._pass(parent, self._split(contents[parent]), here, lines)
            self._found.update((it, commit) for it in lines.values())

    def _split(self, reply: Union[Content, Exception]) -> List[bytes]:
        if isinstance(reply, (NoSuchPath, IsFolder)):
            return []
        return _split(_good([reply])[0].data)

    def _pass(self, parent: str, before: List[bytes], here: List[bytes], lines: Dict[int, int]) -> Plan[None]:
        """Passes the lines that the parent has to the commit that it has them from."""
        passed = [(there, it) for there, it in same_lines(before, here) if it in lines]
        if passed:
            to = self._suspects.setdefault((yield from self._near(parent)), {})
            for there, it in passed:
                to[there] = lines.pop(it)


def _good(replies: Sequence[Any]) -> Sequence[Any]:
    """Returns replies that are none of errors."""
    for it in replies:
        if isinstance(it, Exception):
            raise it
    return replies


def same_lines(old: List[bytes], new: List[bytes]) -> Iterator[Tuple[int, int]]:
    """Gives pairs of places at which two lists have the same lines, in order."""
    first = 0
    while first < min(len(old), len(new)) and old[first] == new[first]:
        yield first, first
        first += 1
    last = 0
    while last < min(len(old), len(new)) - first and old[-1 - last] == new[-1 - last]:
        last += 1
    middle = difflib.SequenceMatcher(None, old[first : len(old) - last], new[first : len(new) - last], autojunk=False)
    for at, to, count in middle.get_matching_blocks():
        for it in range(count):
            yield first + at + it, first + to + it
    for it in range(last, 0, -1):
        yield len(old) - it, len(new) - it
