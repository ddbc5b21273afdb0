"""The command stream of docs/PROTOCOL.md: commands are written here, and replies are read. No file is touched.

A `Command` has its bytes, and knows which value its reply is:

>>> command = files("main")
>>> command.data
b'files main\\n'
>>> read_reply(command, b"ok files 1\\nfile 257cc5642cb1a054f08cc83f2d943e56fd3ebe99 6\\nREADME\\n")
[File(kind='file', id='257cc5642cb1a054f08cc83f2d943e56fd3ebe99', path='README')]

Contents are `bytes`. Paths, names, actors and messages are `str` in UTF-8, and a byte that isn't UTF-8 is kept as a lone surrogate, as `os.listdir`
does, so that each text is written as the very bytes that were read (`text` and `raw` convert). Where a text is taken, `bytes` are too.
"""
import enum
import re
import time
from dataclasses import dataclass, field
from datetime import datetime, timedelta, timezone
from typing import Callable, Dict, Generic, Iterable, List, Optional, Sequence, Tuple, TypeVar, Union, overload

from . import wire
from .bridge_forms import name_problem
from .errors import BadTime, Busy, Fault, ProtocolError, Refused
from .texts import Text as Text
from .texts import raw as raw
from .texts import shown as shown
from .texts import text as text
from .wire import LARGEST, LONGEST_LINE, LONGEST_NAME, LONGEST_PATH, Asked, Parts, Reply

T = TypeVar("T")
KINDS = ("file", "exec", "link")
ORDERS = ("breadth", "newest", "oldest", "date", "topological")


class Expect(enum.Enum):
    """What a name is expected to be at, where it isn't the word of a commit: `ANY` is anything, `NEW` is that the name doesn't exist."""

    ANY = "any"
    NEW = "new"


ANY = Expect.ANY
NEW = Expect.NEW
Expected = Union[Expect, Text]


@dataclass(frozen=True)
class Actor:
    """Who made something, and when: seconds since 1970, and the offset from UTC as `+hhmm` or `-hhmm`.

    >>> Actor("Ada Lovelace", "ada@example.org", 1700000000, "+0100").when.isoformat()
    '2023-11-14T23:13:20+01:00'
    """

    name: str
    email: str
    seconds: int
    offset: str = "+0000"

    @classmethod
    def now(cls, name: str, email: str) -> "Actor":
        """Returns this actor at the present time, with the machine's offset from UTC."""
        seconds = int(time.time())
        minutes = (time.localtime(seconds).tm_gmtoff or 0) // 60
        return cls(name, email, seconds, "%s%02d%02d" % ("-" if minutes < 0 else "+", *divmod(abs(minutes), 60)))

    @classmethod
    def parse(cls, who: str) -> "Actor":
        """Returns the actor of a text `Name <email>` at the present time.

        >>> Actor.parse("Ada Lovelace <ada@example.org>").email
        'ada@example.org'
        """
        found = re.fullmatch(r"\s*([^<>]*?)\s*<([^<>]*)>\s*", who)
        if not found:
            raise ValueError(f"{who!r} isn't of the form 'Name <email>'")
        return cls.now(found[1], found[2].strip())

    @property
    def when(self) -> datetime:
        """The time with its offset. A `ValueError` or `OverflowError` if `datetime` can't hold it."""
        minutes = int(self.offset[1:3]) * 60 + int(self.offset[3:5])
        if self.offset[0] == "-":
            minutes = -minutes
        utc = datetime(1970, 1, 1, tzinfo=timezone.utc) + timedelta(seconds=self.seconds)
        return utc.astimezone(timezone(timedelta(minutes=minutes)))

    def __str__(self) -> str:
        return f"{self.name} <{self.email}>"


@dataclass(frozen=True)
class Commit:
    """A commit, as `show` returns it."""

    id: str
    tree: str
    parents: Tuple[str, ...]
    author: Actor
    committer: Actor
    message: str

    @property
    def title(self) -> str:
        """The message up to its first line feed."""
        return self.message.split("\n", 1)[0]


@dataclass(frozen=True)
class Content:
    """A file's content, as `show` returns it: its kind (`"file"`, `"exec"` or `"link"`), its id, its bytes."""

    kind: str
    id: str
    data: bytes


@dataclass(frozen=True)
class File:
    """A file of a commit: its kind, its content's id, its path."""

    kind: str
    id: str
    path: str


@dataclass(frozen=True)
class Name:
    """A name: the id that it holds, and the commit that this is or that its tag leads to."""

    id: str
    commit: str
    name: str

    @property
    def is_tag(self) -> bool:
        """Whether the name holds a tag, and not its commit's id."""
        return self.id != self.commit


@dataclass(frozen=True)
class Names(Sequence[Name]):
    """The names of a repository, ascending, and `head`, the branch that HEAD names, whether it exists or not."""

    head: str
    names: Tuple[Name, ...] = field(repr=False)

    def __len__(self) -> int:
        return len(self.names)

    @overload
    def __getitem__(self, at: int) -> Name: ...

    @overload
    def __getitem__(self, at: slice) -> Sequence[Name]: ...

    def __getitem__(self, at: Union[int, slice]) -> Union[Name, Sequence[Name]]:
        return self.names[at]


@dataclass(frozen=True)
class LogEntry:
    """A move of a name, as its log has it: the id before (`None` if the name was made) and after, who moved it, and the title."""

    before: Optional[str]
    after: str
    actor: Actor
    title: str


class Ids(Sequence[str]):
    """Many ids in little memory: 20 bytes each, or 32."""

    def __init__(self, packed: bytes = b"", width: int = 20) -> None:
        self._packed, self._width = packed, width

    def __len__(self) -> int:
        return len(self._packed) // self._width

    @overload
    def __getitem__(self, at: int) -> str: ...

    @overload
    def __getitem__(self, at: slice) -> "Ids": ...

    def __getitem__(self, at: Union[int, slice]) -> Union[str, "Ids"]:
        if isinstance(at, slice):
            first, last, step = at.indices(len(self))
            if step == 1:
                return Ids(self._packed[first * self._width : max(first, last) * self._width], self._width)
            return Ids(b"".join(bytes.fromhex(self[it]) for it in range(first, last, step)), self._width)
        if at < 0:
            at += len(self)
        if not 0 <= at < len(self):
            raise IndexError(at)
        return self._packed[at * self._width : (at + 1) * self._width].hex()

    def __eq__(self, other: object) -> bool:
        if isinstance(other, Ids):
            return self._packed == other._packed
        return isinstance(other, Sequence) and list(self) == list(other)

    def __repr__(self) -> str:
        return f"<{len(self)} ids>"


@dataclass(frozen=True)
class Command(Generic[T]):
    """A command: its word, its bytes, and how what follows `ok <word>` is read. `changes` says that it changes the repository, `about` names
    for a person what its first line doesn't."""

    word: str
    data: bytes = field(repr=False)
    rest: Callable[[Reply], T] = field(repr=False)
    changes: bool = False
    # Whether it says for each name that it moves what that is to be at, so that it can't be done twice.
    expects: bool = False
    about: str = ""

    @property
    def title(self) -> str:
        """The command's first line, for a person, with what it is about."""
        return text(self.data[:300].split(b"\n", 1)[0][:200]) + (f": {self.about}" if self.about else "")

    def value(self, reply: Reply) -> T:
        """Returns what a reply says; raises `Refused` or `Fault` if it says that, or `ProtocolError` if it is to something else."""
        verb, word = reply.words[:2]
        if verb == b"ok" and word == self.word.encode():
            return self.rest(reply)
        if verb == b"ok":
            raise ProtocolError(f"{b' '.join(reply.words)[:200]!r} is no reply to {self.title!r}")
        cause = text(word)
        if reply.is_fault:
            raise (Busy if cause == "Busy" else Fault).noted(cause, reply.note, self)
        raise Refused.of(cause, self, self._subjects(cause))

    @property
    def asked(self) -> Asked:
        """What it asks for."""
        found: Asked = next(Parts(wire.command, keeps=False).feed(self.data)).value
        return found

    def _subjects(self, cause: str) -> List[str]:
        """Returns the names or paths of the command for which the cause can hold."""
        return [shown(it)[:200] for it in _SUBJECTS[cause](self.asked)] if cause in _SUBJECTS else []


def read_reply(command: Command[T], data: bytes) -> T:
    """Reads a reply that is whole in these bytes, and nothing else is."""
    parts = Parts(wire.reply, keeps=False, note=lambda: b"")
    found = list(parts.feed(data))
    if len(found) != 1 or not parts.is_between:
        raise ProtocolError(f"this isn't one whole reply to {command.title!r}")
    return command.value(found[0].value)


# What a refusal is about. The engine says the cause alone, so the names and paths of which it can't hold are left out here.


def _is_path(path: bytes) -> bool:
    return len(path) <= LONGEST_PATH and b"\0" not in path and all(path.split(b"/"))


def _bad_names(asked: Asked) -> List[bytes]:
    return [it for it in asked.names if name_problem(it)] or asked.names


def _bad_paths(asked: Asked) -> List[bytes]:
    paths = [it for it, _ in asked.paths]
    return [it for it in paths if not _is_path(it)] or paths[:1]


def _only_name(asked: Asked) -> List[bytes]:
    return asked.names if len(asked.names) == 1 else []


def _only_path(asked: Asked) -> List[bytes]:
    return [it for it, _ in asked.paths] if len(asked.paths) == 1 else []


_SUBJECTS: Dict[str, Callable[[Asked], List[bytes]]] = {
    "BadName": _bad_names,
    "BadPath": _bad_paths,
    "TooLarge": lambda asked: [path for path, content in asked.paths if len(content or b"") > LARGEST],
    **dict.fromkeys(("PrivateName", "NoSuchName", "Taken", "NotExpected", "HoldsTag", "NothingMoves", "Collides"), _only_name),
    **dict.fromkeys(("NoSuchPath", "IsFolder"), _only_path),
}


# Parts of commands. What would break the stream's lines is refused here, by the cause that the engine has for it.


def _word(value: Text, cause: str, longest: int = LONGEST_LINE - 256) -> bytes:
    try:
        data = raw(value)
    except UnicodeEncodeError:
        raise Refused.of(cause, values=[ascii(value)]) from None
    if not data or b" " in data or b"\n" in data or len(data) > longest:
        raise Refused.of(cause, values=[shown(value)[:200]])
    return data


def _name(value: Text) -> bytes:
    return _word(value, "BadName", LONGEST_NAME)


def _commit_word(value: Text) -> bytes:
    return _word(value, "UnknownWord")


def _expected(expect: Expected) -> bytes:
    return expect.value.encode() if isinstance(expect, Expect) else b"at " + _commit_word(expect)


def _actor(role: bytes, who: Actor) -> bytes:
    name, email = raw(who.name), raw(who.email)
    if who.seconds < 0:
        raise BadTime("BadTime", values=[str(who.seconds)])
    return b"%s %d %d %d %s\n%s\n%s\n" % (role, len(name), len(email), who.seconds, _word(who.offset, "BadTime", 64), name, email)


def _message(message: Text) -> bytes:
    data = raw(message)
    return b"message %d\n%s\n" % (len(data), data)


def put(path: Text, content: bytes, kind: str = "file") -> bytes:
    """An edit of a commit: a file of this kind (`"file"`, `"exec"`, or `"link"` with its target as content) at the path."""
    if kind not in KINDS:
        raise ValueError(f"{kind!r} is none of {', '.join(KINDS)}")
    where = raw(path)
    return b"".join([b"put %s %d %d\n" % (kind.encode(), len(where), len(content)), where, b"\n", content, b"\n"])


def remove(path: Text) -> bytes:
    """An edit of a commit: what is at the path or below it goes, if anything is."""
    where = raw(path)
    return b"remove %d\n%s\n" % (len(where), where)


def remove_file(path: Text) -> bytes:
    """An edit of a commit: what is at the path goes, and it is refused if something is below it."""
    where = raw(path)
    return b"remove-file %d\n%s\n" % (len(where), where)


def graft(path: Text, word: Text, source: Text = b"") -> bytes:
    """An edit of a commit: what the word's commit has at or below `source`, all that it has by default, at the path."""
    where, origin = raw(path), raw(source)
    return b"graft %d %s %d\n%s\n%s\n" % (len(where), _commit_word(word), len(origin), where, origin)


# Replies.


def _nothing(reply: Reply) -> None:
    if reply.words[2:]:
        raise ProtocolError(f"{reply.words[2:]!r} after a reply's end")


def _id(reply: Reply) -> str:
    return reply.words[2].decode()


def _count(reply: Reply) -> int:
    return int(reply.words[2])


def _ids(reply: Reply) -> Ids:
    if not reply.parts:
        return Ids()
    return Ids(bytes.fromhex(b"".join(reply.parts).decode()), len(reply.parts[0]) // 2)


def _files(reply: Reply) -> List[File]:
    found = []
    for line, path in reply.parts:
        kind, id, _ = line.decode().split(" ")
        found.append(File(kind, id, text(path)))
    return found


def _names(reply: Reply) -> Names:
    found = []
    for line in reply.parts:
        id, commit, name = line.split(b" ")
        found.append(Name(id.decode(), commit.decode(), text(name)))
    return Names(text(reply.words[3]), tuple(found))


def _past(reply: Reply) -> List[LogEntry]:
    found = []
    for line in reply.parts:
        moved, _, title = line.partition(b"\t")
        before, after, who = moved.split(b" ", 2)
        name, _, rest = who.rpartition(b" <")
        email, seconds, offset = rest.rsplit(b" ", 2)
        actor = Actor(text(name), text(email[:-1]), int(seconds), text(offset))
        found.append(LogEntry(before.decode() if before.strip(b"0") else None, after.decode(), actor, text(title)))
    return found


def _read_actor(role: bytes, line: bytes, name: bytes, email: bytes) -> Actor:
    said, _, _, seconds, offset = line.split(b" ")
    if said != role:
        raise ProtocolError(f"{said!r} in the place of {role!r}")
    return Actor(text(name), text(email), int(seconds), text(offset))


def _commit(reply: Reply) -> Commit:
    tree, _, *parents = reply.parts[:-7]
    author, committer, message = reply.parts[-7:-4], reply.parts[-4:-1], reply.parts[-1]
    return Commit(
        reply.words[3].decode(),
        tree[5:].decode(),
        tuple(it[7:].decode() for it in parents),
        _read_actor(b"author", *author),
        _read_actor(b"committer", *committer),
        text(message),
    )


def _content(reply: Reply) -> Content:
    return Content(reply.words[3].decode(), reply.words[4].decode(), reply.parts[0])


# Commands.


def commit(
    name: Text,
    message: Text,
    author: Actor,
    committer: Optional[Actor] = None,
    edits: Iterable[bytes] = (),
    expect: Expected = ANY,
    parents: Iterable[Text] = (),
) -> Command[str]:
    """Makes a commit and moves the name (or HEAD's branch) to it; the edits are those of `put` and its like. The reply is the commit's id.

    >>> ada = Actor("Ada Lovelace", "ada@example.org", 1700000000, "+0100")
    >>> commit("HEAD", "Begin", ada, edits=[put("README", b"Hello.")], expect=NEW).title
    'commit HEAD new'
    """
    data = [b"commit %s %s\n" % (_name(name), _expected(expect))]
    data += [b"parent %s\n" % _commit_word(it) for it in parents]
    data += edits
    data += [_actor(b"author", author), _actor(b"committer", committer or author), _message(message), b"end\n"]
    return Command("commit", b"".join(data), _id, True, expect is not ANY)


def tag(name: Text, word: Text, message: Text, tagger: Actor, expect: Expected = ANY) -> Command[str]:
    """Makes an annotated tag of the word's commit under a name below `refs/tags/`. The reply is the tag's own id."""
    data = b"tag %s %s %s\n" % (_name(name), _expected(expect), _commit_word(word))
    return Command("tag", data + _actor(b"tagger", tagger) + _message(message) + b"end\n", _id, True, expect is not ANY)


def move(moves: Iterable[Tuple[Text, Expected, Text]], message: Text, actor: Actor) -> Command[None]:
    """Moves names to words' commits, all or none: each move is a name, what is expected of it, and the word."""
    given = list(moves)
    if not given:
        raise ValueError("a move has at least one name")
    lines = [b"to %s %s %s\n" % (_name(name), _expected(expect), _commit_word(word)) for name, expect, word in given]
    data = b"".join([b"move\n", *lines, _actor(b"actor", actor), _message(message), b"end\n"])
    return Command("move", data, _nothing, True, all(expect is not ANY for _, expect, _ in given))


def rename(old: Text, new: Text) -> Command[None]:
    """Makes the second name at what the first one holds, and deletes the first one with its log."""
    return Command("rename", b"rename %s %s\n" % (_name(old), _name(new)), _nothing, True)


def delete(name: Text, expect: Expected = ANY) -> Command[None]:
    """Deletes a name with its log."""
    if expect is NEW:
        raise ValueError("a name that is deleted can't be new")
    return Command("delete", b"delete %s %s\n" % (_name(name), _expected(expect)), _nothing, True, expect is not ANY)


def switch(branch: Text) -> Command[None]:
    """Makes HEAD name this branch (`refs/heads/..`), whether it exists or not."""
    return Command("switch", b"switch %s\n" % _name(branch), _nothing, True)


def pack() -> Command[None]:
    """Writes all names to `packed-refs`."""
    return Command("pack", b"pack\n", _nothing, True)


def names(folder: Text = b"") -> Command[Names]:
    """Lists all names, or those below a folder such as `refs/heads`."""
    return Command("names", b"names %s\n" % _name(folder) if folder else b"names\n", _names)


def past(word: Text) -> Command[List[LogEntry]]:
    """Lists the moves of a name, or of HEAD's branch, newest first."""
    return Command("past", b"past %s\n" % _name(word), _past)


def files(word: Text) -> Command[List[File]]:
    """Lists the files of the word's commit, ascending by their paths' bytes."""
    return Command("files", b"files %s\n" % _commit_word(word), _files)


def show(word: Text) -> Command[Commit]:
    """Shows the word's commit."""
    return Command("show", b"show %s\n" % _commit_word(word), _commit)


def content(word: Text, path: Text) -> Command[Content]:
    """Shows the content at a path of the word's commit."""
    where = raw(path)
    return Command("show", b"show %s path %d\n%s\n" % (_commit_word(word), len(where), where), _content, about=repr(text(where))[:200])


def wait(name: Text, number: int, milliseconds: int) -> Command[int]:
    """Has a server reply once a change came of this name, or of HEAD, after so many changes of any, or these milliseconds have passed. The reply is the
    number of changes."""
    return Command("wait", b"wait %s %d %d\n" % (_name(name), number, milliseconds), _count)


def hold(milliseconds: int) -> Command[None]:
    """Has a server hold all changes back, for so long at most: it replies once the engine has done those that it has."""
    return Command("hold", b"hold %d\n" % milliseconds, _nothing, True)


def release() -> Command[None]:
    """Has a server let changes go on. It is refused (`NotHeld`) if there could be one since they were held back."""
    return Command("release", b"release\n", _nothing, True)


def is_made_by(commit: Commit, command: Command[str]) -> bool:
    """Whether actors and message of a commit are those that a command asked for."""
    return command.data.endswith(_actor(b"author", commit.author) + _actor(b"committer", commit.committer) + _message(commit.message) + b"end\n")


def index() -> Command[int]:
    """Makes rows of all commits in the engine's memory, over which later logs walk. The reply is their number."""
    return Command("index", b"index\n", _count)


def log(
    words: Iterable[Text],
    hidden: Iterable[Text] = (),
    order: str = "topological",
    first_parents: bool = False,
    paths: Iterable[Text] = (),
    since: Optional[int] = None,
) -> Command[Ids]:
    """Lists the commits that the words reach and the hidden ones don't; with paths those alone that changed something there. `since` goes with
    the orders `newest` and `oldest`.

    >>> log(["main"], hidden=["v1"], paths=["notes"]).data
    b'log topological all +main -v1 path 5\\nnotes\\n'
    """
    if order not in ORDERS:
        raise ValueError(f"{order!r} is none of {', '.join(ORDERS)}")
    if since is not None and order not in ("newest", "oldest"):
        raise ValueError("since goes with the orders newest and oldest alone")
    where = [raw(it) for it in paths]
    line = [b"log", order.encode()] if since is None else [b"log", b"%s-since %d" % (order.encode(), since)]
    line.append(b"first" if first_parents else b"all")
    tips = [b"+" + _commit_word(it) for it in words]
    if not tips:
        raise ValueError("a log begins at one word at least")
    line += tips + [b"-" + _commit_word(it) for it in hidden] + [b"path %d" % len(it) for it in where]
    head = b" ".join(line)
    if len(head) > LONGEST_LINE:
        raise ValueError(f"these words and paths make a line of over {LONGEST_LINE} bytes")
    return Command("log", b"\n".join([head, *where]) + b"\n", _ids)
