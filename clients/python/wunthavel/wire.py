"""The command stream of docs/PROTOCOL.md as bytes: where its lines, fields, commands and replies end. No file is touched, and nothing is waited for.

Commands and replies are read by generators, which yield what they need next and are sent it. So the same grammar serves pipes, sockets and tests.
"""
import enum
import re
from typing import Any, Callable, Generator, Generic, Iterator, List, NamedTuple, Optional, Tuple, TypeVar, Union

from .errors import ProtocolError

T = TypeVar("T")
LONGEST_LINE = 4096
# How many bytes a content, a path and a name may have.
LARGEST, LONGEST_PATH, LONGEST_NAME = 16 << 20, 4096, 1024


class Rows(int):
    """A need of some rows, one at least and so many at most: each is a line whose last word is a length, and a field of that length."""


class Note(enum.Enum):
    """A need of the note of a fault, wherever it is written."""

    NOTE = "note"


# What a reading needs next: None is a line, and a number a field of so many bytes.
Need = Union[None, int, Rows, Note]
Reading = Generator[Need, Any, T]


class BadCommand(ProtocolError):
    """What was read is no command: `cause` is `Syntax` or `LineTooLong`. What follows can't be read."""

    def __init__(self, cause: str) -> None:
        super().__init__(cause)
        self.cause = cause


# Commands.


def _form(text: str) -> "re.Pattern[bytes]":
    """Makes a pattern of a line: W is a word, N a number of bytes."""
    return re.compile(text.replace("N", r"(0|[1-9][0-9]{0,19})").replace("W", r"[^ \n]+").encode())


_EXPECT = "(?:any|new|at W)"
_ACTORS = {role: _form(f"{role} N N W W") for role in ("author", "committer", "tagger", "actor")}
_MESSAGE, _PARENT, _TO = _form("message N"), _form("parent W"), _form(f"to W {_EXPECT} W")
_EDIT = _form("(?:put (?:file|exec|link) N N|remove N|remove-file N|graft N W N)")
_ORDER = "(?:breadth|newest|oldest|newest-since W|oldest-since W|date|topological)"
_LOG = re.compile(_form(f"log {_ORDER} (?:all|first)").pattern + rb"((?: [+-][^ \n]+)+)((?: path (?:0|[1-9][0-9]{0,19}))*)")


class Asked(NamedTuple):
    """What a command asks for: whether it changes the repository, which names it is about, and its paths, with contents where they are put; these are
    empty if fields aren't read. `greets` says that it is no command, but the line that asks a server for notes."""

    changes: bool
    names: List[bytes]
    paths: List[Tuple[bytes, Optional[bytes]]]
    greets: bool = False


def _sizes(found: "Optional[re.Match[bytes]]") -> List[int]:
    """Returns the sizes of the fields that a line announces."""
    if not found:
        raise BadCommand("Syntax")
    sizes = [int(it) for it in found.groups() if it is not None]
    if any(it >= 1 << 64 for it in sizes):
        raise BadCommand("Syntax")
    return sizes


def _fields(found: "Optional[re.Match[bytes]]") -> Reading[List[bytes]]:
    fields = []
    for size in _sizes(found):
        fields.append((yield size))
    return fields


def _end(line: bytes) -> None:
    if line != b"end":
        raise BadCommand("Syntax")


def _commit(asked: Asked) -> Reading[None]:
    line = yield None
    while _PARENT.fullmatch(line):
        line = yield None
    while True:
        found = _EDIT.fullmatch(line)
        if not found:
            break
        fields = yield from _fields(found)
        asked.paths.append((fields[0], fields[1] if line.startswith(b"put ") else None))
        line = yield None
    yield from _fields(_ACTORS["author"].fullmatch(line))
    yield from _fields(_ACTORS["committer"].fullmatch((yield None)))
    yield from _fields(_MESSAGE.fullmatch((yield None)))
    _end((yield None))


def _tag(asked: Asked) -> Reading[None]:
    yield from _fields(_ACTORS["tagger"].fullmatch((yield None)))
    yield from _fields(_MESSAGE.fullmatch((yield None)))
    _end((yield None))


def _move(asked: Asked) -> Reading[None]:
    line = yield None
    if not _TO.fullmatch(line):
        raise BadCommand("Syntax")
    while _TO.fullmatch(line):
        asked.names.append(line.split(b" ")[1])
        line = yield None
    yield from _fields(_ACTORS["actor"].fullmatch(line))
    yield from _fields(_MESSAGE.fullmatch((yield None)))
    _end((yield None))


def _no_more(asked: Asked) -> Reading[None]:
    return
    yield


# Of each command: its first line, how many of its words are names, what follows it and its fields, and whether it changes the repository.
_COMMANDS = {
    b"commit": (_form(f"commit W {_EXPECT}"), 1, _commit, True),
    b"tag": (_form(f"tag W {_EXPECT} W"), 1, _tag, True),
    b"move": (_form("move"), 0, _move, True),
    b"rename": (_form("rename W W"), 2, _no_more, True),
    b"delete": (_form("delete W (?:any|at W)"), 1, _no_more, True),
    b"switch": (_form("switch W"), 1, _no_more, True),
    b"pack": (_form("pack"), 0, _no_more, True),
    b"index": (_form("index"), 0, _no_more, False),
    b"names": (_form("names(?: W)?"), 1, _no_more, False),
    b"files": (_form("files W"), 0, _no_more, False),
    b"past": (_form("past W"), 1, _no_more, False),
    b"show": (_form("show W(?: path N)?"), 0, _no_more, False),
}
# What a server alone takes: a first line that asks for notes, a command that waits for a change, and two between which there is none.
GREETING = b"notes"
_WAIT = re.compile(rb"wait [^ \n]+ (?:0|[1-9][0-9]{0,18}) (?:0|[1-9][0-9]{0,6})")
_HOLD = re.compile(rb"hold (?:0|[1-9][0-9]{0,4})|release")
# How the commands begin that a server doesn't pass on.
OWN = (b"wait ", b"hold ", b"release")


def command() -> Reading[Asked]:
    """Reads a command; a `BadCommand` says that it is none."""
    return (yield from _command((yield None)))


def served_command(may_greet: bool) -> Reading[Asked]:
    """Reads a command that a server takes, or a greeting where that may come."""
    line = yield None
    if may_greet and line == GREETING:
        return Asked(False, [], [], True)
    if _WAIT.fullmatch(line):
        return Asked(False, line.split(b" ")[1:2], [])
    if _HOLD.fullmatch(line):
        # Who only reads holds nobody up.
        return Asked(True, [], [])
    return (yield from _command(line))


def _command(line: bytes) -> Reading[Asked]:
    words = line.split(b" ")
    if words[0] == b"log":
        return (yield from _log(line))
    if words[0] not in _COMMANDS:
        raise BadCommand("Syntax")
    form, names, rest, changes = _COMMANDS[words[0]]
    asked = Asked(changes, words[1 : 1 + names], [])
    fields = yield from _fields(form.fullmatch(line))
    asked.paths.extend((it, None) for it in fields)
    yield from rest(asked)
    return asked


def _log(line: bytes) -> Reading[Asked]:
    found = _LOG.fullmatch(line)
    if not found or b" +" not in found[1]:
        raise BadCommand("Syntax")
    paths: List[Tuple[bytes, Optional[bytes]]] = []
    for size in found[2].split(b" path ")[1:]:
        if int(size) >= 1 << 64:
            raise BadCommand("Syntax")
        paths.append(((yield int(size)), None))
    return Asked(False, [], paths)


# Replies.


class Reply(NamedTuple):
    """A reply: the words of its first line, and then its lines, fields and rows in their order. Of a fault the note is there, if one was written."""

    words: List[bytes]
    parts: List[Any]
    note: bytes = b""

    @property
    def is_fault(self) -> bool:
        """Whether it says that a fault came."""
        return self.words[0] == b"fault"


def _lines(words: List[bytes]) -> Reading[List[Any]]:
    found = []
    for _ in range(int(words[2])):
        found.append((yield None))
    return found


def _ids(words: List[bytes]) -> Reading[List[Any]]:
    count = int(words[2])
    if not count:
        return []
    first = yield None
    # The other lines are of one length, so all of them are read as one field.
    return [first, (yield (count - 1) * (len(first) + 1) - 1)] if count > 1 else [first]


def _files(words: List[bytes]) -> Reading[List[Any]]:
    count = int(words[2])
    found: List[Any] = []
    while len(found) < count:
        found += yield Rows(count - len(found))
    return found


def _shown(words: List[bytes]) -> Reading[List[Any]]:
    if words[2] == b"content":
        return [(yield int(words[5]))]
    found = [(yield None), (yield None)]
    for _ in range(int(found[1][8:])):
        found.append((yield None))
    for _ in ("author", "committer"):
        line = yield None
        _, name, email, _ = line.split(b" ", 3)
        found += [line, (yield int(name)), (yield int(email))]
    found.append((yield int((yield None)[8:])))
    return found


def _bare(words: List[bytes]) -> Reading[List[Any]]:
    return []
    yield


_REPLIES = {b"names": _lines, b"past": _lines, b"log": _ids, b"files": _files, b"show": _shown}
_REPLIES.update(dict.fromkeys((b"commit", b"tag", b"move", b"rename", b"delete", b"switch", b"pack", b"index", b"wait", b"hold", b"release"), _bare))


def reply() -> Reading[Reply]:
    """Reads a reply."""
    line = yield None
    words = line.split(b" ")
    if words[0] == b"ok" and words[1] in _REPLIES:
        return Reply(words, (yield from _REPLIES[words[1]](words)))
    if len(words) != 2 or words[0] not in (b"refused", b"fault"):
        raise ProtocolError(f"{line[:200]!r} is no reply")
    return Reply(words, [], (yield Note.NOTE) if words == [b"fault", b"File"] else b"")


def rows(data: bytes, at: int, most: int) -> Tuple[List[Tuple[bytes, bytes]], int]:
    """Returns the rows that are whole from a place on, each its line and its field, and the place after them."""
    found: List[Tuple[bytes, bytes]] = []
    while len(found) < most:
        end = data.find(b"\n", at)
        if end < 0:
            break
        line = data[at:end]
        last = end + 1 + int(line[line.rfind(b" ") + 1 :])
        if last >= len(data):
            break
        if data[last] != 10:
            raise ProtocolError("a field isn't followed by a line feed")
        found.append((line, data[end + 1 : last]))
        at = last + 1
    return found, at


# Streams.


class Whole(NamedTuple):
    """A command or a reply: its bytes, if they are kept, and what its reading returned."""

    data: Optional[bytes]
    value: Any


class Parts(Generic[T]):
    """Cuts a stream into commands or replies.

    `keeps` says that their bytes are wanted, and the readings look at lines alone. At most `most` bytes of one are kept then: of a larger one the
    bytes are read past. `note` returns the note of a fault, or None if it isn't there yet; without it the note is the stream's next line.
    """

    def __init__(
        self,
        reading: Callable[[], Reading[T]],
        longest_line: Optional[int] = None,
        most: Optional[int] = None,
        keeps: bool = True,
        note: Optional[Callable[[], Optional[bytes]]] = None,
    ) -> None:
        self._make, self._longest, self._most, self._keeps, self._note = reading, longest_line, most, keeps, note or self._line
        self._buffer = bytearray()
        self._start = self._at = 0
        self._begin()

    def _begin(self) -> None:
        self._reading = self._make()
        self._need: Need = next(self._reading)
        self._start = self._searched = self._at
        self._drops = False

    @property
    def is_between(self) -> bool:
        """Whether nothing of a next one was read."""
        return self._start == len(self._buffer) and not self._drops

    @property
    def held(self) -> int:
        """How many bytes are kept of one that isn't whole."""
        return len(self._buffer)

    def clear(self) -> None:
        """Forgets all that was read: nothing more is."""
        self._buffer.clear()
        self._start = self._at = self._searched = 0

    def drop(self) -> None:
        """Keeps nothing of what isn't whole: its bytes are read past."""
        self._drops = True
        self._forget()

    @property
    def needs_much(self) -> bool:
        """Whether many bytes belong to what is read now."""
        return isinstance(self._need, int) and self._need > 4096

    def feed(self, data: bytes) -> Iterator[Whole]:
        """Takes bytes, and gives what is whole with them, until a `BadCommand` or `ProtocolError` says that what comes can't be read."""
        self._buffer += data
        while True:
            part = self._part()
            if part is None:
                break
            try:
                self._need = self._reading.send(part)
            except StopIteration as ended:
                whole = Whole(bytes(self._buffer[self._start : self._at]) if self._keeps and not self._drops else None, ended.value)
                self._begin()
                yield whole
            except (ValueError, IndexError) as error:
                raise ProtocolError(f"{part[:200]!r} is no part of a reply") from error
            else:
                self._forget()
        del self._buffer[: self._start]
        self._at, self._searched, self._start = self._at - self._start, self._searched - self._start, 0

    def _forget(self) -> None:
        """Lets the bytes of one that is too large go."""
        if self._most is not None and self._at - self._start + (self._need if isinstance(self._need, int) else 0) > self._most:
            self._drops = True
        if self._drops:
            del self._buffer[self._start : self._at]
            self._at = self._start
        self._searched = self._at

    def _part(self) -> Any:
        """Returns what the reading needs; None if it isn't there whole."""
        need = self._need
        if need is None:
            return self._line()
        if isinstance(need, Note):
            return self._note()
        return self._rows(need) if isinstance(need, Rows) else self._field(need)

    def _line(self) -> Optional[bytes]:
        end = self._buffer.find(b"\n", self._searched)
        length = (end if end >= 0 else len(self._buffer)) - self._at
        if self._longest is not None and length > self._longest:
            raise BadCommand("LineTooLong")
        if end < 0:
            self._searched = len(self._buffer)
            return None
        line = bytes(self._buffer[self._at : end])
        self._at = end + 1
        return line

    def _rows(self, need: int) -> Optional[List[Tuple[bytes, bytes]]]:
        found, self._at = rows(self._buffer, self._at, need)
        return found or None

    def _field(self, need: int) -> Optional[bytes]:
        if self._drops and need and len(self._buffer) > self._at:
            gone = min(need, len(self._buffer) - self._at)
            del self._buffer[self._at : self._at + gone]
            self._need = need = need - gone
        end = self._at + need
        if len(self._buffer) <= end:
            return None
        if self._buffer[end] != 10:
            raise BadCommand("Syntax")
        field = b""
        if not self._keeps:
            with memoryview(self._buffer) as read:
                field = bytes(read[self._at : end])
        self._at = end + 1
        return field
