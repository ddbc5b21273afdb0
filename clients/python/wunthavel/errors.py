"""The errors of this package. Each cause of a refusal is a class below `Refused`, so that who calls can catch what is expected:

>>> issubclass(NotExpected, Refused)
True
"""
import errno
import functools
import os
from typing import Any, Callable, ClassVar, Dict, Optional, Sequence, Type

__all__ = [
    "AmbiguousWord",
    "BadActor",
    "BadHead",
    "BadLog",
    "BadMessage",
    "BadName",
    "BadObject",
    "BadPacked",
    "BadPath",
    "BadPeeled",
    "BadTag",
    "BadTime",
    "BadTree",
    "Busy",
    "Collides",
    "Cycle",
    "Damaged",
    "DuplicateParent",
    "EngineDied",
    "EngineError",
    "Fault",
    "HistoryError",
    "HoldsTag",
    "IdReserved",
    "IsFolder",
    "LineTooLong",
    "LogWithoutName",
    "LongLogLine",
    "Missing",
    "NameTwice",
    "NoHead",
    "NoSuchName",
    "NoSuchPath",
    "NotACommit",
    "NotEmpty",
    "NotExpected",
    "NotHeld",
    "NothingMoves",
    "OrderWithParents",
    "PrivateName",
    "ProtocolError",
    "ReadOnly",
    "Refused",
    "Stray",
    "Symbolic",
    "Syntax",
    "Taken",
    "TooLarge",
    "TooManyParents",
    "Truncated",
    "UnbornHead",
    "Unfinished",
    "UnknownWord",
    "WrongId",
    "WrongKind",
]


class HistoryError(Exception):
    """What all errors of this package are."""


class Answer(HistoryError):
    """A reply that says no: `cause` is its word, `values` is what it is about, and `command` what it replies to."""

    verb = says = ""

    def __init__(self, cause: str, command: Optional[Any] = None, values: Sequence[str] = ()) -> None:
        self.cause, self.command, self.values = cause, command, tuple(values)
        parts = [f"{self.verb} {cause}", self.says, " ".join(self.values)]
        about = f" ({command.title})" if command is not None else ""
        super().__init__(": ".join(filter(None, parts)) + about)


class Refused(Answer):
    """The engine refused a command, which changed nothing, or a folder. `values` is what the cause names: of a name that is none the name, of a
    path or a content the path, of a folder the file or object."""

    verb = "refused"
    _causes: "ClassVar[Dict[str, Type[Refused]]]" = {}

    def __init_subclass__(cls) -> None:
        Refused._causes[cls.__name__] = cls

    @staticmethod
    def of(cause: str, command: Optional[Any] = None, values: Sequence[str] = ()) -> "Refused":
        """Returns the error of this cause."""
        return Refused._causes.get(cause, Refused)(cause, command, values)


class Syntax(Refused):
    says = "a line isn't one that is allowed there"


class Truncated(Refused):
    says = "the input ended inside a command"


class LineTooLong(Refused):
    says = "a line has over 4,096 bytes"


class BadName(Refused):
    says = "this isn't a name that is allowed here"


class PrivateName(Refused):
    says = "the name is private to one working tree"


class NameTwice(Refused):
    says = "one name is given twice"


class UnknownWord(Refused):
    says = "no name and no object's id is meant by this word"


class AmbiguousWord(Refused):
    says = "several objects' ids begin with this word"


class UnbornHead(Refused):
    says = "HEAD's branch has no commit yet"


class NotACommit(Refused):
    says = "the word is the id of an object that is neither a commit nor a tag"


class NoSuchName(Refused):
    says = "the name doesn't exist"


class Taken(Refused):
    says = "the name exists already"


class NotExpected(Refused):
    says = "the name isn't at the commit that was expected"


class Collides(Refused):
    says = "one name would be a folder of another"


class HoldsTag(Refused):
    says = "the name holds a tag"


class TooManyParents(Refused):
    says = "a commit has 64 parents at most"


class DuplicateParent(Refused):
    says = "one commit would be a parent twice"


class BadPath(Refused):
    says = "the path, or one of its names, is empty or too long, or holds a zero byte"


class IsFolder(Refused):
    says = "the path is a folder"


class NoSuchPath(Refused):
    says = "nothing exists at this path"


class ReadOnly(Refused):
    says = "this socket of a server is for reading alone"


class NotHeld(Refused):
    says = "the server didn't hold changes back, or not all the time"


class BadActor(Refused):
    says = "the name or email is empty, too long, or holds a character that it may not"


class BadTime(Refused):
    says = "the seconds or the offset from UTC aren't in their form"


class BadMessage(Refused):
    says = "the title is empty, too long, or holds a character that it may not"


class TooLarge(Refused):
    says = "an object has over 16,777,216 bytes"


class NothingMoves(Refused):
    says = "the name is there already"


class OrderWithParents(Refused):
    says = "this order doesn't go with first parents alone"


# Causes for which a folder is refused.


class NotEmpty(Refused):
    says = "something is in the way"


class NoHead(Refused):
    says = "the folder holds no repository: it has no file HEAD"


class BadHead(Refused):
    says = "the file HEAD isn't in its form"


class Stray(Refused):
    says = "this is no file of a repository"


class BadObject(Refused):
    says = "the file isn't an object"


class BadTag(Refused):
    says = "the tag isn't of a commit"


class WrongId(Refused):
    says = "the object has another id than its place says"


class Missing(Refused):
    says = "an object isn't stored"


class WrongKind(Refused):
    says = "an object is of another kind than its user says"


class BadTree(Refused):
    says = "the tree isn't in the form that a command writes"


class Cycle(Refused):
    says = "the object reaches itself"


class IdReserved(Refused):
    says = "an object has an id that is reserved"


class Symbolic(Refused):
    says = "the name is a symbolic reference"


class LongLogLine(Refused):
    says = "a line of this log has over 4,096 bytes"


class BadPacked(Refused):
    says = "a line of packed-refs may not come there"


class BadPeeled(Refused):
    says = "the commit that packed-refs has for this tag isn't the tag's"



class Unfinished(Refused):
    """A stopped run left something in the folder. `recover()` removes it; then the folder opens.

    >>> try:                                            # doctest: +SKIP
    ...     repo = Repo("store")
    ... except Unfinished as stopped:
    ...     stopped.recover()
    ...     repo = Repo("store")
    """

    says = "a stopped run left this file; recover removes it"
    # What recovers the folder, where that is known.
    mend: Optional[Callable[[], None]] = None

    def recover(self) -> None:
        """Recovers the folder. What was acknowledged is kept."""
        if self.mend is None:
            raise EngineError("it isn't known which folder is to be recovered")
        self.mend()


class LogWithoutName(Unfinished):
    says = "a stopped run left this log; recover removes it"


class BadLog(Unfinished):
    says = "a line of this log isn't whole"


# Faults.


# What the engine says in place of what the system says.
READ_LAST, NOT_AS_WRITTEN = "read last, and no call failed", "isn't what was written"
_SAYS = {"File": "a call of the engine's files failed", "Memory": "the engine had no memory left", "IdTaken": "an object's id names other bytes"}


class Fault(Answer):
    """The engine met a fault: `cause` is `"Memory"`, `"File"` or `"IdTaken"`. After one in a command that changes the repository the engine ends, and
    `Repo.reopen` starts it again.

    Of `"File"` the engine's note says at which `path` (from the folder on) the first call failed, and for which `reason`; `errno` is the number that the
    system has for the reason, if it is one of the system's.

    >>> full = Fault.noted("File", b"note: objects/unfinished: No space left on device")
    >>> full.path, full.reason, full.errno == errno.ENOSPC
    ('objects/unfinished', 'No space left on device', True)
    """

    verb = "fault"

    def __init__(self, cause: str, command: Optional[Any] = None, values: Sequence[str] = (), path: Optional[str] = None, reason: Optional[str] = None) -> None:
        self.says = _SAYS.get(cause, "")
        self.path, self.reason = path, reason
        self.errno = _numbers().get(reason or "")
        super().__init__(cause, command, values or [f"{path}: {reason}"] * (reason is not None))

    @classmethod
    def noted(cls, cause: str, note: bytes, command: Optional[Any] = None) -> "Fault":
        """Returns the fault with what the engine's note says of it."""
        path, found, reason = note.decode("utf-8", "surrogateescape").partition(": ")[2].rpartition(": ")
        return cls(cause, command, path=path, reason=reason) if found else cls(cause, command)


@functools.lru_cache(maxsize=None)
def _numbers() -> Dict[str, int]:
    """The system's numbers by their texts."""
    return {os.strerror(it): it for it in errno.errorcode}


class Busy(Fault):
    """Another process works in the folder, or a server has as many clients as it takes."""


# What a client notices.


class Damaged(HistoryError):
    """What the store has at a `path` isn't what was stored: its bytes have another id than `id`. `wunthavel verify` looks at all of the store, and a copy
    of it (a backup, another folder, a git repository) still has what is lost."""

    def __init__(self, path: str, id: str) -> None:
        super().__init__(f"{path!r} isn't what was stored as {id}: its bytes have another id; wunthavel verify lists what is damaged, and a backup has it")
        self.path, self.id = path, id


# The engine's end.


class ProtocolError(HistoryError):
    """What came isn't a reply to the command that was sent."""


class EngineError(HistoryError):
    """The engine can't be used: it isn't found, doesn't start, or ended. `status` is its exit status, `said` what it wrote on standard error."""

    def __init__(self, why: str, status: Optional[int] = None, said: str = "") -> None:
        super().__init__(why + (f": {said}" if said else ""))
        self.status, self.said = status, said


class EngineDied(EngineError):
    """The engine ended before it replied. Whether `command` was done isn't known: open the folder again (`Repo.reopen`) and look."""

    def __init__(self, why: str, status: Optional[int] = None, said: str = "", command: Optional[Any] = None) -> None:
        super().__init__(why + (f" (no reply to {command.title!r})" if command is not None else ""), status, said)
        self.command = command
