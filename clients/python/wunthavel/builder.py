"""A commit that is being made."""
import warnings
from types import TracebackType
from typing import Any, Callable, Generic, Iterable, List, Optional, Tuple, Type, TypeVar

from . import plans, protocol
from .protocol import Actor, Command, Expect, Expected
from .texts import Text

R = TypeVar("R")
# A graft's path, the word of the commit that it is from, and the path there.
Graft = Tuple[Text, Text, Text]


class Builder(Generic[R]):
    """A commit that is being made. Its edits are made in order, and each returns the builder; `run` sends it and returns its id. `base` is what the name
    is expected to be at, where that is a commit. One that is dropped before it is run warns."""

    def __init__(
        self,
        do: Callable[["plans.Plan[str]"], R],
        name: Text,
        message: Text,
        expect: Expected,
        parents: Iterable[Text],
        author: Actor,
        committer: Actor,
    ) -> None:
        self._do = do
        self._name, self._message, self._expect, self._parents = name, message, expect, list(parents)
        self._author, self._committer = author, committer
        self._edits: List[Callable[[Callable[[Text], Text]], bytes]] = []
        self._words: List[Text] = []
        self._is_used = False
        self.base: Optional[Text] = None if isinstance(expect, Expect) else expect
        self.id: Optional[str] = None

    def put(self: "B", path: Text, content: bytes, kind: str = "file") -> "B":
        """A file at the path. What was there or below it goes, and so does a file that is a beginning of the path. `kind` is `"file"`, `"exec"`,
        or `"link"` with the link's target as content."""
        edit = protocol.put(path, content, kind)
        self._edits.append(lambda _: edit)
        return self

    def remove(self: "B", path: Text) -> "B":
        """What is at the path or below it goes, if anything is."""
        edit = protocol.remove(path)
        self._edits.append(lambda _: edit)
        return self

    def remove_file(self: "B", path: Text) -> "B":
        """The file at the path goes, if one is there; `IsFolder` if the path is a folder."""
        edit = protocol.remove_file(path)
        self._edits.append(lambda _: edit)
        return self

    def graft(self: "B", path: Text, source: Text = b"", at: Text = "HEAD") -> "B":
        """What a commit has at or below `source`, by default all of it, comes to the path in the place of what was there."""
        self._words.append(at)
        self._edits.append(lambda known: protocol.graft(path, known(at), source))
        return self

    def command(self, known: Callable[[Text], Text] = lambda it: it) -> Command[str]:
        """Returns the command, for `Repo.batch` or `Repo.send`."""
        self._is_used = True
        expect = self._expect if isinstance(self._expect, Expect) else known(self._expect)
        edits = [it(known) for it in self._edits]
        return protocol.commit(self._name, self._message, self._author, self._committer, edits, expect, map(known, self._parents))

    def run(self) -> R:
        """Makes the commit and returns its id."""
        self._is_used = True
        return self._do(self._plan())

    def _plan(self) -> "plans.Plan[str]":
        given = [*self._words, *self._parents, *([] if isinstance(self._expect, Expect) else [self._expect])]
        found = yield from plans.words(given)
        self.id = yield from plans.ask(self.command(dict(zip(given, found)).__getitem__))
        return self.id

    def drop(self) -> None:
        """Gives the commit up."""
        self._is_used = True

    def __del__(self) -> None:
        if not getattr(self, "_is_used", True):
            warnings.warn(f"a commit was begun and not run: {self._message!r}", ResourceWarning, source=self)


B = TypeVar("B", bound=Builder[Any])


class CommitBuilder(Builder[str]):
    """A commit that is being made in a `Repo`.

    >>> repo.commit("Move a page").put("b", b"..").remove_file("a").run()        # doctest: +SKIP

    As a context manager it is sent at the end of the block, unless the block raised; its id is `id` then.
    """

    def __enter__(self) -> "CommitBuilder":
        return self

    def __exit__(self, kind: Optional[Type[BaseException]], error: Optional[BaseException], trace: Optional[TracebackType]) -> None:
        self.drop()
        if kind is None:
            self.run()
