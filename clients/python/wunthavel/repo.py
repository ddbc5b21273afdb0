"""`Repo`: a repository in a folder, with one method for each command of the engine.

>>> with Repo.create("store") as repo:                                     # doctest: +SKIP
...     repo.actor = "Ada Lovelace <ada@example.org>"
...     first = repo.commit("Begin").put("README", b"Hello.").run()
...     repo.read("README")
b'Hello.'
"""
import os
from collections import deque
from types import TracebackType
from typing import Any, Callable, Deque, Iterable, Iterator, List, Mapping, Optional, Tuple, Type, TypeVar, Union

from . import plans, protocol
from .builder import CommitBuilder
from .engine import Engine, Folder, Pending, act, command_line, find_engine, is_sha256, patiently, refusal
from .errors import Busy, EngineDied, Fault, HistoryError, NotExpected, Refused, Taken, Unfinished
from .plans import AsOf, Change, Entry, Line, Plan, Texts
from .protocol import ANY, NEW, Actor, Command, Commit, Content, Expected, File, Ids, LogEntry, Names
from .texts import Text
from .transport import Process

T = TypeVar("T")
Who = Union[Actor, str]
# A batch has so many commands on their way at most, and so many bytes of them waiting to be written.
WINDOW, UNSENT = 256, 1 << 18


class Repo:
    """An open repository. It is a context manager, and may be used by several threads, which take turns.

    `sha256` says that its ids are of SHA-256; by default the ids of its objects say. `actor` is who makes commits if nobody is named: an
    `Actor`, or a text `"Name <email>"` with the time of each call. `recover` recovers a folder that a stopped run left unfinished, which is else
    refused by `Unfinished`. `wait` is how many seconds to wait for another process that works in the folder, before `Busy` is raised. `timeout` is
    how many seconds the engine may be silent; then it is ended. `engine` is its program (see `find_engine`).
    """

    def __init__(
        self,
        folder: Folder,
        *,
        sha256: Optional[bool] = None,
        actor: Optional[Who] = None,
        recover: bool = False,
        wait: float = 5.0,
        timeout: Optional[float] = None,
        engine: Optional[str] = None,
    ) -> None:
        self.folder = os.fspath(folder)
        self.sha256 = is_sha256(folder) if sha256 is None else sha256
        self.actor = actor
        self._wait, self._timeout, self._program = wait, timeout, engine or find_engine()
        self._engine = self._open(recover)

    @classmethod
    def create(
        cls,
        folder: Folder,
        *,
        sha256: bool = False,
        actor: Optional[Who] = None,
        timeout: Optional[float] = None,
        engine: Optional[str] = None,
    ) -> "Repo":
        """Makes a repository in a folder that is empty or doesn't exist yet, and opens it."""
        os.makedirs(folder, exist_ok=True)
        act("create", folder, sha256, engine)
        return cls(folder, sha256=sha256, actor=actor, timeout=timeout, engine=engine)

    @classmethod
    def check(cls, folder: Folder, *, sha256: Optional[bool] = None, engine: Optional[str] = None) -> None:
        """Reads all of a repository: returns if it is whole, or raises `Refused` with the cause and the file or object."""
        act("check", folder, is_sha256(folder) if sha256 is None else sha256, engine)

    @classmethod
    def recover(cls, folder: Folder, *, sha256: Optional[bool] = None, engine: Optional[str] = None) -> None:
        """Removes what a stopped run left. What was acknowledged is kept."""
        act("recover", folder, is_sha256(folder) if sha256 is None else sha256, engine)

    def _open(self, recover: bool) -> Engine:
        """Starts the engine, once no other process works in the folder; if it is to be recovered, once more after that."""
        try:
            return patiently(self._start, self._wait, Busy)
        except Unfinished as error:
            if not recover:
                raise
            patiently(error.recover, self._wait, Busy)
            return patiently(self._start, self._wait, Busy)

    def _start(self) -> Engine:
        engine = Engine(Process(command_line("run", self.folder, self.sha256, self._program)), self._timeout)
        try:
            # A question with a short answer: the engine replies once it has opened the folder.
            engine.wait(engine.send(protocol.names("refs/wunthavel/none")))
        except EngineDied:
            pass
        except BaseException:
            # Who is interrupted holds this frame, and would keep the folder from who opens it again.
            engine.kill()
            raise
        if engine.over is None:
            return engine
        raise refusal(engine.over.said, engine.over.status, self.folder, self.sha256, self._program)

    def reopen(self, recover: bool = True) -> None:
        """Starts the engine again, after it ended by a fault or a signal, or to see what others changed in the folder."""
        self._engine.close()
        self._engine = self._open(recover)

    def close(self, *, send: bool = True) -> None:
        """Sends what waits to be sent, unless that isn't wanted, and ends the engine."""
        self._engine.close(send)

    def kill(self) -> None:
        """Ends the engine at once; `Repo(folder, recover=True)` opens what is left."""
        self._engine.kill()

    @property
    def closed(self) -> bool:
        """Whether the engine has ended."""
        return not self._engine.alive

    @property
    def pid(self) -> int:
        """The engine's process id."""
        return self._engine.transport.pid

    def __enter__(self) -> "Repo":
        return self

    def __exit__(self, kind: Optional[Type[BaseException]], error: Optional[BaseException], trace: Optional[TracebackType]) -> None:
        # After an error what isn't sent yet isn't done any more.
        self.close(send=kind is None)

    def __repr__(self) -> str:
        return f"<Repo {self.folder!r}{' closed' if self.closed else ''}>"

    # Commands as such.

    def send(self, command: Command[T]) -> "Pending[T]":
        """Sends a command of `wunthavel.protocol` and returns at once; `result()` of what it returns waits for the reply. Any number may be sent
        before a reply is looked at."""
        return self._live_engine().send(command)

    def run(self, command: Command[T]) -> T:
        """Sends a command of `wunthavel.protocol`, and returns its reply or raises `Refused`, `Fault` or `EngineDied`."""
        return next(self.batch([command]))

    def batch(self, commands: Iterable[Command[T]], *, window: int = WINDOW) -> Iterator[T]:
        """Sends many commands, and gives their replies in order. Commands are taken from the iterable as it goes on, so that neither they nor the
        replies are ever held as a whole, and nothing is sent before the first reply is wanted. A refusal is raised in its turn; up to `window`
        later commands may have been done then, as if they were sent by hand. `results` gives errors as values.

        >>> ids = list(repo.batch(protocol.show(it) for it in words))            # doctest: +SKIP
        """
        for reply in self.results(commands, window=window):
            if isinstance(reply, HistoryError):
                raise reply
            yield reply

    def results(self, commands: Iterable[Command[T]], *, window: int = WINDOW) -> Iterator[Union[T, Refused, Fault]]:
        """The same as `batch`, with a `Refused` or a `Fault` in the place of the reply, after which it goes on."""
        ahead: Deque[Pending[T]] = deque()
        coming = iter(commands)
        more = True
        while True:
            while more and len(ahead) < window and self._engine.transport.unsent < UNSENT:
                command = next(coming, None)
                more = command is not None
                if command is not None:
                    ahead.append(self._live_engine().send(command, at_once=False))
            if not ahead:
                return
            try:
                reply: Union[T, Refused, Fault] = ahead[0].result()
            except (Refused, Fault) as error:
                reply = error
            except EngineDied as died:
                ahead = self._send_again(ahead, died)
                continue
            ahead.popleft()
            yield reply

    def _live_engine(self) -> Engine:
        """Returns the engine to which commands are sent."""
        return self._engine

    def _send_again(self, pending: "Deque[Pending[T]]", died: EngineDied) -> "Deque[Pending[T]]":
        """Sends commands once more to which no reply came, if that can be done."""
        raise died

    def _do(self, plan: "Plan[T]") -> T:
        """Runs a plan."""
        try:
            commands = next(plan)
            while True:
                commands = plan.send(list(self.results(commands)))
        except StopIteration as ended:
            return ended.value  # type: ignore[no-any-return]

    # Changes.

    def commit(
        self,
        message: Text,
        *,
        name: Text = "HEAD",
        expect: Expected = ANY,
        parents: Iterable[Text] = (),
        author: Optional[Who] = None,
        committer: Optional[Who] = None,
    ) -> CommitBuilder:
        """Begins a commit on a branch, by default HEAD's. Its files are those of the commit that the name holds, changed by the builder's edits.

        `expect` is compared as the commit is made, and nothing is changed if it isn't met: a commit's word, at which the name must be
        (`NotExpected`, or `NoSuchName`), or `NEW` (`Taken`).

        >>> repo.commit("Greet", expect=seen).put("README", b"Hello.").run()    # doctest: +SKIP
        """
        by = actor_of(author, self.actor)
        return CommitBuilder(self._do, plans.branch(name), message, expect, parents, by, actor_of(committer, by))

    def update(
        self, name: Text, function: Callable[[CommitBuilder], object], message: Text = "update", *, author: Optional[Who] = None, committer: Optional[Who] = None
    ) -> str:
        """Makes a commit on a branch over whatever others do, and returns its id.

        `function` is given a builder for its edits, whose `base` is the commit that the name is at (`None` if it doesn't exist yet). If the name has moved
        before the commit is made, `function` is called again, over the commit that the name is at then.

        >>> repo.update("main", lambda edit: edit.put("count", b"%d" % (1 + int(repo.read("count", edit.base)))))    # doctest: +SKIP
        """
        while True:
            tip = self.resolve(plans.branch(name))
            edit = self.commit(message, name=name, expect=NEW if tip is None else tip, author=author, committer=committer)
            try:
                function(edit)
                return edit.run()
            except (NotExpected, Taken):
                continue
            finally:
                edit.drop()

    def tag(self, name: Text, at: Text = "HEAD", message: Text = "", *, expect: Expected = NEW, tagger: Optional[Who] = None) -> str:
        """Makes an annotated tag of a commit and returns its id. A name that doesn't begin with `refs/` is one below `refs/tags/`."""
        full = plans.tag(name)
        return self.run(protocol.tag(full, self._word(at), message or full[10:], actor_of(tagger, self.actor), expect))

    def move(
        self,
        moves: Union[Mapping[str, Text], Iterable[Tuple[Text, Expected, Text]]],
        message: Text = "move",
        *,
        actor: Optional[Who] = None,
    ) -> None:
        """Moves names, all or none: a mapping from names to words, or tuples of a name, what is expected of it, and a word.

        >>> repo.move({"next": "main~1"})                                       # doctest: +SKIP
        >>> repo.move([("next", NEW, "main")])                                  # doctest: +SKIP
        """
        given = [(name, ANY, at) for name, at in moves.items()] if isinstance(moves, Mapping) else moves
        full = [(plans.branch(name), expect, self._word(at)) for name, expect, at in given]
        self.run(protocol.move(full, message, actor_of(actor, self.actor)))

    def rename(self, old: Text, new: Text) -> None:
        """Makes the name `new` at what `old` holds, and deletes `old` with its log."""
        self.run(protocol.rename(plans.branch(old), plans.branch(new)))

    def delete(self, name: Text, expect: Expected = ANY) -> None:
        """Deletes a name with its log."""
        self.run(protocol.delete(plans.branch(name), expect))

    def switch(self, branch: Text) -> None:
        """Makes HEAD name this branch, whether it exists or not."""
        self.run(protocol.switch(plans.branch(branch)))

    def pack(self) -> None:
        """Writes all names to the file `packed-refs`."""
        self.run(protocol.pack())

    def index(self) -> int:
        """Makes rows of all commits in the engine's memory, over which later logs walk, and returns their number."""
        return self.run(protocol.index())

    # Names and commits.

    def names(self, folder: Text = b"") -> Names:
        """Lists all names, or those below a folder such as `"refs/heads"`, or `"heads"`. The answer's `head` is the branch that HEAD names."""
        return self.run(protocol.names(plans.folder(folder)))

    @property
    def head(self) -> str:
        """The branch that HEAD names, whether it exists or not, such as `"refs/heads/main"`."""
        return self.run(protocol.names("refs/wunthavel/none")).head

    def _word(self, given: Text) -> Text:
        return self._do(plans.word(given))

    def resolve(self, word: Text = "HEAD") -> Optional[str]:
        """Returns the id of the word's commit, or `None` if there is none (`UnknownWord`, `UnbornHead`)."""
        return self._do(plans.resolve(word))

    def past(self, name: Text = "HEAD") -> List[LogEntry]:
        """Lists the moves of a name, newest first."""
        return self.run(protocol.past(name))

    def as_of(self, name: Text, seconds: int) -> AsOf:
        """Returns what a name was at by the end of a second since 1970: by its log, and where that doesn't go back so far by the times of its commits."""
        return self._do(plans.as_of(name, seconds))

    def show(self, word: Text = "HEAD") -> Commit:
        """Returns the word's commit."""
        return self._do(plans.show(word))

    def log_ids(
        self,
        at: Texts = "HEAD",
        *,
        hidden: Texts = (),
        paths: Texts = (),
        order: str = "topological",
        first_parents: bool = False,
        since: Optional[int] = None,
    ) -> Ids:
        """Lists the ids of the commits that the words reach and the hidden ones don't, in one of the orders `protocol.ORDERS`."""
        begin, end = self._do(plans.words(at)), self._do(plans.words(hidden))
        return self._do(plans.log_ids(protocol.log(begin, end, order, first_parents, plans.several(paths), since), at))

    def log(
        self,
        paths: Texts = (),
        limit: Optional[int] = None,
        *,
        at: Texts = "HEAD",
        hidden: Texts = (),
        order: str = "topological",
        first_parents: bool = False,
        since: Optional[int] = None,
    ) -> Iterator[Commit]:
        """Gives the commits of a history, by default HEAD's, newest first: with paths those that changed something there, `limit` of them at most.
        They are fetched in one batch while they are used. A new repository has none.

        >>> for commit in repo.log("docs", limit=10):                           # doctest: +SKIP
        ...     print(commit.id[:8], commit.title)
        """
        ids = self.log_ids(at, hidden=hidden, paths=paths, order=order, first_parents=first_parents, since=since)
        return self.batch(protocol.show(it) for it in ids[:limit])

    # Files. A word at the end is of the commit that is meant, `at`.

    def files(self, at: Text = "HEAD") -> List[File]:
        """Lists a commit's files, ascending by their paths' bytes. A new repository has none."""
        return self._do(plans.files(at))

    def list(self, folder: Text = b"", at: Text = "HEAD") -> List[Entry]:
        """Lists what a folder of a commit has, its files and folders, by their names. `NoSuchPath` if there is none."""
        return self._do(plans.entries(folder, at))

    def content(self, path: Text, at: Text = "HEAD", *, check: bool = True) -> Content:
        """Returns a file of a commit, with its kind and id. `Damaged` if its bytes aren't those that were stored, unless `check` is false."""
        return self._do(plans.content(path, at, check))

    def read(self, path: Text, at: Text = "HEAD", *, check: bool = True) -> bytes:
        """Returns the bytes of a file of a commit. `Damaged` if they aren't those that were stored, unless `check` is false."""
        return self.content(path, at, check=check).data

    def contents(self, folder: Text = b"", at: Text = "HEAD", *, check: bool = True) -> Iterator[Tuple[File, Content]]:
        """Gives the files in a folder of a commit, by default all, with their contents, which are fetched in one batch while they are used."""
        word = self._word(at)
        found = list(plans.below(self.files(word), folder))
        for file, content in zip(found, self.batch(protocol.content(word, it.path) for it in found)):
            yield file, plans.checked(content, file.path) if check else content

    def diff_names(self, old: Optional[Text], new: Text = "HEAD") -> List[Change]:
        """Lists the paths at which two commits' files differ, ascending. `None` in the place of the old one is a commit without files."""
        return self._do(plans.diff_names(old, new))

    def diff(self, old: Optional[Text], new: Text, path: Text, *, context: int = 3) -> bytes:
        """Returns how a file differs in two commits, as `diff -u` writes it, with so many lines around each change; nothing if it doesn't."""
        return self._do(plans.diff(old, new, path, context))

    def changed_by(self, word: Text = "HEAD") -> List[Change]:
        """Lists the paths that the word's commit changed: those at which it differs from its first parent."""
        return self._do(plans.changed_by(word))

    def blame(self, path: Text, at: Text = "HEAD") -> List[Line]:
        """Returns for each line of a file which commit it is from, through merges, under this path alone."""
        return self._do(plans.blame(path, at))


def actor_of(who: Optional[Who], default: Optional[Who]) -> Actor:
    """Returns who makes something."""
    who = who or default
    if who is None:
        raise ValueError("nobody is named: give an author, or set Repo.actor to 'Name <email>'")
    return who if isinstance(who, Actor) else Actor.parse(who)
