"""`AsyncRepo`: a repository that `wunthavel serve` serves, for programs of `asyncio`.

    async with await wunthavel.AsyncRepo.connect("/run/store.sock") as repo:
        print(await repo.read("README"))

Its calls have the names and arguments of `Repo`'s, and are awaited; any number of tasks may call at the same time.
"""
import asyncio
import inspect
from collections import deque
from types import TracebackType
from typing import Any, AsyncIterator, Awaitable, Callable, Deque, Iterable, List, Mapping, Optional, Tuple, Type, TypeVar, Union

from . import plans, protocol
from .builder import Builder
from .errors import EngineDied, Fault, NotExpected, ProtocolError, Refused, Taken
from .plans import AsOf, Change, Entry, Line, Plan, Texts
from .protocol import ANY, NEW, Command, Commit, Content, Expected, File, Ids, LogEntry, Names
from .repo import UNSENT, WINDOW, Who, actor_of
from .texts import Text
from .transport import PIPE, Address, Socket
from .wire import Parts, Reply, reply

T = TypeVar("T")


class _Connection:
    """Commands on their way over a transport that the event loop watches."""

    def __init__(self, transport: Socket) -> None:
        self._transport, self._loop = transport, asyncio.get_running_loop()
        self._parts: Parts[Reply] = Parts(reply, keeps=False, note=transport.note)
        self._pending: "Deque[Tuple[Command[Any], asyncio.Future[Any]]]" = deque()
        self.over: Optional[str] = None
        transport.put(transport.greeting)
        for source in transport.sources:
            self._loop.add_reader(source, self._receive, source)

    @property
    def unsent(self) -> int:
        """How many bytes wait to be written."""
        return self._transport.unsent

    def send(self, command: Command[T]) -> "asyncio.Future[T]":
        """Sends a command, whose reply is the future's result."""
        if self.over is not None:
            raise EngineDied(f"{self.over}; reopen() {self._transport.reopened}", command=command)
        future: "asyncio.Future[T]" = self._loop.create_future()
        self._pending.append((command, future))
        self._transport.put(command.data)
        self._write()
        return future

    def _write(self) -> None:
        self._transport.write()
        if self._transport.unsent:
            self._loop.add_writer(self._transport.given, self._write)
        else:
            self._loop.remove_writer(self._transport.given)

    def _receive(self, source: int) -> None:
        data = self._transport.read(source, PIPE)
        try:
            for whole in self._parts.feed(data):
                self._take(whole.value)
        except ProtocolError as error:
            self.end(f"the reply can't be read ({error})")
        if self.over is None and not self._transport.sources:
            self.end(self._transport.ended)

    def _take(self, reply: Reply) -> None:
        command, future = self._pending.popleft()
        # One that nobody waits for any more is passed over.
        if future.done():
            return
        try:
            future.set_result(command.value(reply))
        except (Refused, Fault) as error:
            future.set_exception(error)

    def end(self, why: str) -> None:
        """Ends the connection, and what waits for replies."""
        if self.over is not None:
            return
        self.over = why
        self._loop.remove_writer(self._transport.given)
        self._loop.remove_reader(self._transport.given)
        self._transport.end()
        while self._pending:
            command, future = self._pending.popleft()
            if not future.done():
                future.set_exception(EngineDied(why, command=command))
                # Who gave up waiting needn't look at it.
                future.exception()


class AsyncCommitBuilder(Builder["Awaitable[str]"]):
    """A commit that is being made in an `AsyncRepo`: `await repo.commit("Begin").put("README", b"Hello.").run()`, or a block of `async with`."""

    async def __aenter__(self) -> "AsyncCommitBuilder":
        return self

    async def __aexit__(self, kind: Optional[Type[BaseException]], error: Optional[BaseException], trace: Optional[TracebackType]) -> None:
        self.drop()
        if kind is None:
            await self.run()


class AsyncRepo:
    """A repository over a server; see `Repo` for what each call does."""

    def __init__(self, address: Address, actor: Optional[Who]) -> None:
        self.folder, self.actor = str(address), actor
        self._address = address
        self._connection = _Connection(Socket(address))

    @classmethod
    async def connect(cls, address: Address, *, actor: Optional[Who] = None) -> "AsyncRepo":
        """Connects to a server: `address` is its socket's path, or `HOST:PORT`."""
        repo = cls(address, actor)
        await repo.run(protocol.names("refs/wunthavel/none"))
        return repo

    async def reopen(self) -> None:
        """Connects again."""
        await self.close()
        self._connection = _Connection(Socket(self._address))
        await self.run(protocol.names("refs/wunthavel/none"))

    async def close(self) -> None:
        """Ends the connection."""
        self._connection.end("the connection was closed")

    @property
    def closed(self) -> bool:
        """Whether the connection has ended."""
        return self._connection.over is not None

    async def __aenter__(self) -> "AsyncRepo":
        return self

    async def __aexit__(self, kind: Optional[Type[BaseException]], error: Optional[BaseException], trace: Optional[TracebackType]) -> None:
        await self.close()

    # Commands as such.

    async def run(self, command: Command[T]) -> T:
        """Sends a command of `wunthavel.protocol`, and returns its reply or raises `Refused`, `Fault` or `EngineDied`."""
        return await self._connection.send(command)

    async def results(self, commands: Iterable[Command[T]]) -> AsyncIterator[Union[T, Refused, Fault]]:
        """Sends many commands, and gives their replies in order; a `Refused` or a `Fault` is in the place of its reply."""
        ahead: "Deque[asyncio.Future[T]]" = deque()
        for command in commands:
            ahead.append(self._connection.send(command))
            while ahead and (len(ahead) >= WINDOW or self._connection.unsent > UNSENT):
                yield await _reply(ahead.popleft())
        while ahead:
            yield await _reply(ahead.popleft())

    async def batch(self, commands: Iterable[Command[T]]) -> AsyncIterator[T]:
        """The same, with a `Refused` or a `Fault` raised."""
        async for found in self.results(commands):
            if isinstance(found, (Refused, Fault)):
                raise found
            yield found

    async def _do(self, plan: "Plan[T]") -> T:
        try:
            commands = next(plan)
            while True:
                commands = plan.send([it async for it in self.results(commands)])
        except StopIteration as ended:
            return ended.value  # type: ignore[no-any-return]

    # Changes.

    def commit(
        self,
        message: Text,
        *,
        name: Text = "HEAD",
        expect: Expected = ANY,
        parents: Iterable[Text] = (),
        author: Optional[Who] = None,
        committer: Optional[Who] = None,
    ) -> AsyncCommitBuilder:
        """Begins a commit on a branch."""
        by = actor_of(author, self.actor)
        return AsyncCommitBuilder(self._do, plans.branch(name), message, expect, parents, by, actor_of(committer, by))

    async def update(
        self,
        name: Text,
        function: Callable[[AsyncCommitBuilder], object],
        message: Text = "update",
        *,
        author: Optional[Who] = None,
        committer: Optional[Who] = None,
    ) -> str:
        """Makes a commit on a branch over whatever others do. `function` may be a coroutine's."""
        while True:
            tip = await self.resolve(plans.branch(name))
            edit = self.commit(message, name=name, expect=NEW if tip is None else tip, author=author, committer=committer)
            try:
                edited = function(edit)
                if inspect.isawaitable(edited):
                    await edited
                return await edit.run()
            except (NotExpected, Taken):
                continue
            finally:
                edit.drop()

    async def tag(self, name: Text, at: Text = "HEAD", message: Text = "", *, expect: Expected = NEW, tagger: Optional[Who] = None) -> str:
        """Makes an annotated tag of a commit."""
        full, word = plans.tag(name), await self._do(plans.word(at))
        return await self.run(protocol.tag(full, word, message or full[10:], actor_of(tagger, self.actor), expect))

    async def move(
        self, moves: Union[Mapping[str, Text], Iterable[Tuple[Text, Expected, Text]]], message: Text = "move", *, actor: Optional[Who] = None
    ) -> None:
        """Moves names, all or none."""
        given = [(name, ANY, at) for name, at in moves.items()] if isinstance(moves, Mapping) else moves
        full = [(plans.branch(name), expect, await self._do(plans.word(at))) for name, expect, at in given]
        await self.run(protocol.move(full, message, actor_of(actor, self.actor)))

    async def rename(self, old: Text, new: Text) -> None:
        """Gives a name another one."""
        await self.run(protocol.rename(plans.branch(old), plans.branch(new)))

    async def delete(self, name: Text, expect: Expected = ANY) -> None:
        """Deletes a name with its log."""
        await self.run(protocol.delete(plans.branch(name), expect))

    async def switch(self, branch: Text) -> None:
        """Makes HEAD name this branch."""
        await self.run(protocol.switch(plans.branch(branch)))

    async def pack(self) -> None:
        """Writes all names to the file `packed-refs`."""
        await self.run(protocol.pack())

    async def index(self) -> int:
        """Makes rows of all commits in the engine's memory."""
        return await self.run(protocol.index())

    # Names and commits.

    async def names(self, folder: Text = b"") -> Names:
        """Lists names."""
        return await self.run(protocol.names(plans.folder(folder)))

    async def head(self) -> str:
        """Returns the branch that HEAD names."""
        return (await self.run(protocol.names("refs/wunthavel/none"))).head

    async def resolve(self, word: Text = "HEAD") -> Optional[str]:
        """Returns the id of the word's commit, or `None` if there is none."""
        return await self._do(plans.resolve(word))

    async def past(self, name: Text = "HEAD") -> List[LogEntry]:
        """Lists the moves of a name, newest first."""
        return await self.run(protocol.past(name))

    async def as_of(self, name: Text, seconds: int) -> AsOf:
        """Returns what a name was at by the end of a second since 1970."""
        return await self._do(plans.as_of(name, seconds))

    async def show(self, word: Text = "HEAD") -> Commit:
        """Returns the word's commit."""
        return await self._do(plans.show(word))

    async def log_ids(
        self,
        at: Texts = "HEAD",
        *,
        hidden: Texts = (),
        paths: Texts = (),
        order: str = "topological",
        first_parents: bool = False,
        since: Optional[int] = None,
    ) -> Ids:
        """Lists the ids of the commits that the words reach and the hidden ones don't."""
        begin, end = await self._do(plans.words(at)), await self._do(plans.words(hidden))
        return await self._do(plans.log_ids(protocol.log(begin, end, order, first_parents, plans.several(paths), since), at))

    async def log(
        self,
        paths: Texts = (),
        limit: Optional[int] = None,
        *,
        at: Texts = "HEAD",
        hidden: Texts = (),
        order: str = "topological",
        first_parents: bool = False,
        since: Optional[int] = None,
    ) -> AsyncIterator[Commit]:
        """Gives the commits of a history, to `async for`."""
        ids = await self.log_ids(at, hidden=hidden, paths=paths, order=order, first_parents=first_parents, since=since)
        async for commit in self.batch(protocol.show(it) for it in ids[:limit]):
            yield commit

    # Files.

    async def files(self, at: Text = "HEAD") -> List[File]:
        """Lists a commit's files."""
        return await self._do(plans.files(at))

    async def list(self, folder: Text = b"", at: Text = "HEAD") -> List[Entry]:
        """Lists what a folder of a commit has."""
        return await self._do(plans.entries(folder, at))

    async def content(self, path: Text, at: Text = "HEAD", *, check: bool = True) -> Content:
        """Returns a file of a commit, with its kind and id."""
        return await self._do(plans.content(path, at, check))

    async def read(self, path: Text, at: Text = "HEAD", *, check: bool = True) -> bytes:
        """Returns the bytes of a file of a commit."""
        return (await self.content(path, at, check=check)).data

    async def contents(self, folder: Text = b"", at: Text = "HEAD", *, check: bool = True) -> AsyncIterator[Tuple[File, Content]]:
        """Gives the files in a folder of a commit with their contents, to `async for`."""
        word = await self._do(plans.word(at))
        found = [it for it in plans.below(await self.files(word), folder)]
        files = iter(found)
        async for content in self.batch(protocol.content(word, it.path) for it in found):
            file = next(files)
            yield file, plans.checked(content, file.path) if check else content

    async def diff_names(self, old: Optional[Text], new: Text = "HEAD") -> List[Change]:
        """Lists the paths at which two commits' files differ."""
        return await self._do(plans.diff_names(old, new))

    async def diff(self, old: Optional[Text], new: Text, path: Text, *, context: int = 3) -> bytes:
        """Returns how a file differs in two commits, as `diff -u` writes it."""
        return await self._do(plans.diff(old, new, path, context))

    async def changed_by(self, word: Text = "HEAD") -> List[Change]:
        """Lists the paths that the word's commit changed."""
        return await self._do(plans.changed_by(word))

    async def blame(self, path: Text, at: Text = "HEAD") -> List[Line]:
        """Returns for each line of a file which commit it is from."""
        return await self._do(plans.blame(path, at))

    async def wait(self, name: Text = "HEAD", known: Optional[str] = None, timeout: Optional[float] = None) -> Optional[str]:
        """Waits until a branch isn't at a commit any more, or so many seconds have passed, and returns what it is at then."""
        async with await AsyncRepo.connect(self._address) as repo:
            return await repo._do(plans.wait(name, known, timeout))


async def _reply(future: "asyncio.Future[T]") -> Union[T, Refused, Fault]:
    try:
        return await future
    except (Refused, Fault) as error:
        return error
