"""A repository that `wunthavel serve` serves, from a client's side.

    with wunthavel.connect("/run/store.sock") as repo:
        repo.log(limit=10)
"""
import threading
from collections import deque
from typing import Any, Deque, Optional, TypeVar

from . import plans, protocol
from .engine import Engine, Pending, patiently
from .errors import Busy, EngineDied, EngineError, NoSuchName, NotExpected, Refused, Taken
from .protocol import Command, Commit
from .repo import Repo, Who
from .texts import Text, raw
from .transport import Address, Socket

T = TypeVar("T")
# How often a command is sent again.
TRIES = 3


class ServedRepo(Repo):
    """A `Repo` whose engine is a server's. `folder` is the address.

    If the connection ends, a new one is made, for `wait` seconds at most, and what got no reply is sent again: commands that read, and a single one that
    changes something and says what it expects (`expect`, `update`). Such a one can't be done twice; if it was done before the connection ended, its commit
    is found, and is the reply. Of other changes it isn't known whether they were done: `EngineDied`.
    """

    def __init__(self, address: Address, *, actor: Optional[Who] = None, timeout: Optional[float] = None, wait: float = 5.0) -> None:
        self._address, self._timeout, self._wait = address, timeout, wait
        self.folder, self.sha256, self.actor, self._program = str(address), False, actor, ""
        self._connecting = threading.Lock()
        # The command for which commands were sent again last, and how often.
        self._last: Optional[Command[Any]] = None
        self._tries = 0
        self._is_closed = False
        self._engine = self._open(False)

    def _open(self, recover: bool) -> Engine:
        engine = Engine(Socket(self._address), self._timeout)
        try:
            engine.send(protocol.names("refs/wunthavel/none")).result()
        except BaseException:
            engine.kill()
            raise
        return engine

    def _live_engine(self) -> Engine:
        # What isn't sent yet can be sent over a new connection, whatever it is.
        over = self._engine.over
        if over is not None and not self._is_closed:
            self._connect_again(self._engine, over)
        return self._engine

    def reopen(self, recover: bool = True) -> None:
        """Connects again."""
        super().reopen(recover)
        self._is_closed = False

    def close(self, *, send: bool = True) -> None:
        """Sends what waits to be sent, unless that isn't wanted, and ends the connection."""
        self._is_closed = True
        super().close(send=send)

    def kill(self) -> None:
        """Ends the connection at once."""
        self._is_closed = True
        super().kill()

    def _send_again(self, pending: "Deque[Pending[T]]", died: EngineDied) -> "Deque[Pending[T]]":
        commands = [it.command for it in pending]
        self._tries = self._tries + 1 if commands[0] is self._last else 1
        self._last = commands[0]
        is_expecting = len(commands) == 1 and commands[0].expects
        if self._tries > TRIES or not is_expecting and any(it.changes for it in commands):
            raise died
        self._connect_again(pending[0].engine, died)
        sent = deque(self._engine.send(it) for it in commands)
        if is_expecting:
            self._look_whether_done(sent[0], died)
        return sent

    def _connect_again(self, engine: Engine, died: EngineDied) -> None:
        """Connects again, unless another thread did."""
        with self._connecting:
            if self._engine is engine:
                try:
                    self._engine = patiently(lambda: self._open(False), self._wait, (EngineError, Busy))
                except (EngineError, Busy):
                    raise died from None

    def _look_whether_done(self, pending: "Pending[Any]", died: EngineDied) -> None:
        """Finds the commit of a command that was done, if what it expects doesn't hold for that reason."""
        try:
            pending.result()
        except (NotExpected, Taken, NoSuchName) as refused:
            commit = self._do(_made(pending.command, died))
            if commit is None:
                raise refused
            pending.settle(commit.id)
        except (Refused, EngineDied):
            # Who looks at the reply meets this again.
            pass

    def wait(self, name: Text = "HEAD", known: Optional[str] = None, timeout: Optional[float] = None) -> Optional[str]:
        """Waits until a branch isn't at the commit `known` (`None`: until it exists), or so many seconds have passed, and returns the id of the commit that
        it is at then. It has a connection of its own, so others may go on."""
        with ServedRepo(self._address, timeout=None, wait=self._wait) as repo:
            return repo._do(plans.wait(name, known, timeout))


def connect(address: Address, *, actor: Optional[Who] = None, timeout: Optional[float] = None, wait: float = 5.0) -> ServedRepo:
    """Connects to a server: `address` is its socket's path, or `HOST:PORT`. What is returned has all of `Repo`'s calls."""
    return ServedRepo(address, actor=actor, timeout=timeout, wait=wait)


def _made(command: Command[Any], died: EngineDied) -> "plans.Plan[Optional[Commit]]":
    """Returns the commit that a command asks for, if it is the first one over what the command expects. It can be known if all edits put files."""
    lines = command.data.split(b"\n", 2)
    _, name, *expected = lines[0].split(b" ")
    asked = command.asked
    if command.word != "commit" or lines[1].startswith(b"parent ") or any(content is None for _, content in asked.paths):
        raise died
    base = (yield from plans.show(expected[1])).id if expected[0] == b"at" else None
    chain = yield from plans.ask(protocol.log([name], [base] if base else [], "breadth", True))
    if not chain:
        return None
    commit = yield from plans.show(chain[-1])
    if commit.parents != ((base,) if base else ()) or not protocol.is_made_by(commit, command):
        return None
    files = {raw(it.path): it.id for it in (yield from plans.files(commit.id))}
    is_same = all(files.get(path) == plans.object_id("blob", content or b"", len(commit.id) == 64) for path, content in dict(asked.paths).items())
    return commit if is_same else None
