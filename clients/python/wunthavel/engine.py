"""The engine: found, started, and spoken to over a transport.

Commands go out and replies come in by one wait, so neither side ever waits for the other to read: any number of commands can be on the way.
"""
import contextlib
import functools
import os
import shutil
import signal
import subprocess
import threading
import time
from collections import deque
from typing import Any, Callable, Deque, Generic, Iterator, List, Optional, Tuple, Type, TypeVar, Union

from .errors import Busy, EngineDied, EngineError, Fault, HistoryError, ProtocolError, Refused, Unfinished
from .protocol import Command, raw, text
from .transport import PATIENCE, PIPE, Transport
from .wire import Parts, Reply, reply

T = TypeVar("T")
Folder = Union[str, "os.PathLike[str]"]
CHECKOUT = os.path.join(os.path.dirname(os.path.abspath(__file__)), "../../../crates/history_program/out/history_program")
# So many bytes may wait to be written before `send` waits too.
UNSENT = 1 << 20
# So many commands are written together.
TOGETHER = 64
# How a note ends that says why the folder isn't opened.
OTHER = "another process works there"
INTERRUPTED = "the engine was interrupted"


def find_engine() -> str:
    """Returns the engine's path: `WUNTHAVEL_ENGINE`, else `wunthavel-history` on PATH, else the program of the checkout that this file is in."""
    named = os.environ.get("WUNTHAVEL_ENGINE")
    found = shutil.which(named) if named else shutil.which("wunthavel-history")
    if found:
        return found
    if not named and os.access(CHECKOUT, os.X_OK):
        return os.path.normpath(CHECKOUT)
    if named:
        raise EngineError(f"WUNTHAVEL_ENGINE names {named!r}, which is no program")
    raise EngineError("no engine: install wunthavel-history, or name it in WUNTHAVEL_ENGINE")


def engine_version(engine: Optional[str] = None) -> str:
    """Returns the version that the engine says it is of, such as `"0.2.0"`."""
    program = engine or find_engine()
    try:
        done = subprocess.run([program, "--version"], stdin=subprocess.DEVNULL, stdout=subprocess.PIPE, stderr=subprocess.DEVNULL, timeout=PATIENCE)
    except (OSError, subprocess.TimeoutExpired) as error:
        raise EngineError(f"{program} says no version: {error}") from error
    words = text(done.stdout).split()
    if done.returncode or len(words) < 2 or not words[1][:1].isdigit():
        raise EngineError(f"{program} says no version")
    return words[1]


def is_sha256(folder: Folder) -> bool:
    """Returns whether the folder has an object whose id is one of SHA-256. A folder without objects has not."""
    objects = os.path.join(os.fspath(folder), "objects")
    with contextlib.suppress(OSError):
        names = (it for beginning in os.listdir(objects) if len(beginning) == 2 for it in os.listdir(os.path.join(objects, beginning)))
        return len(next((it for it in names if len(it) in (38, 62)), "")) == 62
    return False


def command_line(action: str, folder: Folder, sha256: bool, engine: Optional[str]) -> List[str]:
    """Returns the words that do this with the folder."""
    return [engine or find_engine(), action, *(["--sha256"] if sha256 else []), "--", os.fspath(folder)]


def refusal(said: str, status: Optional[int], folder: Folder, sha256: bool, engine: Optional[str]) -> HistoryError:
    """Returns what an engine's line on standard error says; lines of notes may follow it."""
    lines = said.strip("\n").split("\n")
    for at, line in enumerate(lines):
        verb, _, rest = line.partition(" ")
        cause, _, about = rest.partition(" ")
        if verb == "refused" and cause:
            error = Refused.of(cause, values=[it for it in [about, *lines[at + 1 :]] if it])
            if isinstance(error, Unfinished):
                error.mend = functools.partial(act, "recover", folder, sha256, engine)
            return error
        if verb == "fault" and cause:
            note = "\n".join(lines[at + 1 :])
            return (Busy if note.endswith(OTHER) else Fault).noted(cause, raw(note))
    return EngineError(f"the engine ended with status {status}", status, said.strip())


def act(
    action: str, folder: Folder, sha256: bool = False, engine: Optional[str] = None, waiting: Optional[Callable[[], None]] = None
) -> None:
    """Does one thing, `create`, `check` or `recover`, with a folder; `waiting` is called a few times a second meanwhile."""
    words = command_line(action, folder, sha256, engine)
    try:
        process = subprocess.Popen(words, stdin=subprocess.DEVNULL, stdout=subprocess.DEVNULL, stderr=subprocess.PIPE, start_new_session=True)
    except OSError as error:
        raise EngineError(f"{words[0]} doesn't start: {error.strerror}") from error
    with process:
        try:
            said = _said(process, waiting)
        except BaseException:
            process.kill()
            raise
    if process.returncode:
        raise refusal(text(said), process.returncode, folder, sha256, engine)


def _said(process: "subprocess.Popen[bytes]", waiting: Optional[Callable[[], None]]) -> bytes:
    """Returns what a process says on standard error until its end."""
    while True:
        try:
            return process.communicate(timeout=0.2 if waiting else None)[1]
        except subprocess.TimeoutExpired:
            if waiting:
                waiting()


def patiently(call: Callable[[], T], seconds: float, while_raised: Union[Type[Exception], Tuple[Type[Exception], ...]]) -> T:
    """Returns what a call returns, which is made again and again while it raises this, for so many seconds at most."""
    end, pause = time.monotonic() + seconds, 0.01
    while True:
        try:
            return call()
        except while_raised:
            if time.monotonic() + pause > end:
                raise
        time.sleep(pause)
        pause = min(2 * pause, 0.2)


class Pending(Generic[T]):
    """A command on its way. `result()` waits for its reply."""

    def __init__(self, engine: "Engine", command: Command[T]) -> None:
        self.command, self.engine = command, engine
        self._value: Any = None
        self._error: Optional[HistoryError] = None
        self.done = False

    def result(self) -> T:
        """Returns the reply, for which it waits, or raises `Refused`, `Fault` or `EngineDied`."""
        if not self.done:
            self.engine.wait(self)
        if self._error is not None:
            raise self._error
        return self._value  # type: ignore[no-any-return]

    def settle(self, value: T) -> None:
        """Gives it a reply that is known otherwise."""
        self._value, self._error, self.done = value, None, True

    def _take(self, reply: Reply) -> None:
        try:
            self._value = self.command.value(reply)
        except (Refused, Fault) as error:
            self._error = error
        self.done = True

    def _fail(self, error: HistoryError) -> None:
        self._error, self.done = error, True


class Engine:
    """Sends commands over a transport, and takes their replies. Its methods may be called by several threads, which take turns."""

    def __init__(self, transport: Transport, timeout: Optional[float] = None) -> None:
        self.transport, self.timeout = transport, timeout
        self._lock, self._process = threading.RLock(), os.getpid()
        self._pending: Deque[Pending[Any]] = deque()
        self._parts = Parts(reply, keeps=False, note=transport.note)
        transport.put(transport.greeting)
        self._over: Optional[EngineDied] = None
        # Set while an interruption would leave what was sent or read out of step.
        self._busy = False

    @property
    def alive(self) -> bool:
        """Whether commands can be sent."""
        return self._over is None and self._is_here and self.transport.is_alive

    @property
    def _is_here(self) -> bool:
        """Whether this is the process that opened the folder, and no child of it."""
        return self._process == os.getpid()

    @property
    def over(self) -> Optional[EngineDied]:
        """What the engine's end was, once it has ended."""
        return self._over

    def send(self, command: Command[T], at_once: bool = True) -> Pending[T]:
        """Sends a command, and returns at once unless much waits to be written; then it reads replies meanwhile. One that needn't go at once is
        written with others, at the latest when a reply is waited for."""
        self._refuse_fork()
        pending = Pending(self, command)
        with self._lock, self._in_step():
            if self._over is not None:
                why = f"{self._over}; Repo.reopen() {self.transport.reopened}"
                raise EngineDied(why, self._over.status, command=command)
            self._pending.append(pending)
            self.transport.put(command.data)
            if at_once or self.transport.pieces >= TOGETHER or self.transport.unsent >= PIPE // 64:
                self.transport.write()
            while self.transport.unsent > UNSENT and self._over is None:
                self._transfer()
        return pending

    def wait(self, pending: Pending[Any]) -> None:
        """Waits until the reply is there or the engine has ended."""
        self._refuse_fork()
        with self._lock, self._in_step():
            self.transport.write()
            while not pending.done and self._over is None:
                self._transfer()
            if not pending.done and self._over is not None:
                pending._fail(self._over)

    def _refuse_fork(self) -> None:
        if not self._is_here:
            raise EngineError("the folder was opened before a fork, and belongs to the parent: open the folder anew after fork")

    @contextlib.contextmanager
    def _in_step(self) -> Iterator[None]:
        """Ends the engine if a reply can't be read, or reading one is interrupted, since what comes then belongs to nothing."""
        if self._busy:
            # That was interrupted too.
            self._end(INTERRUPTED, kill=True)
        self._busy = True
        try:
            yield
        except ProtocolError as error:
            self._end(f"the reply can't be read ({error})", kill=True)
            raise self._over if self._over is not None else error from error
        except BaseException:
            # What a signal's handler raises, and most of all a keyboard's interruption.
            if self._busy and self._over is None:
                self._end(INTERRUPTED, kill=True)
            raise
        self._busy = False

    def _transfer(self) -> None:
        """Waits until something can be written or read, and does that. The waiting alone may be interrupted."""
        self._busy = False
        ready = self.transport.wait(self.timeout)
        self._busy = True
        if ready is None:
            self._end(f"{self.transport.who} didn't answer for {self.timeout} seconds", kill=True)
            return
        self.transport.write()
        for source in ready:
            self._take(self.transport.read(source, PIPE if self._parts.needs_much else PIPE // 16))
        if not self.transport.sources:
            self._end(self.transport.ended)

    def _take(self, data: bytes) -> None:
        """Gives the commands that wait their replies, in their order."""
        for whole in self._parts.feed(data):
            if not self._pending:
                raise ProtocolError("a reply to nothing")
            pending = self._pending[0]
            pending._take(whole.value)
            self._pending.popleft()
            if pending.command.changes and whole.value.is_fault:
                self._end(f"{self.transport.who} ended after this: {pending._error}")
                return

    def _end(self, why: str, kill: bool = False) -> None:
        """Ends the engine, and fails all commands that wait. If this is interrupted, the next call goes on with it."""
        if self._over is not None:
            return
        self._busy = True
        status, said = self.transport.end(kill)
        if status < 0:
            with contextlib.suppress(ValueError):
                why += f", by signal {signal.Signals(-status).name}"
        while self._pending:
            it = self._pending.popleft()
            it._fail(EngineDied(why, status, said, it.command))
        self._over = EngineDied(why, status, said)
        self._busy = False

    def close(self, send: bool = True) -> None:
        """Sends what waits, unless that isn't wanted, ends the input, and waits for the engine's end. A command is done whole or not at all."""
        if not self._is_here:
            return
        with self._lock:
            while send and self._over is None and self._pending:
                with self._in_step():
                    self._transfer()
            self._end(f"{self.transport.who} was closed")

    def kill(self) -> None:
        """Ends the engine at once, as `kill -9` does."""
        if not self._is_here:
            return
        with self._lock:
            self._end(f"{self.transport.who} was killed", kill=True)

    def __del__(self) -> None:
        if hasattr(self, "_busy") and self._over is None and self._is_here:
            with contextlib.suppress(Exception):
                self._end(f"{self.transport.who} was closed")
