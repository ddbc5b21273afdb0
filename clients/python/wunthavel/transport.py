"""Bytes to an engine and from it: over the pipes of its process, or over the socket of a server.

Nothing here waits but `wait` and `end`. So whoever calls waits by `wait`, or by an event loop that watches `given` and `sources`.
"""
import contextlib
import fcntl
import itertools
import os
import re
import select
import socket
import subprocess
import weakref
from collections import deque
from typing import Callable, Deque, List, NamedTuple, Optional, Sequence, Tuple, Union

from .errors import EngineError
from .wire import GREETING

Address = Union[str, Tuple[str, int]]
LOOPBACK = ("127.0.0.1", "localhost", "::1")
PIPE = 1 << 20
# So many pieces are written by one call.
TOGETHER = 256
# How much of what a process says on standard error is kept.
MOST_SAID = 1 << 16
# How many seconds a process may go on after its pipes were closed.
PATIENCE = 30.0


class End(NamedTuple):
    """How a process ended, and what it said on standard error; for a connection nothing is known of both."""

    status: int = 0
    said: str = ""


# Those that a child of a fork closes, since else they wouldn't end while it runs.
_OPEN: "weakref.WeakSet[Transport]" = weakref.WeakSet()


class Transport:
    """Where bytes are written, `given`, and where they are read, `sources`: of these those that haven't come to their ends."""

    # What it is, what its end is, and what it does if it is opened again, for a person.
    who, ended, reopened = "the engine", "the engine ended", "recovers the folder and opens it again"
    # What is written before all commands.
    greeting = b""
    pid = 0

    def __init__(self, given: int, *sources: int) -> None:
        _OPEN.add(self)
        self.given, self.sources = given, list(sources)
        self._pieces: Deque[memoryview] = deque()
        # How many bytes wait to be written, and whether any can be.
        self.unsent, self.can_write = 0, True
        for it in {given, *sources}:
            os.set_blocking(it, False)

    @property
    def pieces(self) -> int:
        """How many pieces wait to be written."""
        return len(self._pieces)

    def put(self, data: bytes) -> None:
        """Has these bytes written by a later `write`."""
        if self.can_write and data:
            self._pieces.append(memoryview(data))
            self.unsent += len(data)

    def write(self) -> None:
        """Writes what is taken at once."""
        while self._pieces:
            try:
                count = os.writev(self.given, list(itertools.islice(self._pieces, TOGETHER)))
            except BlockingIOError:
                return
            except OSError:
                # What it replied before it ended is still read.
                self.drop()
                return
            self.unsent -= count
            while self._pieces and count >= len(self._pieces[0]):
                count -= len(self._pieces.popleft())
            if count:
                self._pieces[0] = self._pieces[0][count:]

    def drop(self) -> None:
        """Writes nothing more."""
        self.can_write, self.unsent = False, 0
        self._pieces.clear()

    def read(self, source: int, most: int = 1 << 16) -> bytes:
        """Returns what came from a source, if it is a part of replies. At its end it is no source any more."""
        if source not in self.sources:
            return b""
        try:
            data = os.read(source, most)
        except BlockingIOError:
            return b""
        except OSError:
            data = b""
        if not data:
            self.sources.remove(source)
        return data

    # Returns the next note, empty if none comes, or None if it isn't there yet; notes are among the replies if this isn't there.
    note: Optional[Callable[[], Optional[bytes]]] = None

    def wait(self, timeout: Optional[float]) -> Optional[List[int]]:
        """Waits until something can be written or read, and returns the sources that have something; None if that takes too long."""
        poll = select.poll()
        events = {it: select.POLLIN for it in self.sources}
        if self._pieces:
            events[self.given] = events.get(self.given, 0) | select.POLLOUT
        for it, wanted in events.items():
            poll.register(it, wanted)
        ready = poll.poll(None if timeout is None else timeout * 1000)
        return [it for it, found in ready if it in self.sources and found != select.POLLOUT] if ready else None

    @property
    def is_alive(self) -> bool:
        """Whether there is somebody who could reply."""
        return self.can_write

    def end(self, kill: bool = False, patience: float = PATIENCE) -> End:
        """Ends it: at once, or once it has done what it has, if that takes no longer than so many seconds."""
        raise NotImplementedError

    def forsake(self) -> None:
        """Closes what a child of a fork has of it, which the other side doesn't notice."""
        raise NotImplementedError


def _forsake_all() -> None:
    for it in list(_OPEN):
        it.forsake()


os.register_at_fork(after_in_child=_forsake_all)


class Process(Transport):
    """An engine's process. It ends with its input. `kept` are files that it keeps open."""

    def __init__(self, words: Sequence[str], kept: Sequence[int] = ()) -> None:
        pipe = subprocess.PIPE
        try:
            self._process = subprocess.Popen(words, stdin=pipe, stdout=pipe, stderr=pipe, bufsize=0, start_new_session=True, pass_fds=kept)
        except OSError as error:
            raise EngineError(f"{words[0]} doesn't start: {error.strerror}") from error
        assert self._process.stdin and self._process.stdout and self._process.stderr
        self.pid = self._process.pid
        self._stdin, self._stdout, self._stderr = self._process.stdin, self._process.stdout, self._process.stderr
        self._noted, self._said, self.note = self._stderr.fileno(), bytearray(), self._next_note
        super().__init__(self._stdin.fileno(), self._stdout.fileno(), self._noted)
        for it in (self._stdin, self._stdout):
            with contextlib.suppress(OSError, AttributeError):
                fcntl.fcntl(it, getattr(fcntl, "F_SETPIPE_SZ", 1031), PIPE)

    def read(self, source: int, most: int = 1 << 16) -> bytes:
        data = super().read(source, most)
        if source != self._noted:
            return data
        self._said += data[: MOST_SAID - len(self._said)]
        return b""

    def _next_note(self) -> Optional[bytes]:
        # It is written just after the reply.
        if self._noted in self.sources:
            self.read(self._noted)
        line, end, rest = self._said.partition(b"\n")
        if not end:
            return None if self._noted in self.sources else b""
        self._said = rest
        return bytes(line)

    @property
    def is_alive(self) -> bool:
        return self.can_write and self._process.poll() is None

    def end(self, kill: bool = False, patience: float = PATIENCE) -> End:
        self.drop()
        self.sources.clear()
        if kill:
            self._kill()
        return self._ended(patience)

    def _ended(self, patience: float) -> End:
        """Waits for the end of a process without input; one that then lives on is killed."""
        for it in (self._stdin, self._stdout):
            with contextlib.suppress(OSError):
                it.close()
        self._process.stdin = self._process.stdout = None
        try:
            said = self._process.communicate(timeout=patience)[1]
        except subprocess.TimeoutExpired:
            self._kill()
            said = self._process.communicate()[1]
        said = (bytes(self._said) + (said or b""))[:MOST_SAID]
        return End(self._process.returncode, said.decode("utf-8", "surrogateescape").strip())

    def _kill(self) -> None:
        with contextlib.suppress(OSError):
            self._process.kill()

    def forsake(self) -> None:
        for it in (self._stdin, self._stdout, self._stderr):
            with contextlib.suppress(OSError):
                it.close()
        # It is no child of this process, which never waits for it.
        self._process.returncode = 0


class Socket(Transport):
    """A connection to a server, whose engine replies."""

    who, ended, reopened = "the connection", "the server closed the connection", "connects again"
    # The server is to write notes among the replies.
    greeting = GREETING + b"\n"

    def __init__(self, address: Address) -> None:
        self._socket = _connect(address)
        super().__init__(self._socket.fileno(), self._socket.fileno())

    def end(self, kill: bool = False, patience: float = PATIENCE) -> End:
        self.drop()
        self.sources.clear()
        self._socket.close()
        return End()

    def forsake(self) -> None:
        self._socket.close()

    @property
    def is_alive(self) -> bool:
        try:
            return self.can_write and self._socket.recv(1, socket.MSG_PEEK | socket.MSG_DONTWAIT) != b""
        except BlockingIOError:
            return True
        except OSError:
            return False


def tcp_address(text: str) -> Tuple[str, int]:
    """Reads `PORT` or `HOST:PORT`; the host is one of this machine alone."""
    host, _, port = text.rpartition(":")
    host = host.strip("[]") or LOOPBACK[0]
    if host not in LOOPBACK or not port.isdigit() or int(port) > 65535:
        raise ValueError(f"{text!r} isn't PORT or HOST:PORT with a host of {', '.join(LOOPBACK)}: whoever reaches a port can read and write")
    return host, int(port)


def _connect(address: Address) -> socket.socket:
    if isinstance(address, str) and "/" not in address and re.fullmatch(r"(.+:)?[0-9]+", address) and not os.path.exists(address):
        address = tcp_address(address)
    try:
        if isinstance(address, tuple):
            return socket.create_connection(address)
        with contextlib.ExitStack() as stack:
            sock = stack.enter_context(socket.socket(socket.AF_UNIX))
            sock.connect(address)
            stack.pop_all()
            return sock
    except OSError as error:
        raise EngineError(f"no server answers at {address}: {error.strerror or error}") from error
