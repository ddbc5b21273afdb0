"""Keeps an engine running on a folder, for the server.

If the engine ends (a fault, a kill), the folder is recovered and opened again. Then the engine has written the replies of all commands that it did but
the first one without a reply: whether that one was done isn't known, so if it changes the repository it is given up; the others are sent again.
"""
import asyncio
import time
from collections import deque
from dataclasses import dataclass
from typing import Any, Callable, Deque, Optional, Sequence

from .engine import act, command_line, refusal
from .errors import Busy, EngineError, Fault, HistoryError, ProtocolError, Refused, Unfinished
from .texts import raw
from .transport import PIPE, End, Process
from .wire import Parts, Reply, Whole, reply

# How many commands, and how many bytes of them, the engine has at once. What a client asks that is behind waits for so many.
MOST_FLYING, MOST_UNSENT = 64, 1 << 18
# Replies after which a run ends, besides a fault in a changing command.
ENDS = (b"refused Syntax\n", b"refused LineTooLong\n", b"refused Truncated\n")
# How many seconds are at least between two tries to recover the folder that fail.
PAUSE = 1.0
# So often the engine may end in a row before it replied once.
TRIES = 5
# A question with a short answer: the engine replies once it has opened the folder.
OPENED = b"names refs/wunthavel/none\n"


class ServeError(HistoryError):
    """The server can't begin or go on, for the reason that its text says."""


@dataclass(eq=False)
class Flight:
    """A command that the engine has or is to get, of this client; the keeper's own has none."""

    client: Any
    data: bytes
    changes: bool
    names: Sequence[bytes] = ()
    tries: int = 0


class Keeper:
    """Has an engine do commands in their order. A client has a `take` for each reply, which is given whether that is the last one of its run, and a `lose` for a
    command to which no reply will come."""

    def __init__(self, folder: str, sha256: bool, engine: str, wait: float, kept: Sequence[int], say: Callable[[str], None]) -> None:
        self.folder, self._place, self._wait, self._kept, self._say = folder, (folder, sha256, engine), wait, kept, say
        self.flying: Deque[Flight] = deque()
        self.restarts = self._barren = 0
        # Set once the folder is open.
        self.is_open = asyncio.Event()
        # Called once commands are taken again.
        self.after_start: Callable[[], None] = lambda: None
        # Set by a reply after which the engine does no further command.
        self._is_over = self._kills = False
        # Set while there is no engine since recovering fails; and by each command that is given.
        self._is_troubled, self._wanted = False, asyncio.Event()
        self._process: Optional[Process] = None
        self._busy_until = self._heard = time.monotonic()

    @property
    def takes_more(self) -> bool:
        """Whether a command can be given to the engine now, or be replied to without one."""
        unsent = self._process.unsent if self._process is not None else 0
        return (self._process is not None or self._is_troubled) and len(self.flying) < MOST_FLYING and unsent < MOST_UNSENT

    @property
    def is_quiet(self) -> bool:
        """Whether an engine runs, and has no command that changes something."""
        return self._process is not None and not self._is_over and not any(it.changes for it in self.flying)

    def send(self, flight: Flight) -> None:
        """Gives the engine a command, which a later `write` writes."""
        if not self.flying:
            self._heard = time.monotonic()
        self.flying.append(flight)
        self._wanted.set()
        if self._process is not None:
            self._process.put(flight.data)

    def write(self) -> None:
        """Writes what the engine takes, and the rest once it takes more."""
        if self._process is None:
            return
        self._process.write()
        loop = asyncio.get_running_loop()
        if self._process.unsent:
            loop.add_writer(self._process.given, self.write)
        else:
            loop.remove_writer(self._process.given)

    def look(self, seconds: float) -> None:
        """Ends an engine that takes longer than this for a command."""
        if seconds and self.flying and self._process is not None and time.monotonic() - self._heard > seconds:
            self._say(f"the engine didn't reply for {seconds:g} seconds")
            self._stop_engine()

    async def run(self) -> None:
        """Keeps an engine running until it is cancelled; a `ServeError` says why none runs."""
        self._busy_until = time.monotonic() + self._wait
        self.send(Flight(None, OPENED, False))
        while True:
            end = await self._run_engine()
            if self.is_open.is_set():
                self._say(f"the engine ended ({end.said or f'its status is {end.status}'}); the folder is recovered and opened again")
            self._settle()
            await self._mend(end)
            self.restarts += 1

    async def _run_engine(self) -> End:
        """Runs an engine until it ends."""
        loop = asyncio.get_running_loop()
        process = self._process = Process(command_line("run", *self._place), self._kept)
        self._parts: Parts[Reply] = Parts(reply, note=process.note)
        self._ended, self._is_over, self._kills = asyncio.Event(), False, False
        self._heard = time.monotonic()
        for source in process.sources:
            loop.add_reader(source, self._receive, source)
        for it in self.flying:
            process.put(it.data)
        self.write()
        self.after_start()
        try:
            await self._ended.wait()
        finally:
            loop.remove_writer(process.given)
            for source in process.sources:
                loop.remove_reader(source)
            self._process = None
            end = await asyncio.to_thread(process.end, self._kills, self._wait)
        return end

    def _stop_engine(self) -> None:
        self._kills = True
        self._ended.set()

    def _receive(self, source: int) -> None:
        """Takes what came of replies or notes."""
        process = self._process
        if process is None or self._ended.is_set():
            return
        data = process.read(source, PIPE)
        if source not in process.sources:
            asyncio.get_running_loop().remove_reader(source)
        self._heard = time.monotonic()
        try:
            for whole in self._parts.feed(data):
                self._take(whole)
        except (ProtocolError, IndexError):
            self._say("the engine's reply can't be read")
            self._stop_engine()
        if not process.sources:
            self._ended.set()

    def _take(self, whole: Whole) -> None:
        self._barren, self._busy_until = 0, self._heard + self._wait
        flight = self.flying.popleft()
        if whole.value.is_fault and flight.changes or whole.data in ENDS:
            self._is_over = True
        if flight.client is None:
            self.is_open.set()
        else:
            flight.client.take(flight, whole, self._is_over)

    def _settle(self) -> None:
        """Keeps those commands without replies that are sent again."""
        first = self.flying[0] if self.flying else None
        if first is not None and first.client is not None and not self._is_over:
            first.tries += 1
            if first.changes or first.tries > 1:
                # Whether it was done isn't known, or it ends engines.
                first.client.lose(first)
        self.flying = deque(it for it in self.flying if it.client is None or it.client.waits)

    async def _mend(self, end: End) -> None:
        """Has the folder as an engine can open it, if that can be done."""
        error = refusal(end.said, end.status, *self._place)
        if isinstance(error, Busy):
            await self._pause(error)
            return
        if isinstance(error, Fault):
            await self._stay(error)
        else:
            self._barren += 1
        if self._barren > TRIES or isinstance(error, Refused) and not isinstance(error, Unfinished):
            raise ServeError(f"the engine doesn't run: {error}")
        while not await self._recover():
            pass

    async def _recover(self) -> bool:
        try:
            await asyncio.to_thread(act, "recover", *self._place)
            return True
        except Busy as error:
            await self._pause(error)
        except Fault as error:
            await self._stay(error)
        except EngineError as error:
            # As if it was killed.
            self._barren += 1
            if self._barren > TRIES:
                raise ServeError(f"the folder isn't recovered: {error}") from error
        return False

    async def _stay(self, error: Fault) -> None:
        """Replies by a fault to each command, until it is time to try again and there is a command to try it for."""
        if not self.is_open.is_set():
            raise ServeError(f"the folder can't be opened: {error}") from error
        note = f"note: {error.path}: {error.reason}" if error.reason is not None else ""
        reply = Reply([b"fault", b"File"], [], raw(note))
        end, self._is_troubled = time.monotonic() + PAUSE, True
        while True:
            while self.flying:
                flight = self.flying.popleft()
                flight.client.take(flight, Whole(b"fault File\n", reply), flight.changes)
            self._wanted.clear()
            self.after_start()
            await self._wanted.wait()
            if time.monotonic() > end:
                break
        self._is_troubled = False

    async def _pause(self, error: Busy) -> None:
        """Waits a little for another process that works in the folder."""
        if time.monotonic() > self._busy_until:
            raise ServeError(f"{self.folder}: {error}")
        await asyncio.sleep(0.05)
