"""Passes commands and replies between many clients and one engine.

Whole commands are passed on, one of each client in turn, and whole replies back. So commands of two clients are never mixed, and a client that stalls,
floods or dies holds up nobody: what isn't whole waits with its client, and what it doesn't read does too, up to limits and times.
"""
import asyncio
import contextlib
import itertools
import os
import socket
import time
from collections import deque
from dataclasses import dataclass
from typing import Callable, Deque, Dict, Iterator, List, NamedTuple, Optional, Sequence, Set, Tuple

from .keeper import Flight, Keeper
from .wire import LONGEST_LINE, OWN, Asked, BadCommand, Parts, Whole, served_command

# How many seconds are between two looks at the times.
LOOK = 0.25


class Limits(NamedTuple):
    """What clients may take. Times are in seconds; 0 is none."""

    clients: int = 256
    # Bytes of one command, whole commands of one client that wait, and commands of one client that the engine has.
    command: int = 64 << 20
    waiting: int = 64
    ahead: int = 16
    # Bytes of the commands of all clients that aren't whole or wait.
    held: int = 256 << 20
    # Bytes of replies that wait for a client to read them, above which it gets no further ones.
    unread: int = 1 << 20
    # How long a client may stop inside a command, or not read its replies; how long it may say nothing; how long the engine may think.
    stall: float = 60.0
    idle: float = 0.0
    engine: float = 600.0
    # How long a new server waits for the folder, and a stopping one for its engine.
    folder: float = 10.0


class Waiting(NamedTuple):
    """A command that waits for its turn. One that isn't passed on has its reply."""

    data: bytes
    asked: Asked
    refusal: bytes = b""

    @property
    def is_passed_on(self) -> bool:
        """Whether the engine has a part in it."""
        return not self.refusal and not self.data.startswith(OWN)


class Client(asyncio.Protocol):
    """A client's connection: its commands wait here for their turn, and its replies for it to read them."""

    transport: asyncio.Transport

    def __init__(self, server: "Server", is_reader: bool) -> None:
        self.server, self.limits, self._is_reader = server, server.limits, is_reader
        # The first line may ask for notes.
        readings = (served_command(may_greet=number == 0) for number in itertools.count())
        self.parts = Parts(lambda: next(readings), LONGEST_LINE, self.limits.command)
        self._wants_notes = False
        # Commands that came and aren't looked at yet; those that wait; how many the engine has; what is sent next.
        self._coming: Iterator[Whole] = iter(())
        self.ready: Deque[Waiting] = deque()
        self._ready_bytes = self.flying = 0
        # How many bytes of its commands are counted.
        self._held = 0
        self._replies: List[bytes] = []
        # About how large its replies are: they are taken for large until they are known.
        self._usual = self.limits.unread // 4
        # Set once nothing more is read of it: then this line follows its replies, and the connection is closed.
        self.last: Optional[bytes] = None
        self._has_ended = self._is_full = self._is_cut = self.in_turn = False
        self._heard = self._wrote = time.monotonic()
        self._unread = 0

    # What asyncio calls.

    def connection_made(self, transport: asyncio.BaseTransport) -> None:
        assert isinstance(transport, asyncio.Transport)
        self.transport = transport
        transport.set_write_buffer_limits(self.limits.unread)
        self.server.welcome(self)

    def data_received(self, data: bytes) -> None:
        self._heard = time.monotonic()
        if self.last is None:
            self._coming = self.parts.feed(data)
            self._refill()
            self._count()
            self.server.queue(self)

    def eof_received(self) -> bool:
        self._has_ended = True
        self._refill()
        return True

    def pause_writing(self) -> None:
        self._is_full = True

    def resume_writing(self) -> None:
        self._is_full = False
        self.server.queue(self)

    def connection_lost(self, error: Optional[Exception]) -> None:
        self.cut()
        self.server.leave(self)

    # Commands.

    def _refill(self) -> None:
        """Takes commands of what came, while few wait, and reads on once there is nothing left of it."""
        if self.last is not None:
            return
        try:
            while len(self.ready) < self.limits.waiting and self._ready_bytes <= self.limits.command:
                whole = next(self._coming, None)
                if whole is None:
                    self._read_on()
                    return
                if whole.value.greets:
                    self._wants_notes = True
                    continue
                self.ready.append(self._waiting(whole))
                self._ready_bytes += len(self.ready[-1].data)
        except BadCommand as bad:
            self.finish(f"refused {bad.cause}\n".encode())
        self.transport.pause_reading()

    def _waiting(self, whole: Whole) -> Waiting:
        asked: Asked = whole.value
        if asked.changes and self._is_reader:
            return Waiting(b"", asked, b"refused ReadOnly\n")
        if whole.data is None:
            return Waiting(b"", asked, b"refused TooLarge\n")
        if asked.changes and any(self.server.is_too_long(it) for it in asked.names):
            return Waiting(b"", asked, b"refused BadName\n")
        return Waiting(whole.data, asked)

    def _count(self) -> None:
        """Has the server know how many bytes of its commands wait."""
        held = self._ready_bytes + self.parts.held
        self.server.hold(held - self._held)
        self._held = held

    def _read_on(self) -> None:
        if self._has_ended:
            self.finish(b"" if self.parts.is_between else b"refused Truncated\n")
        elif not self.transport.is_closing():
            self.transport.resume_reading()

    @property
    def waits(self) -> bool:
        """Whether it still waits for replies."""
        return not self._is_cut

    @property
    def may_send(self) -> bool:
        """Whether its next command can be given to the engine."""
        if not self.ready or self._is_full or self.server.has_wait(self):
            return False
        if self.ready[0].is_passed_on and self.ready[0].asked.changes and self.server.holds_back:
            return False
        if not self.flying:
            return True
        is_room = self.transport.get_write_buffer_size() + self.flying * self._usual < self.limits.unread
        return is_room and self.ready[0].is_passed_on and self.flying < self.limits.ahead

    def next_flight(self) -> Optional[Flight]:
        """Returns its next command, or None if that is replied to here."""
        it = self.ready.popleft()
        self._ready_bytes -= len(it.data)
        if len(self.ready) < self.limits.waiting // 2:
            self._refill()
        self._count()
        if it.refusal:
            # It waited for its turn among the client's replies.
            self.reply(it.refusal)
            return None
        if not it.is_passed_on:
            self.server.answer(self, it.data)
            return None
        self.flying += 1
        return Flight(self, it.data, it.asked.changes, it.asked.names)

    # Replies.

    def reply(self, reply: bytes) -> None:
        """Sends a reply."""
        self._replies.append(reply)
        self.server.has_replies(self)

    def take(self, flight: Flight, whole: Whole, is_last: bool) -> None:
        """Takes the reply to a command. If the engine's run ends by it, so does this client's."""
        self.server.count["commands"] += 1
        if flight.changes and whole.value.words[0] != b"refused":
            self.server.moved(flight.names)
        if self._is_cut:
            return
        reply = whole.data or b""
        if self._wants_notes and reply == b"fault File\n":
            reply += (whole.value.note or b"note: ") + b"\n"
        self.flying -= 1
        self._usual = max(len(reply), self._usual // 2)
        self._replies.append(reply)
        if is_last:
            self.cut()
        self.server.has_replies(self)

    def lose(self, flight: Flight) -> None:
        """Gives up what it waits for, since no reply to a command will come. It may have been done."""
        if flight.changes:
            self.server.moved(flight.names)
        self.cut()

    def finish(self, last: bytes) -> None:
        """Reads nothing more; what it waits for is still sent, and then this line."""
        self.last = last
        self.transport.pause_reading()
        self.server.has_replies(self)

    def cut(self) -> None:
        """Gives up what it waits for. The replies that are there are still sent."""
        self.server.end_wait(self)
        self.server.end_hold(self)
        self._is_cut, self.flying, self._ready_bytes = True, 0, 0
        self.ready.clear()
        self._coming = iter(())
        self.parts.clear()
        self._count()
        self.finish(b"")

    def flush(self) -> None:
        """Sends the replies that are there, and ends the connection after the last one."""
        if self.transport.is_closing():
            return
        if self._replies:
            self.transport.write(b"".join(self._replies))
            self._replies.clear()
        if self.last is not None and not self.ready and not self.flying and not self.server.has_wait(self):
            self.transport.write(self.last)
            self.transport.close()

    def look(self, now: float) -> Optional[str]:
        """Ends a connection that takes too long, and returns what it did."""
        unread = self.transport.get_write_buffer_size()
        if unread != self._unread:
            self._unread, self._wrote = unread, now
        stall, idle = self.limits.stall, self.limits.idle
        if stall and unread and now - self._wrote > stall:
            self.transport.abort()
            return "doesn't read its replies"
        is_inside = self.last is None and self.transport.is_reading() and not self.parts.is_between
        if stall and is_inside and now - self._heard > stall:
            self.finish(b"refused Truncated\n")
            return "stopped inside a command"
        is_idle = not (self.ready or self.flying or unread or self.server.has_wait(self))
        if idle and is_idle and now - self._heard > idle:
            self.transport.close()
        return None


@dataclass
class Hold:
    """Changes are held back for a client, until this timer ends that. `restarts` is how often the engine had been started when the client was given the reply
    that there is none; until then it waits."""

    client: Client
    timer: asyncio.TimerHandle
    restarts: Optional[int] = None


class Server:
    """The clients of an engine, and whose turn it is."""

    def __init__(self, keeper: Keeper, limits: Limits, say: Callable[[str], None]) -> None:
        self.keeper, self.limits, self._say = keeper, limits, say
        keeper.after_start = self._schedule
        self._clients: Dict[Client, int] = {}
        self._turns: Deque[Client] = deque()
        self._touched: Set[Client] = set()
        self._is_scheduled, self._held = False, 0
        # How many changes were made, and who waits for one of which name, with the end of the time for that.
        self._moves = 0
        self._waits: Dict[Client, Tuple[bytes, asyncio.TimerHandle]] = {}
        self._hold: Optional[Hold] = None
        self._folder_length = len(os.fsencode(keeper.folder))
        self.count = {"clients": 0, "commands": 0, "refused_clients": 0}
        self.stopping = asyncio.Event()

    async def run(self, listeners: Sequence[socket.socket], for_readers: Sequence[socket.socket] = ()) -> None:
        """Serves until `stopping` is set, and then until the engine has replied to what it has. Some listeners are for reading alone."""
        loop = asyncio.get_running_loop()
        servers = [await loop.create_server(lambda: Client(self, False), sock=it, backlog=128) for it in listeners]
        servers += [await loop.create_server(lambda: Client(self, True), sock=it, backlog=128) for it in for_readers]
        looking = asyncio.ensure_future(self._look())
        await self.stopping.wait()
        for it in servers:
            it.close()
        with contextlib.suppress(asyncio.TimeoutError):
            await asyncio.wait_for(self._drain(), self.limits.folder)
        looking.cancel()
        for client in list(self._clients):
            client.transport.abort()

    async def _drain(self) -> None:
        """Waits until each reply was sent that is to come."""
        while self.keeper.flying or self._touched or any(it.transport.get_write_buffer_size() for it in self._clients):
            await asyncio.sleep(0.01)

    async def _look(self) -> None:
        while True:
            await asyncio.sleep(LOOK)
            now = time.monotonic()
            for client, number in list(self._clients.items()):
                what = client.look(now)
                if what:
                    self._say(f"client {number} {what}, and is closed")
            self.keeper.look(self.limits.engine)

    # What clients may ask for.

    def is_too_long(self, name: bytes) -> bool:
        """Whether the system can't take the path of a name with its lock."""
        *folders, last = name.split(b"/")
        return len(last) > 250 or any(len(it) > 255 for it in folders) or self._folder_length + 1 + len(name) > 4085

    def hold(self, more: int) -> None:
        """Counts bytes of commands. Above the limit the largest command that isn't whole is read past."""
        self._held += more
        if more > 0 and self._held > self.limits.held:
            largest = max(self._clients, key=lambda it: it.parts.held, default=None)
            if largest is not None:
                largest.parts.drop()

    def answer(self, client: Client, line: bytes) -> None:
        """Does a command that isn't passed on."""
        if line.startswith(b"wait "):
            self.wait(client, line)
        elif line.startswith(b"hold "):
            self.hold_back(client, int(line.split()[1]))
        else:
            self.release(client)

    # A client for which changes are held back.

    @property
    def holds_back(self) -> bool:
        """Whether no command that changes something is passed on."""
        return self._hold is not None

    def hold_back(self, client: Client, milliseconds: int) -> None:
        """Holds changes back for a client, unless that is done for another one."""
        if self._hold is not None:
            client.reply(b"fault Busy\n")
            return
        timer = asyncio.get_running_loop().call_later(milliseconds / 1000, self.end_hold, client)
        self._hold = Hold(client, timer)
        self._schedule()

    def _grant_hold(self) -> None:
        hold = self._hold
        if hold is not None and hold.restarts is None and self.keeper.is_quiet:
            hold.restarts = self.keeper.restarts
            hold.client.reply(b"ok hold\n")

    def release(self, client: Client) -> None:
        """Lets changes go on, and says whether there could be none. While no engine runs another process may have the folder."""
        hold = self._hold
        is_kept = hold is not None and hold.client is client and hold.restarts == self.keeper.restarts and self.keeper.is_quiet
        client.reply(b"ok release\n" if is_kept else b"refused NotHeld\n")
        self.end_hold(client)

    def end_hold(self, client: Client) -> None:
        """Lets changes go on, if they are held back for this client."""
        hold = self._hold
        if hold is None or hold.client is not client:
            return
        self._hold = None
        hold.timer.cancel()
        if hold.restarts is None:
            client.reply(b"refused NotHeld\n")
        for it in self._clients:
            self.queue(it)

    # Clients that wait for a change.

    def wait(self, client: Client, line: bytes) -> None:
        """Has a client wait for a change of a name, unless others came that it doesn't know."""
        _, name, known, milliseconds = line.split()
        if int(known) != self._moves:
            client.reply(b"ok wait %d\n" % self._moves)
            return
        timer = asyncio.get_running_loop().call_later(int(milliseconds) / 1000, self.end_wait, client)
        self._waits[client] = (name, timer)

    def has_wait(self, client: Client) -> bool:
        """Whether a client waits for a change, or for the end of those that the engine has."""
        return client in self._waits or self._hold is not None and self._hold.client is client and self._hold.restarts is None

    def end_wait(self, client: Client) -> None:
        """Replies to a client that waits."""
        wait = self._waits.pop(client, None)
        if wait is not None:
            wait[1].cancel()
            client.reply(b"ok wait %d\n" % self._moves)

    def moved(self, names: Sequence[bytes]) -> None:
        """Ends the waits for these names. HEAD may be any."""
        self._moves += 1
        for client, (name, _) in list(self._waits.items()):
            if name in names or b"HEAD" in names or name == b"HEAD":
                self.end_wait(client)

    # Clients.

    def welcome(self, client: Client) -> None:
        """Takes a client in, unless there are too many."""
        if len(self._clients) >= self.limits.clients:
            self.count["refused_clients"] += 1
            client.finish(b"fault Busy\n")
            client.flush()
            return
        self.count["clients"] += 1
        self._clients[client] = self.count["clients"]

    def leave(self, client: Client) -> None:
        """Forgets a client whose connection has ended."""
        self._clients.pop(client, None)

    def queue(self, client: Client) -> None:
        """Lets a client have a turn, if it has a command that can be passed on."""
        self._line_up(client)
        self._schedule()

    def _line_up(self, client: Client) -> None:
        if not client.in_turn and client.may_send:
            client.in_turn = True
            self._turns.append(client)

    def has_replies(self, client: Client) -> None:
        """Has a client's replies sent, together with those that come at the same time."""
        self._touched.add(client)
        self._schedule()

    def _schedule(self) -> None:
        if not self._is_scheduled:
            self._is_scheduled = True
            asyncio.get_running_loop().call_soon(self._pass_on)

    def _pass_on(self) -> None:
        """Sends replies, and gives the engine one command of each client in turn while it takes them."""
        self._is_scheduled = False
        self._grant_hold()
        touched, self._touched = self._touched, set()
        for client in touched:
            client.flush()
            self._line_up(client)
        while self._turns and self.keeper.takes_more and not self.stopping.is_set():
            client = self._turns.popleft()
            client.in_turn = False
            if client.may_send:
                flight = client.next_flight()
                if flight is not None:
                    self.keeper.send(flight)
                self._line_up(client)
        self.keeper.write()
