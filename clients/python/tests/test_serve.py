"""The server: no reply is mixed, no client holds up another one, and nothing that was acknowledged is lost.

`WUNTHAVEL_LOAD=100000` makes the load test send so many commands; by default it sends fewer. All sockets are Unix ones or of 127.0.0.1.
"""
import asyncio
import contextlib
import errno
import inspect
import json
import os
import random
import re
import signal
import socket
import subprocess
import sys
import tempfile
import threading
import time
import unittest
from typing import Any, Callable, Dict, Iterator, List, Optional, Tuple

sys.path.insert(0, os.path.dirname(os.path.dirname(os.path.abspath(__file__))))

from wunthavel import AsyncRepo, BadName, Busy, EngineDied, EngineError, Fault, HistoryError, NotExpected, ReadOnly, Refused, ServedRepo
from wunthavel import connect, find_engine, protocol
from wunthavel.engine import act
from wunthavel.transport import tcp_address
from wunthavel.wire import LONGEST_LINE, BadCommand, Parts, Whole, command, reply
from tests import histories
from tests.support import PATIENCE, running, wait_until

PACKAGE = os.path.dirname(os.path.dirname(os.path.abspath(__file__)))
LOAD = int(os.environ.get("WUNTHAVEL_LOAD", "10000"))
ADA = protocol.Actor("Ada", "ada@example.org", 5, "+0000")
ACTOR = b"author 1 3 5 +0000\nA\na@b\ncommitter 1 3 5 +0000\nA\na@b\nmessage 1\nm\nend\n"
try:
    find_engine()
    MISSING: Optional[str] = None
except EngineError as error:
    MISSING = str(error)

# An engine that does what the name of a branch says, and writes down what it did.
FAKE = r"""#!%s
import os, sys, time
action, folder = sys.argv[1], sys.argv[-1]
done = os.path.join(folder, "done")
with open(done, "a") as it:
    it.write(action + "\n")
while action == "recover" and os.path.exists(os.path.join(folder, "hold")):
    time.sleep(0.01)
if action == "recover" and os.path.exists(os.path.join(folder, "full")):
    sys.exit("fault File\nnote: logs/HEAD: No space left on device")
if action != "run":
    sys.exit(0)
for line in sys.stdin.buffer:
    words = line.decode().split()
    if words[0] == "switch":
        with open(done, "a") as it:
            it.write(words[1] + "\n")
        what = words[1].split("/")[2]
        once = os.path.join(folder, what)
        if what == "die" or what == "die-once" and not os.path.exists(once):
            open(once, "w").close()
            os.kill(os.getpid(), 9)
        if what == "hang":
            time.sleep(600)
        print("fault File" if what == "fault" else "ok switch", flush=True)
        if what == "fault":
            sys.exit("note: objects/unfinished: No space left on device")
    elif words[0] == "files":
        if words[1] == "slow":
            time.sleep(0.01)
            with open(done, "a") as it:
                it.write("slow\n")
        once = os.path.join(folder, words[1])
        if words[1] == "poison" or words[1] == "once" and not os.path.exists(once):
            open(once, "w").close()
            print("ok fil", end="", flush=True)
            os.kill(os.getpid(), 9)
        print("ok files 0", flush=True)
    else:
        print("ok names 0 refs/heads/main", flush=True)
"""


class Served(unittest.TestCase):
    """A folder, a server on it, and clients."""

    def setUp(self) -> None:
        room = tempfile.TemporaryDirectory(prefix="serve-")
        self.addCleanup(room.cleanup)
        self.room = room.name
        self.folder, self.address = os.path.join(self.room, "store"), os.path.join(self.room, "socket")
        os.mkdir(self.folder)
        self.process: Optional["subprocess.Popen[bytes]"] = None
        self.addCleanup(self.stop)

    def start(self, *words: str, address: str = "") -> List[str]:
        """Starts a server, and returns where it listens."""
        call = [sys.executable, "-m", "wunthavel", "serve", address or self.address, self.folder, "--json", "--quiet", *words]
        env = {**os.environ, "PYTHONPATH": PACKAGE}
        self.process = subprocess.Popen(call, env=env, stdout=subprocess.PIPE, stderr=subprocess.DEVNULL)
        assert self.process.stdout
        said = json.loads(self.process.stdout.readline())
        self.assertIn("serving", said, said)
        return said["serving"]  # type: ignore[no-any-return]

    def stop(self, kill: bool = False) -> Dict[str, Any]:
        """Ends the server, and returns what it says that it did."""
        process, self.process = self.process, None
        if process is None:
            return {}
        process.send_signal(signal.SIGKILL if kill else signal.SIGTERM)
        with process:
            assert process.stdout
            lines = process.stdout.read().splitlines()
            status = process.wait(PATIENCE)
        if not kill:
            self.assertEqual(status, 0, lines)
        return json.loads(lines[-1]) if lines else {}

    def engines(self) -> List[int]:
        """Returns the process id of the server's engine, if one runs."""
        assert self.process
        with open(f"/proc/{self.process.pid}/task/{self.process.pid}/children", encoding="ascii") as it:
            return running(b"\0run\0", it.read().split())

    def kill_engine(self) -> None:
        """Kills the server's engine once one runs, and waits for its end."""
        wait_until(self.engines)
        for pid in self.engines():
            with contextlib.suppress(ProcessLookupError):
                os.kill(pid, signal.SIGKILL)
            wait_until(lambda: not running(b"\0run\0", [str(pid)]))

    def raw(self, address: Any = None) -> socket.socket:
        sock = socket.socket(socket.AF_UNIX) if address is None else socket.socket()
        sock.settimeout(PATIENCE)
        sock.connect(address or self.address)
        self.addCleanup(sock.close)
        return sock

    def ask(self, text: bytes) -> bytes:
        """Returns all that is replied to this until the server closes the connection."""
        sock = self.raw()
        # It may be closed before that is sent.
        with contextlib.suppress(OSError):
            sock.sendall(text)
            sock.shutdown(socket.SHUT_WR)
        return self.rest(sock)

    def rest(self, sock: socket.socket) -> bytes:
        said = b""
        with contextlib.suppress(ConnectionError):
            while True:
                part = sock.recv(1 << 16)
                if not part:
                    break
                said += part
        sock.close()
        return said

    def together(self, count: int, work: Callable[[int], None], seconds: float = 300) -> None:
        """Does the work in so many threads, and fails where one of them does."""
        failed: List[BaseException] = []

        def one(number: int) -> None:
            try:
                work(number)
            except BaseException as error:
                failed.append(error)

        threads = [threading.Thread(target=one, args=(it,), daemon=True) for it in range(count)]
        end = time.monotonic() + seconds
        for it in threads:
            it.start()
        for it in threads:
            it.join(max(0.0, end - time.monotonic()))
        self.assertFalse(any(it.is_alive() for it in threads), "a client is still waiting")
        if failed:
            raise failed[0]


@unittest.skipIf(MISSING, MISSING)
class WithTheEngine(Served):
    def setUp(self) -> None:
        super().setUp()
        act("create", self.folder)

    def commit(self, branch: str, number: int) -> bytes:
        content = b"%s %d" % (branch.encode(), number)
        return b"commit refs/heads/%s any\nput file 1 %d\na\n%s\n" % (branch.encode(), len(content), content) + ACTOR

    # Load.

    def client(self, number: int, commands: int) -> None:
        """Sends commands in parts of odd sizes, many ahead, and tests each reply: it must be of this client's command."""
        chance, branch, sock = random.Random(number), f"c{number}", self.raw()
        # A client waits long where many are before it.
        sock.settimeout(600)
        wanted: List[Tuple[bytes, Optional[bytes]]] = []
        at = 0
        for it in range(commands):
            if it % 25 == 0:
                at += 1
                wanted.append((self.commit(branch, at), None))
            elif it % 3:
                content = b"%s %d" % (branch.encode(), at)
                wanted.append((b"show refs/heads/%s path 1\na\n" % branch.encode(), content))
            else:
                word = b"none-%s-%d" % (branch.encode(), it)
                wanted.append((b"names refs/heads/%s\n" % word, b"ok names 0 refs/heads/main\n"))
        text = b"".join(it for it, _ in wanted)

        def send() -> None:
            sent = 0
            while sent < len(text):
                size = chance.randrange(1, 4000)
                sock.sendall(text[sent : sent + size])
                sent += size

        sending = threading.Thread(target=send, daemon=True)
        sending.start()
        parts, found = Parts(reply), []
        while len(found) < commands:
            data = sock.recv(1 << 16)
            self.assertTrue(data, "the server closed the connection")
            found += [it.data or b"" for it in parts.feed(data)]
        sending.join()
        for said, (_, content) in zip(found, wanted):
            if content is None:
                self.assertRegex(said, rb"\Aok commit [0-9a-f]{40}\n\Z")
            elif content.startswith(b"ok "):
                self.assertEqual(said, content)
            else:
                self.assertEqual(said.partition(b"\n")[2], content + b"\n")
        sock.close()

    def test_fifty_clients_and_no_reply_is_mixed(self) -> None:
        self.start()
        each = LOAD // 50
        self.together(50, lambda number: self.client(number, each), 3000)
        said = self.stop()
        self.assertEqual((said["clients"], said["commands"], said["restarts"]), (50, 50 * each, 0))
        act("check", self.folder)

    # Kills.

    def writer(self, number: int, acknowledged: Dict[str, List[str]], over: threading.Event) -> None:
        """Commits until the end, over a new connection where one is lost, and keeps what was acknowledged."""
        kept = acknowledged.setdefault(f"refs/heads/w{number}", [])
        count = 0
        while not over.is_set():
            try:
                with connect(self.address, actor=ADA) as repo:
                    while not over.is_set():
                        count += 1
                        kept.append(repo.commit(f"change {count}", name=f"refs/heads/w{number}").put("a", b"%d" % count).run())
            except HistoryError:
                time.sleep(0.02)

    def test_kills_of_engine_and_server_lose_nothing_acknowledged(self) -> None:
        self.start()
        chance, over = random.Random(3), threading.Event()
        acknowledged: Dict[str, List[str]] = {}
        threads = [threading.Thread(target=self.writer, args=(it, acknowledged, over), daemon=True) for it in range(6)]
        for it in threads:
            it.start()
        for number in range(8):
            time.sleep(0.2 + 0.5 * chance.random())
            if number % 2:
                self.stop(kill=True)
                self.start()
            else:
                self.kill_engine()
        wait_until(lambda: sum(map(len, acknowledged.values())) > 10)
        over.set()
        for it in threads:
            it.join(PATIENCE)
            self.assertFalse(it.is_alive())
        with connect(self.address) as repo:
            for name, ids in acknowledged.items():
                self.assertLessEqual(set(ids), set(repo.log_ids(name)) if ids else set())
        self.stop()
        act("check", self.folder)

    def test_readers_see_nothing_of_an_engine_s_end(self) -> None:
        self.start()
        self.ask(self.commit("main", 1))
        with connect(self.address) as repo:
            for _ in range(5):
                pending = [repo.send(protocol.content("main", "a")) for _ in range(300)]
                self.kill_engine()
                self.assertEqual({it.result().data for it in pending}, {b"main 1"})
                # These may all be of before the end, but this one isn't.
                self.assertEqual(repo.read("a", "main"), b"main 1")
        self.assertEqual(self.stop()["restarts"], 5)

    # Clients that stall, flood or die.

    def is_quick(self) -> None:
        """Another client is answered soon."""
        began = time.monotonic()
        self.assertIn(b"ok names", self.ask(b"names\n"))
        self.assertLess(time.monotonic() - began, 60)

    def test_a_client_that_stops_inside_a_command(self) -> None:
        self.start("--stall", "3")
        slow = self.raw()
        slow.sendall(b"names\n" + self.commit("main", 1)[:-4])
        for _ in range(3):
            self.is_quick()
        self.assertEqual(self.rest(slow), b"ok names 0 refs/heads/main\nrefused Truncated\n")
        self.assertEqual(self.ask(b"names\n"), b"ok names 0 refs/heads/main\n")

    def test_a_client_that_reads_no_replies(self) -> None:
        self.start("--stall", "3")
        self.ask(b"commit refs/heads/main new\nput file 1 3000000\na\n" + b"x" * 3000000 + b"\n" + ACTOR)
        deaf = self.raw()
        deaf.sendall(b"show main path 1\na\n" * 2000)
        for _ in range(4):
            self.is_quick()
        deaf.setblocking(False)

        def is_closed() -> bool:
            try:
                deaf.send(b"names\n")
            except BlockingIOError:
                return False
            except OSError:
                return True
            return False

        wait_until(is_closed)

    def test_a_client_that_floods(self) -> None:
        self.start()
        flood, over = self.raw(), threading.Event()
        flood.settimeout(0.2)

        def pour() -> None:
            text, at = b"names\n" * 1000, 0
            while not over.is_set():
                with contextlib.suppress(socket.timeout):
                    at = (at + flood.send(text[at:])) % len(text)

        def drink() -> None:
            while not over.is_set():
                with contextlib.suppress(socket.timeout):
                    flood.recv(1 << 16)

        threads = [threading.Thread(target=it, daemon=True) for it in (pour, drink)]
        for it in threads:
            it.start()
        try:
            time.sleep(0.3)
            for _ in range(5):
                self.is_quick()
        finally:
            over.set()
            for it in threads:
                it.join(10)

    def test_clients_that_die(self) -> None:
        self.start()
        whole = self.commit("main", 1)
        for cut in range(0, len(whole), 7):
            sock = self.raw()
            sock.sendall(b"names\n" * 50 + whole[:cut])
            sock.setsockopt(socket.SOL_SOCKET, socket.SO_LINGER, b"\x01\0\0\0\0\0\0\0")
            sock.close()
        self.assertEqual(self.ask(b"names\n"), b"ok names 0 refs/heads/main\n")
        self.assertEqual(self.stop()["restarts"], 0)

    # Limits.

    def test_what_is_no_command_ends_its_client_alone(self) -> None:
        self.start()
        other = self.raw()
        for text, cause in ((b"hello\n", b"Syntax"), (b"x" * 4097, b"LineTooLong"), (b"names", b"Truncated"), (b"show main path 1\nab\n", b"Syntax")):
            self.assertEqual(self.ask(b"names\n" + text), b"ok names 0 refs/heads/main\nrefused " + cause + b"\n")
        other.sendall(b"names\n")
        self.assertEqual(other.recv(100), b"ok names 0 refs/heads/main\n")
        self.assertEqual(self.stop()["restarts"], 0)

    def test_a_command_over_the_limit(self) -> None:
        self.start("--command", "10000")
        long = b"commit refs/heads/main new\nput file 1 100000\na\n" + b"x" * 100000 + b"\n" + ACTOR
        self.assertEqual(self.ask(b"names\n" + long + b"names\n").split(b"\n")[:3], [b"ok names 0 refs/heads/main", b"refused TooLarge", b"ok names 0 refs/heads/main"])

    def test_a_name_that_no_file_can_have(self) -> None:
        self.start()
        for name in ("a" * 251, "a" * 256 + "/b"):
            text = self.commit(name, 1) + b"switch refs/heads/" + name.encode() + b"\nnames\n"
            self.assertEqual(self.ask(text), b"refused BadName\n" * 2 + b"ok names 0 refs/heads/main\n")
        # What isn't a whole command is none before that.
        self.assertEqual(self.ask(self.commit("a" * 251, 1)[:-1]), b"refused Truncated\n")
        with connect(self.address, actor=ADA) as repo, self.assertRaises(BadName) as met:
            repo.move([("refs/heads/good", "main", "main"), ("refs/heads/" + "a" * 251, "main", "main")])
        self.assertEqual(self.stop()["restarts"], 0)

    def test_commands_of_all_clients_together(self) -> None:
        self.start("--held", "3000000")
        begun = b"commit refs/heads/a any\nput file 1 2000000\na\n"
        first, second = self.raw(), self.raw()
        first.sendall(begun + b"x" * 1900000)
        wait_until(lambda: self.ask(b"names\n"))
        second.sendall(begun + b"x" * 1800000)
        first.sendall(b"x" * 100000 + b"\n" + ACTOR)
        self.assertEqual(first.recv(100), b"refused TooLarge\n")
        second.sendall(b"x" * 200000 + b"\n" + ACTOR)
        self.assertRegex(second.recv(100), rb"\Aok commit ")

    def test_many_clients(self) -> None:
        self.start("--clients", "2")
        first, second = self.raw(), self.raw()
        for it in (first, second):
            it.sendall(b"names\n")
            it.recv(100)
        self.assertEqual(self.rest(self.raw()), b"fault Busy\n")
        with self.assertRaises(Busy):
            connect(self.address)
        first.close()
        wait_until(lambda: self.ask(b"names\n") == b"ok names 0 refs/heads/main\n")

    def test_a_client_that_says_nothing(self) -> None:
        self.start("--idle", "0.5")
        self.assertEqual(self.rest(self.raw()), b"")

    # Places.

    def test_a_port_of_the_loopback_address(self) -> None:
        host, port = self.start("--tcp", "0", address="-")[0].split(":")
        self.assertEqual(host, "127.0.0.1")
        with connect(f"{host}:{port}", actor=ADA) as repo:
            repo.commit("one").put("a", b"x").run()
            self.assertEqual(repo.read("a"), b"x")
        for text in ("0.0.0.0:80", "example.org:80", ":", "70000", "x"):
            with self.assertRaises(ValueError):
                tcp_address(text)

    def test_sockets_that_are_there(self) -> None:
        self.start()
        self.assertEqual(os.stat(self.address).st_mode & 0o777, 0o600)
        call = [sys.executable, "-m", "wunthavel", "serve", self.address, self.room, "--json", "--folder-time", "0.1"]
        env = {**os.environ, "PYTHONPATH": PACKAGE}
        for folder, why in ((self.folder, "a server listens"), (os.path.join(self.room, "none"), "no folder")):
            done = subprocess.run([*call[:5], folder, *call[6:]], env=env, stdout=subprocess.PIPE)
            self.assertIn(why, json.loads(done.stdout)["error"])
        other = os.path.join(self.room, "other")
        os.mkdir(other)
        act("create", other)
        done = subprocess.run([*call[:5], other, *call[6:]], env=env, stdout=subprocess.PIPE)
        self.assertIn("a server listens", json.loads(done.stdout)["error"])
        self.stop(kill=True)
        self.assertTrue(os.path.exists(self.address))
        self.start()
        self.stop()
        self.assertFalse(os.path.exists(self.address))
        with open(self.address, "w", encoding="ascii"):
            pass
        done = subprocess.run([*call[:5], self.folder, *call[6:]], env=env, stdout=subprocess.PIPE)
        self.assertIn("no socket", json.loads(done.stdout)["error"])
        with self.assertRaisesRegex(EngineError, "no server answers"):
            connect(self.address)

    def test_a_folder_that_a_stop_left_unfinished(self) -> None:
        with open(os.path.join(self.folder, "HEAD.lock"), "w", encoding="ascii"):
            pass
        self.start()
        self.assertEqual(self.ask(b"names\n"), b"ok names 0 refs/heads/main\n")

    def test_a_folder_that_is_none(self) -> None:
        os.remove(os.path.join(self.folder, "HEAD"))
        call = [sys.executable, "-m", "wunthavel", "serve", self.address, self.folder, "--json"]
        done = subprocess.run(call, env={**os.environ, "PYTHONPATH": PACKAGE}, stdout=subprocess.PIPE)
        self.assertIn("NoHead", json.loads(done.stdout)["error"])

    # The whole of Repo.

    def test_repo_over_a_socket(self) -> None:
        self.start()
        with connect(self.address, actor=ADA) as repo:
            first = repo.commit("one", expect=protocol.NEW).put("a", b"1").put("d/b", b"2").run()
            second = repo.commit("two", expect=first).put("a", b"3").run()
            with self.assertRaises(Refused):
                repo.commit("three", expect=first).put("a", b"4").run()
            self.assertEqual([it.id for it in repo.log()], [second, first])
            self.assertEqual([it.path for it in repo.files()], ["a", "d/b"])
            self.assertEqual([it.path for it in repo.diff_names(first, second)], ["a"])
            self.assertEqual([it.title for it in repo.past()], ["two", "one"])
            self.assertEqual(sum(1 for _ in repo.batch(protocol.show(first) for _ in range(5000))), 5000)
            repo.tag("v1")
            repo._wait = 0.1
            self.stop()
            with self.assertRaises(EngineDied):
                repo.show()

    def test_a_connection_is_made_again(self) -> None:
        self.start()
        with connect(self.address, actor=ADA, wait=PATIENCE) as repo:
            first = repo.commit("one").put("a", b"1").run()
            for kill in (True, False):
                self.stop(kill=kill)
                self.start()
                self.assertEqual([it.id for it in repo.batch([protocol.show("main")] * 300)], [first] * 300)
            self.stop()
            self.start()
            second = repo.commit("two", expect=first).put("a", b"2").run()
            self.stop()
            self.start()
            # Whether this one was done can't be known.
            with self.assertRaises(EngineDied):
                repo.commit("three").put("a", b"3").run()
            self.assertEqual([it.id for it in repo.log()], [second, first])

    def test_a_change_that_was_done_before_the_connection_ended_is_found(self) -> None:
        self.start()
        with connect(self.address, actor=ADA, wait=PATIENCE) as repo:
            first = repo.commit("one", expect=protocol.NEW).put("a", b"1").run()
            sent = repo.send(repo.commit("two", expect=first).put("a", b"2").command())
            id = sent.result()
            for expect, title, content, found in ((first, "two", b"2", id), (first, "two", b"other", None), (first, "other", b"2", None), (protocol.NEW, "one", b"1", first)):
                again = repo.commit(title, expect=expect).put("a", content).command()
                pending = repo.send(again)
                with contextlib.suppress(Refused):
                    pending.result()
                refused = found is None
                with self.assertRaises(Refused) if refused else contextlib.nullcontext():
                    repo._look_whether_done(pending, EngineDied("gone"))
                    self.assertEqual(pending.result(), found)

    def test_updates_beside_kills_are_counted_once(self) -> None:
        self.start()
        with connect(self.address, actor=ADA) as repo:
            repo.commit("Begin", name="main").put("count", b"0").run()
        done: List[int] = []

        def kill() -> None:
            # Not before something was done since the last time, so that there is an end.
            for count in range(4, 76, 6):
                wait_until(lambda: len(done) >= count)
                self.kill_engine()

        def add(number: int) -> None:
            if not number:
                kill()
                return
            with connect(self.address, actor=protocol.Actor(f"w{number}", "", 5), wait=PATIENCE) as repo:
                for it in range(20):
                    repo.update("main", lambda edit: edit.put("count", b"%d" % (1 + int(repo.read("count", edit.base or "")))), f"{it}")
                    done.append(number)

        self.together(5, add)
        with connect(self.address) as repo:
            self.assertEqual(repo.read("count", "main"), b"80")

    # Waiting, and reading alone.

    def test_a_change_is_waited_for(self) -> None:
        self.start()
        with connect(self.address, actor=ADA) as repo:
            found: List[Optional[str]] = []
            waiting = threading.Thread(target=lambda: found.append(repo.wait("main", timeout=PATIENCE)), daemon=True)
            waiting.start()
            time.sleep(0.3)
            repo.commit("other", name="other").put("a", b"1").run()
            time.sleep(0.3)
            self.assertEqual(found, [])
            first = repo.commit("one").put("a", b"1").run()
            waiting.join(PATIENCE)
            self.assertEqual(found, [first])
            self.assertEqual(repo.wait("main", timeout=PATIENCE), first)
            began = time.monotonic()
            self.assertEqual(repo.wait("main", first, timeout=0.5), first)
            self.assertGreaterEqual(time.monotonic() - began, 0.5)
        # Replies come in order, and before the end.
        self.assertEqual(self.ask(b"wait refs/heads/main 2 300\nnames refs/none\n"), b"ok wait 2\nok names 0 refs/heads/main\n")

    def test_a_socket_for_reading_alone(self) -> None:
        readers = os.path.join(self.room, "readers")
        self.assertEqual(self.start("--read-only", readers), [self.address, readers])
        with connect(self.address, actor=ADA) as repo, connect(readers, actor=ADA) as reader:
            first = repo.commit("one").put("a", b"1").run()
            self.assertEqual((reader.resolve(), reader.read("a"), reader.index()), (first, b"1", 1))
            changes: List[Callable[[], object]] = [lambda: reader.commit("two").put("a", b"2").run(), lambda: reader.tag("v1"), lambda: reader.delete("main")]
            changes += [lambda: reader.move({"b": "main"}), lambda: reader.rename("main", "b"), lambda: reader.switch("b"), reader.pack]
            for change in changes:
                with self.assertRaises(ReadOnly):
                    change()
            self.assertEqual((reader.resolve(), reader.head), (first, "refs/heads/main"))
        self.stop()
        self.assertFalse(os.path.exists(readers))

    # asyncio.

    def test_tasks_of_asyncio(self) -> None:
        self.start()
        asyncio.run(self.tasks())

    async def tasks(self) -> None:
        async with await AsyncRepo.connect(self.address, actor=ADA) as repo:
            self.assertEqual(await repo.files(), [])
            waiting = asyncio.ensure_future(repo.wait("main", timeout=PATIENCE))
            first = await repo.commit("Begin", expect=protocol.NEW).put("count", b"0").put("d/a", b"x").run()
            self.assertEqual(await waiting, first)
            async with repo.commit("Aside", name="aside") as edit:
                edit.put("b", b"2")

            async def count(edit: Any) -> None:
                edit.put("count", b"%d" % (1 + int(await repo.read("count", edit.base))))

            await asyncio.gather(*(repo.update("main", count, f"{it}", author=protocol.Actor(f"{it}", "", 5)) for it in range(20)))
            self.assertEqual((await repo.read("count"), await repo.resolve("main~20"), await repo.head()), (b"20", first, "refs/heads/main"))
            shown = await asyncio.gather(*(repo.show(it) for it in await repo.log_ids()))
            self.assertEqual([it.id for it in shown], [it.id async for it in repo.log()])
            self.assertEqual([it.name for it in await repo.names("heads")], ["refs/heads/aside", "refs/heads/main"])
            self.assertEqual([it.name for it in await repo.list()], ["count", "d"])
            self.assertEqual([it.path async for it, _ in repo.contents("d")], ["d/a"])
            self.assertEqual([it.path for it in await repo.diff_names(first)], ["count"])
            self.assertEqual((await repo.diff(first, "main", "count"))[:24], b"--- a/count\n+++ b/count\n")
            self.assertEqual([it.commit.id for it in await repo.blame("d/a")], [first])
            with self.assertRaises(NotExpected):
                await repo.commit("Late", name="main", expect=first).put("count", b"").run()
            self.stop()
            with self.assertRaises(EngineDied):
                await repo.show()
            self.assertTrue(repo.closed)
            self.start()
            await repo.reopen()
            self.assertEqual(await repo.read("count"), b"20")

    def test_asyncio_has_the_calls_of_repo(self) -> None:
        for name in dir(ServedRepo):
            here, there = getattr(ServedRepo, name), getattr(AsyncRepo, name, None)
            if name.startswith("_") or name in ("create", "check", "recover", "kill", "pid", "send"):
                continue
            self.assertIsNotNone(there, name)
            if inspect.isfunction(here) and name not in ("close", "reopen", "batch", "results"):
                self.assertEqual(list(inspect.signature(here).parameters), list(inspect.signature(there).parameters), name)


class WithAFakeEngine(Served):
    def setUp(self) -> None:
        super().setUp()
        self.fake = os.path.join(self.room, "fake")
        with open(self.fake, "w", encoding="ascii") as it:
            it.write(FAKE % sys.executable)
        os.chmod(self.fake, 0o755)

    def begin(self, *words: str) -> None:
        self.start("--engine", self.fake, *words)

    def done(self) -> List[str]:
        with open(os.path.join(self.folder, "done"), encoding="ascii") as it:
            return it.read().split()

    def switch(self, *names: str) -> bytes:
        return b"".join(b"switch refs/heads/%s\n" % it.encode() for it in names)

    def test_after_a_fault_in_a_change_its_client_ends_and_others_go_on(self) -> None:
        self.begin()
        other = self.raw()
        self.assertEqual(self.ask(self.switch("a", "fault", "b")), b"ok switch\nfault File\n")
        other.sendall(self.switch("c"))
        self.assertEqual(other.recv(100), b"ok switch\n")
        self.assertEqual(self.done(), ["run", "refs/heads/a", "refs/heads/fault", "recover", "run", "refs/heads/c"])

    def test_a_change_whose_end_is_not_known_is_never_done_twice(self) -> None:
        self.begin()
        self.assertEqual(self.ask(self.switch("a", "die", "b")), b"ok switch\n")
        self.assertEqual(self.ask(self.switch("c")), b"ok switch\n")
        self.assertEqual(self.done(), ["run", "refs/heads/a", "refs/heads/die", "recover", "run", "refs/heads/c"])

    def test_a_question_is_asked_again_but_not_where_it_ends_engines(self) -> None:
        self.begin()
        self.assertEqual(self.ask(b"files once\n" + self.switch("a")), b"ok files 0\nok switch\n")
        self.assertEqual(self.ask(b"files poison\n" + self.switch("b")), b"")
        self.assertEqual(self.ask(b"names\n"), b"ok names 0 refs/heads/main\n")
        self.assertNotIn("refs/heads/b", self.done())

    def test_changes_behind_the_one_that_is_not_known_are_done_once(self) -> None:
        self.begin()
        first, second = self.raw(), self.raw()
        first.sendall(self.switch("die-once"))
        second.sendall(self.switch("x", "y"))
        self.assertEqual(self.some(second, 2), b"ok switch\n" * 2)
        self.assertEqual(self.done().count("refs/heads/x"), 1)

    def test_clients_are_heard_while_the_folder_is_recovered(self) -> None:
        self.begin()
        hold = os.path.join(self.folder, "hold")
        open(hold, "w").close()
        self.assertEqual(self.ask(self.switch("die")), b"")
        waiting = self.raw()
        waiting.sendall(b"names\n")
        self.assertEqual(self.ask(b"hello\n"), b"refused Syntax\n")
        os.remove(hold)
        self.assertEqual(waiting.recv(100), b"ok names 0 refs/heads/main\n")

    def test_many_long_questions_hold_nobody_long(self) -> None:
        self.begin()
        for _ in range(30):
            self.raw().sendall(b"files slow\n" * 40)
        wait_until(lambda: len(self.done()) > 100)
        before = len(self.done())
        self.assertEqual(self.ask(b"names\n"), b"ok names 0 refs/heads/main\n")
        # The engine had 64 of them, and each other client has one turn before this one.
        self.assertLess(len(self.done()) - before, 64 + 31 + 20)

    def test_notes_are_for_those_who_ask(self) -> None:
        self.begin()
        self.assertEqual(self.ask(self.switch("fault")), b"fault File\n")
        said = b"fault File\nnote: objects/unfinished: No space left on device\n"
        self.assertEqual(self.ask(b"notes\n" + self.switch("fault")), said)
        # It is a first line alone.
        self.assertEqual(self.ask(b"names\nnotes\n"), b"ok names 0 refs/heads/main\nrefused Syntax\n")
        with connect(self.address) as repo, self.assertRaises(Fault) as met:
            repo.switch("fault")
        self.assertEqual((met.exception.path, met.exception.reason, met.exception.errno), ("objects/unfinished", "No space left on device", errno.ENOSPC))
        self.assertTrue(repo.closed)

    def test_while_recovering_fails_the_server_stays_and_says_why(self) -> None:
        self.begin()
        full = os.path.join(self.folder, "full")
        open(full, "w").close()
        self.assertEqual(self.ask(self.switch("die")), b"")
        said = b"fault File\nnote: logs/HEAD: No space left on device\n"
        for _ in range(20):
            self.assertEqual(self.ask(b"notes\n" + b"names\n" * 2), said * 2)
        self.assertEqual(self.ask(b"notes\nnames\n" + self.switch("a", "b")), said * 2)
        self.assertEqual(self.done().count("run"), 1)
        self.assertLess(self.done().count("recover"), 20)
        os.remove(full)
        wait_until(lambda: self.ask(b"names\n") == b"ok names 0 refs/heads/main\n")
        self.assertEqual(self.ask(self.switch("a")), b"ok switch\n")

    def some(self, sock: socket.socket, lines: int) -> bytes:
        said = b""
        while said.count(b"\n") < lines:
            part = sock.recv(100)
            self.assertTrue(part)
            said += part
        return said

    def test_an_engine_that_thinks_for_too_long(self) -> None:
        self.begin("--engine-time", "5")
        self.assertEqual(self.ask(self.switch("hang")), b"")
        self.assertEqual(self.ask(self.switch("a")), b"ok switch\n")

    def test_the_end_waits_for_replies(self) -> None:
        self.begin()
        sock = self.raw()
        sock.sendall(self.switch(*["a"] * 10))
        said = self.some(sock, 1)
        self.stop()
        said += self.rest(sock)
        self.assertEqual(said.count(b"ok switch\n"), self.done().count("refs/heads/a"))


class Wire(unittest.TestCase):
    def streams(self) -> Iterator[bytes]:
        yield b"".join(it.data for it in histories.commands(30, 1))
        top = os.path.join(PACKAGE, "../..")
        for name in ("demo/first.stream", "crates/history_program/stdin"):
            path = os.path.join(top, name)
            if os.path.exists(path):
                with open(path, "rb") as it:
                    yield it.read()

    def test_streams_are_cut_into_the_same_commands_in_parts_of_any_size(self) -> None:
        for text in self.streams():
            whole, cause = self.cut(text, len(text))
            for size in (1, 3, 1000):
                self.assertEqual(self.cut(text, size), (whole, cause))
            self.assertEqual(b"".join(it.data or b"" for it in whole), text[: sum(len(it.data or b"") for it in whole)])

    def cut(self, text: bytes, size: int) -> Tuple[List[Whole], str]:
        """Returns the commands of a stream that comes in parts of this size, and by which cause it ends."""
        parts: Parts[bool] = Parts(command, LONGEST_LINE)
        found: List[Whole] = []
        try:
            for at in range(0, len(text), size):
                # One after another, since those before the end are wanted too.
                for whole in parts.feed(text[at : at + size]):
                    found.append(whole)
        except BadCommand as bad:
            return found, bad.cause
        return found, "" if parts.is_between else "Truncated"

    def test_lines(self) -> None:
        good = ["log newest-since 5 all +a -b +c path 1 path 2\nx\nyz\n", "show a path 0\n\n", "delete at at at\n", "rename a b\n", "names\n", "names x\n", "move\nto a new b\nto c at d e\nactor 1 1 x y\na\nb\nmessage 0\n\nend\n"]
        good += ["commit a at b\nparent c\ngraft 1 w 0\na\n\nremove 1\nb\nput link 1 2\nc\nxy\nauthor 0 0 a b\n\n\ncommitter 0 0 a b\n\n\nmessage 1\nm\nend\n"]
        bad = ["log newest all -b\n", "log all +a\n", "log newest all +\n", "show a path 01\n\n", "show a  b\n", "names \n", "\n", "delete a new\n", "move\nactor 1 1 x y\n", "tag a any\n", "show a path 18446744073709551616\n", "commit a any b\n"]
        for text in good:
            self.assertEqual([it.data for it in Parts(command, LONGEST_LINE).feed(text.encode())], [text.encode()])
        for text in bad:
            self.assertEqual(self.cut(text.encode(), 1 << 16)[1], "Syntax", text)

    def test_large_commands_are_read_past(self) -> None:
        long = b"commit a any\nput file 1 500\na\n" + b"x" * 500 + b"\n" + b"remove 1\nb\n" * 50 + ACTOR
        for size in (1, 7, 10000):
            parts = Parts(command, LONGEST_LINE, 300)
            text, found, most = b"names\n" + long + b"names x\n", [], 0
            for at in range(0, len(text), size):
                found += parts.feed(text[at : at + size])
                most = max(most, parts.held)
            self.assertEqual([it.data for it in found], [b"names\n", None, b"names x\n"])
            self.assertTrue(size > 1000 or most < 320, most)
            self.assertTrue(parts.is_between)

    @unittest.skipIf(MISSING, MISSING)
    def test_the_engine_takes_the_same_lines(self) -> None:
        """Each stream, changed at a random place, ends by the same cause here and in the engine."""
        chance, text = random.Random(11), b"".join(it for it in self.streams())[:3000]
        words = [b" ", b"\n", b"0", b"any", b"+x", b"path 1", b"commit a new\n", b"end\n", b"x", b"show "]
        for _ in range(60):
            at, size = chance.randrange(len(text)), chance.choice((0, 0, 1, 5))
            changed = text[:at] + chance.choice(words) + text[at + size :]
            done = subprocess.run([find_engine()], input=changed, stdout=subprocess.PIPE, stderr=subprocess.DEVNULL)
            said = done.stdout.splitlines()[-1] if done.stdout else b""
            ends = said[8:].decode() if said in (b"refused Syntax", b"refused LineTooLong", b"refused Truncated") else ""
            whole, cause = self.cut(changed, len(changed))
            self.assertEqual(cause, ends, changed[max(0, at - 60) : at + 60])
            replies = list(Parts(reply).feed(done.stdout))
            self.assertEqual(len(replies), len(whole) + bool(ends))


if __name__ == "__main__":
    unittest.main()
