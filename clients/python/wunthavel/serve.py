"""`wunthavel serve SOCKET FOLDER`: one engine serves many clients, who speak docs/PROTOCOL.md over a socket as they would to the engine itself.

What was acknowledged is kept, whatever is killed. A lock beside the socket goes with the server and its engine, so that a new server waits until a killed
one's engine has ended; and an engine that finds another process in the folder is started again.
"""
import argparse
import asyncio
import contextlib
import fcntl
import json
import os
import re
import signal
import socket
import stat
import sys
from typing import Any, Callable, Dict, List, Optional, Sequence, Tuple

from .engine import find_engine, is_sha256, patiently
from .errors import HistoryError
from .keeper import Keeper, ServeError
from .server import Limits, Server
from .transport import tcp_address
from .worktree import store_of


def say(text: str) -> None:
    """Says something on standard error."""
    print(f"wunthavel serve: {text}", file=sys.stderr, flush=True)


# Addresses.


def listen_unix(path: str, mode: int) -> socket.socket:
    """Listens at a Unix socket, in the place of one that nobody listens at any more."""
    with contextlib.suppress(FileNotFoundError):
        if not stat.S_ISSOCK(os.stat(path).st_mode):
            raise ServeError(f"{path} exists and is no socket")
        with socket.socket(socket.AF_UNIX) as there:
            try:
                there.connect(path)
            except OSError:
                os.unlink(path)
            else:
                raise ServeError(f"a server listens at {path}")
    sock = socket.socket(socket.AF_UNIX)
    before = os.umask(0o177)
    try:
        sock.bind(path)
    except OSError as error:
        sock.close()
        raise ServeError(f"{path}: {error.strerror or error} (a socket's path has about 100 bytes at most)") from error
    finally:
        os.umask(before)
    os.chmod(path, mode)
    sock.listen(128)
    return sock


def listen_tcp(address: Tuple[str, int]) -> socket.socket:
    """Listens at a port of the loopback address."""
    sock = socket.socket(socket.AF_INET6 if ":" in address[0] else socket.AF_INET)
    try:
        sock.setsockopt(socket.SOL_SOCKET, socket.SO_REUSEADDR, 1)
        sock.bind(address)
        sock.listen(128)
    except OSError as error:
        sock.close()
        raise ServeError(f"{address[0]}:{address[1]}: {error.strerror}") from error
    return sock


def lock_beside(path: str, wait: float) -> int:
    """Keeps other servers from a socket's path, and returns what keeps them while it is open: here, or in an engine of a server that was killed."""
    at = os.open(path + ".lock", os.O_RDWR | os.O_CREAT | os.O_NOFOLLOW, 0o600)
    try:
        patiently(lambda: fcntl.flock(at, fcntl.LOCK_EX | fcntl.LOCK_NB), wait, BlockingIOError)
    except BlockingIOError:
        os.close(at)
        raise ServeError(f"{path}: a server listens there, or the engine of one still works") from None
    return at


# The command.


def _words() -> argparse.ArgumentParser:
    text = "Answers many clients over a Unix socket, with one engine on the folder. Clients speak the engine's own protocol."
    example = "example:\n  wunthavel serve /run/user/1000/store.sock store &\n  printf 'names\\n' | nc -NU /run/user/1000/store.sock"
    parser = argparse.ArgumentParser(prog="wunthavel serve", description=text, epilog=example, formatter_class=argparse.RawDescriptionHelpFormatter)
    parser.add_argument("socket", metavar="SOCKET", help="the path of the Unix socket, which is made; - for none, with --tcp")
    parser.add_argument("folder", metavar="FOLDER", help="the history's folder")
    parser.add_argument("--tcp", metavar="[HOST:]PORT", help="also listen at this port of the loopback address (0: any free one). Each user of the machine can reach it")
    parser.add_argument("--read-only", metavar="SOCKET", help="also listen at this Unix socket, which refuses commands that change something")
    parser.add_argument("--mode", metavar="OCTAL", default="600", help="who may use the socket, as chmod has it (600)")
    default = Limits()
    for name, what in (
        ("clients", "clients at once"),
        ("command", "bytes of one command; a larger one is refused as TooLarge"),
        ("held", "bytes of all clients' commands that aren't whole or wait; above it the largest one that isn't whole is refused as TooLarge"),
        ("waiting", "whole commands of one client that wait before it is read on"),
        ("ahead", "commands of one client that the engine has at once"),
        ("unread", "bytes of replies that a client leaves unread before it gets no more"),
        ("stall", "seconds that a client may stop inside a command, or leave replies unread; 0: any"),
        ("idle", "seconds that a client may say nothing; 0: any"),
        ("engine", "seconds that the engine may take for a command; 0: any"),
        ("folder", "seconds to wait for the folder at the start, and for the engine at the end"),
    ):
        value = getattr(default, name)
        flag = "--engine-time" if name == "engine" else "--folder-time" if name == "folder" else f"--{name}"
        parser.add_argument(flag, dest=f"limit_{name}", metavar="N", type=type(value), default=value, help=f"{what} ({value})")
    parser.add_argument("--sha256", action="store_true", help="the ids are of SHA-256, also if the folder has none yet")
    parser.add_argument("--engine", metavar="PROGRAM", help="the engine (else WUNTHAVEL_ENGINE, or wunthavel-history on PATH)")
    parser.add_argument("--json", action="store_true", help="say at which places it listens, and at the end what it did, as lines of JSON on standard output")
    parser.add_argument("--quiet", action="store_true", help="say nothing else")
    return parser


def _open_listeners(asked: argparse.Namespace) -> Tuple[List[socket.socket], List[str]]:
    listeners, places = [], []
    if asked.socket != "-":
        listeners.append(listen_unix(asked.socket, int(asked.mode, 8)))
        places.append(asked.socket)
    if asked.tcp is not None:
        listeners.append(listen_tcp(tcp_address(asked.tcp)))
        places.append("{}:{}".format(*listeners[-1].getsockname()[:2]))
    if asked.read_only is not None:
        listeners.append(listen_unix(asked.read_only, int(asked.mode, 8)))
        places.append(asked.read_only)
    if not listeners:
        raise ServeError("it has nowhere to listen: give a socket's path, --tcp or --read-only")
    return listeners, places


async def _serve(asked: argparse.Namespace, lock: Optional[int]) -> Dict[str, Any]:
    limits = Limits(*(getattr(asked, f"limit_{name}") for name in Limits._fields))
    report = (lambda text: None) if asked.quiet else say
    sha256, engine = asked.sha256 or is_sha256(asked.folder), asked.engine or find_engine()
    keeper = Keeper(asked.folder, sha256, engine, limits.folder, [] if lock is None else [lock], report)
    server = Server(keeper, limits, report)
    for it in (signal.SIGTERM, signal.SIGINT, signal.SIGHUP):
        asyncio.get_running_loop().add_signal_handler(it, server.stopping.set)
    keeping = asyncio.ensure_future(keeper.run())
    keeping.add_done_callback(lambda _: server.stopping.set())
    try:
        await _first(keeper.is_open, server.stopping)
        if not server.stopping.is_set():
            await _listen(asked, server, report)
    finally:
        keeping.cancel()
        with contextlib.suppress(asyncio.CancelledError):
            await keeping
    return {"done": True, **server.count, "restarts": keeper.restarts}


async def _first(*events: asyncio.Event) -> None:
    """Waits for one of these."""
    waits = [asyncio.ensure_future(it.wait()) for it in events]
    await asyncio.wait(waits, return_when=asyncio.FIRST_COMPLETED)
    for it in waits:
        it.cancel()


async def _listen(asked: argparse.Namespace, server: Server, report: Callable[[str], None]) -> None:
    """Serves at the places that are asked for."""
    listeners, places = _open_listeners(asked)
    sockets = [it for it in (asked.socket, asked.read_only) if it in places]
    try:
        if asked.json:
            print(json.dumps({"serving": places}), flush=True)
        else:
            report(f"{asked.folder} is served at {', '.join(places)}")
        count = len(listeners) - (asked.read_only is not None)
        await server.run(listeners[:count], listeners[count:])
    finally:
        for it in sockets:
            with contextlib.suppress(OSError):
                os.unlink(it)


def _run(asked: argparse.Namespace) -> Dict[str, Any]:
    asked.folder = store_of(asked.folder)
    if not os.path.isdir(asked.folder):
        raise ServeError(f"there is no folder {asked.folder}")
    lock = None if asked.socket == "-" else lock_beside(asked.socket, asked.limit_folder)
    try:
        return asyncio.run(_serve(asked, lock))
    finally:
        if lock is not None:
            os.close(lock)


def main(argv: Sequence[str]) -> int:
    """Does what the words say."""
    parser = _words()
    asked = parser.parse_args(argv)
    if not re.fullmatch("[0-7]{3,4}", asked.mode):
        parser.error(f"--mode {asked.mode} is none of chmod's")
    try:
        summary = _run(asked)
    except (HistoryError, OSError, ValueError) as error:
        summary = {"done": False, "error": str(error)}
        if not asked.json:
            say(str(error))
    if asked.json:
        print(json.dumps(summary), flush=True)
    return 0 if summary["done"] else 1
